// The programs' text, read as it stands: nothing is reckoned from it.
const number = word => word === '-' ? null : Number(word);

// A line of a piece or of a tile's list: kind, attribute, first tile, end tile, alpha index, nesting, panel.
const readPiece = line => {
  const [kind, attribute, first, end, alpha, nesting, panel] = line.split(' ');
  return { kind: kind === 'l' ? 'layer' : 'draw', attribute: +attribute, first: +first, end: +end, alpha: number(alpha), nesting: +nesting, panel: +panel };
};

const readPieces = text => text.split('\n').filter(line => /^[pl] /.test(line)).map(readPiece);

// A stored line of a row: a depth fill counts buckets, every other one tiles.
const readStored = line => {
  const words = line.split(' ');
  const at = words.slice(1).map(number);
  switch (words[0]) {
    case 'D': return { line, kind: 'fill', first: at[0], end: at[1], attribute: at[2] };
    case 'P': return { line, kind: 'draw', first: at[0], end: at[1], alpha: at[2], attribute: at[3] };
    case 'L': return { line, kind: 'layer', first: at[0], end: at[1], alpha: at[2], attribute: at[3] };
    case 'B': return { line, kind: 'push', first: at[0], end: at[1] };
    default: return { line, kind: 'pop' };
  }
};

// The text of `rowdump --panels`: rows with what is stored and painted, and each attribute's panel.
const readDump = text => {
  const rows = [], draws = [], layers = [];
  let row = null;
  for (const line of text.split('\n')) {
    if (line.startsWith('row ')) rows.push(row = { fills: [], commands: [], pieces: [] });
    else if (line.startsWith('painted ')) row = rows[+line.split(' ')[1]];
    else if (line.startsWith('D ')) row.fills.push(readStored(line));
    else if (/^[PLBE]( |$)/.test(line)) row.commands.push(readStored(line));
    else if (line.startsWith('A ')) draws.push(+line.slice(line.lastIndexOf(' ') + 1));
    else if (line.startsWith('Y ')) layers.push(+line.slice(line.lastIndexOf(' ') + 1));
    else if (/^[pl] /.test(line)) row.pieces.push(readPiece(line));
  }
  return { rows, draws, layers };
};

// The lines of `why`: kind, number, reason.
const readReasons = text => text.split('\n').filter(Boolean).map(line => {
  const found = /^(draw|layer) (\d+): (.*)$/.exec(line);
  return found ? { kind: found[1], number: +found[2], reason: found[3] } : { kind: '', number: 0, reason: line };
});

// Which of the reasons it is, by how its words begin.
const reasonKind = reason => reason.startsWith('shown') ? 'shown' : reason.startsWith('hidden by') ? 'hidden' : reason.startsWith('cut away') ? 'cut'
  : reason.startsWith('row never') ? 'untouched' : 'none';

const signOf = { shown: '●', hidden: '◩', cut: '✂', untouched: '◌', none: '' };
