// A row painted step by step: its depth fills from the newest, then its commands. The painted pieces are given to the steps in their order.

// Which pieces are a step's: the next ones of its attribute that lie within it.
const stepsOf = (row, bucketTiles) => {
  const steps = [...row.fills].reverse().concat(row.commands).map(stored => ({ stored, pieces: [] }));
  let at = 0;
  for (const step of steps) {
    const { kind, attribute, first, end } = step.stored, unit = kind === 'fill' ? bucketTiles : 1;
    if (kind === 'push' || kind === 'pop') continue;
    const own = kind === 'layer' ? 'layer' : 'draw';
    let last = first * unit;
    while (at < row.pieces.length) {
      const piece = row.pieces[at];
      if (piece.kind !== own || piece.attribute !== attribute || piece.first < last || piece.end > end * unit) break;
      step.pieces.push(piece);
      last = piece.end;
      at++;
    }
  }
  return { steps, isWhole: at === row.pieces.length };
};

// The depth words after so many steps: each bucket that a depth fill's pieces took holds that fill.
const depthWords = (steps, done, buckets, bucketTiles) => {
  const words = new Array(buckets).fill(null);
  for (const { stored, pieces } of steps.slice(0, done)) {
    if (stored.kind !== 'fill') continue;
    for (const piece of pieces) for (let bucket = Math.floor(piece.first / bucketTiles); bucket * bucketTiles < piece.end; bucket++) words[bucket] = stored.attribute;
  }
  return words;
};

const tell = piece => `${piece.first} to ${piece.end}${piece.alpha === null ? '' : `, alpha ${piece.alpha}`}`;
const stepName = ({ kind, attribute, first, end }) => ({
  fill: `Depth fill of draw ${attribute}, buckets ${first} to ${end}`, draw: `Paint draw ${attribute}, tiles ${first} to ${end}`,
  layer: `Close layer ${attribute} into the buffer below, tiles ${first} to ${end}`, push: `Open a buffer, tiles ${first} to ${end}`, pop: 'End the buffer',
})[kind];
