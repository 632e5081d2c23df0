// Colours and patterns, for both themes.
const isDark = () => document.documentElement.dataset.theme === 'dark';
let palette = {};
const readPalette = () => {
  const style = getComputedStyle(document.documentElement);
  palette = {};
  for (const name of ['ground', 'panel', 'ink', 'soft', 'line', 'line-strong', 'accent', 'wash', 'shown', 'hidden', 'cut', 'differs', 'empty']) palette[name] = style.getPropertyValue('--' + name).trim();
  colourOf.known.clear();
  pattern.known.clear();
};

// Neighbouring numbers get hues far apart.
const colourOf = n => {
  if (!colourOf.known.has(n)) {
    const hue = (212 + n * 137.508) % 360, turn = Math.floor(n / 9) % 3;
    colourOf.known.set(n, isDark() ? `hsl(${hue} ${42 - 6 * turn}% ${44 - 6 * turn}%)` : `hsl(${hue} ${52 - 8 * turn}% ${70 - 6 * turn}%)`);
  }
  return colourOf.known.get(n);
};
colourOf.known = new Map();

// Drawn once a kind and theme: hatching, crossed hatching, dots, lines.
const pattern = (g, kind) => {
  if (!pattern.known.has(kind)) {
    const tile = document.createElement('canvas');
    tile.width = tile.height = 8;
    const p = tile.getContext('2d');
    p.strokeStyle = p.fillStyle = palette[{ hidden: 'hidden', cut: 'cut', untouched: 'cut', differs: 'differs', soft: 'ink', layer: 'ink' }[kind]];
    p.lineWidth = 1.6;
    p.beginPath();
    if (kind === 'hidden' || kind === 'differs') for (const x of [-8, 0, 8]) { p.moveTo(x, 8); p.lineTo(x + 8, 0); }
    if (kind === 'differs') for (const x of [-8, 0, 8]) { p.moveTo(x, 0); p.lineTo(x + 8, 8); }
    if (kind === 'untouched') { p.moveTo(0, 4); p.lineTo(8, 4); }
    p.stroke();
    if (kind === 'cut') for (const [x, y] of [[2, 2], [6, 6]]) { p.beginPath(); p.arc(x, y, 1.5, 0, 7); p.fill(); }
    if (kind === 'soft') { p.globalAlpha = 0.55; p.fillRect(1, 1, 1, 1); p.fillRect(5, 5, 1, 1); }
    pattern.known.set(kind, tile);
  }
  return g.createPattern(pattern.known.get(kind), 'repeat');
};
pattern.known = new Map();

// A mark over a stretch of tiles, told apart by its form: an outline, hatching, dots, lines, crossed hatching.
const drawMark = (g, kind, x, y, w, h) => {
  if (kind === 'shown') {
    g.strokeStyle = palette.shown;
    g.lineWidth = 2.5;
    g.strokeRect(x + 1.25, y + 1.25, Math.max(w - 2.5, 1), Math.max(h - 2.5, 1));
    return;
  }
  g.fillStyle = pattern(g, kind);
  g.fillRect(x, y, w, h);
  if (kind === 'differs') {
    g.strokeStyle = palette.differs;
    g.lineWidth = 1.5;
    g.strokeRect(x + 0.75, y + 0.75, Math.max(w - 1.5, 1), Math.max(h - 1.5, 1));
  }
};
