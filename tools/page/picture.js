// The picture of a screen: rows of tiles, moved and zoomed. What lies on a tile is drawn as the painted pieces come, one over the other.
const GUTTER = 38, AXIS = 18;

// Where the picture stands; two pictures share it. x is the tile at the left edge, y the row at the upper.
const view = { x: 0, y: 0, scale: 1, isFit: true, by: 'attribute', layers: true, fills: true };

const insetOf = (height, nesting) => Math.min(nesting * Math.max(2, height / 9), height / 3);

// One piece in its row: a paint fills, deeper nesting is set in; a layer's piece closes a buffer and is drawn as a frame.
const drawPiece = (g, piece, x, y, w, height, by, layers) => {
  const colour = colourOf(by === 'panel' ? piece.panel : piece.attribute), inset = insetOf(height, piece.nesting);
  if (piece.kind === 'layer') {
    if (!layers) return;
    const top = insetOf(height, piece.nesting) / 2 + 0.5;
    g.strokeStyle = palette.ink;
    g.lineWidth = 1;
    g.setLineDash(piece.alpha === null ? [] : [3, 2]);
    g.strokeRect(x + 0.5, y + top, Math.max(w - 1, 1), Math.max(height - 2 * top, 1));
    g.setLineDash([]);
    return;
  }
  const set = layers ? inset : 0;
  g.fillStyle = colour;
  g.fillRect(x, y + set, w, height - 2 * set);
  if (piece.alpha !== null) {
    g.fillStyle = pattern(g, 'soft');
    g.fillRect(x, y + set, w, height - 2 * set);
  }
};

class Picture {
  constructor(canvas, slot, act) {
    Object.assign(this, { canvas, slot, act, g: canvas.getContext('2d', { alpha: false }), told: null, dump: null, runs: [], drag: null });
    canvas.addEventListener('wheel', event => this.onWheel(event), { passive: false });
    canvas.addEventListener('pointerdown', event => this.onDown(event));
    canvas.addEventListener('pointermove', event => this.onMove(event));
    canvas.addEventListener('pointerup', event => this.onUp(event));
    canvas.addEventListener('pointercancel', () => { this.drag = null; });
    canvas.addEventListener('pointerleave', () => act.hover(null));
  }

  show(told, dump) {
    Object.assign(this, { told, dump });
    this.canvas.setAttribute('aria-label', `Screen of ${told.name}: ${told.rows} rows of ${told.tiles} tiles, ${told.buckets} buckets a row`);
  }

  get width() { return this.canvas.clientWidth - GUTTER; }
  get height() { return this.canvas.clientHeight - AXIS; }
  get least() { return this.told && this.told.tiles ? this.width / this.told.tiles : 1; }
  // A row is as high as there is room for; a tile that is zoomed further is a square.
  get rowHeight() { return Math.max(Math.min(this.height / Math.max(this.told.rows, 1), 34), 9, Math.min(view.scale, 48)); }

  clamp() {
    if (!this.told || !this.told.tiles) return;
    // (the whole screen stays the whole screen where the window's width changes)
    view.scale = view.isFit ? this.least : Math.min(Math.max(view.scale, this.least), 64);
    view.x = Math.min(Math.max(view.x, 0), Math.max(this.told.tiles - this.width / view.scale, 0));
    view.y = Math.min(Math.max(view.y, 0), Math.max(this.told.rows - this.height / this.rowHeight, 0));
  }

  fit() {
    view.isFit = true;
    view.x = view.y = 0;
    this.clamp();
  }

  zoom(factor, px = GUTTER + this.width / 2, py = AXIS + this.height / 2) {
    const tile = view.x + (px - GUTTER) / view.scale, row = view.y + (py - AXIS) / this.rowHeight;
    view.scale *= factor;
    view.isFit = view.scale <= this.least * 1.0001;
    this.clamp();
    view.x = tile - (px - GUTTER) / view.scale;
    view.y = row - (py - AXIS) / this.rowHeight;
    this.clamp();
  }

  move(tiles, rows) {
    view.x += tiles;
    view.y += rows;
    this.clamp();
  }

  // Brings a tile into sight.
  reveal(row, tile) {
    const wide = this.width / view.scale, high = this.height / this.rowHeight;
    if (tile < view.x + 1) view.x = tile - 1;
    if (tile + 2 > view.x + wide) view.x = tile + 2 - wide;
    if (row < view.y) view.y = row;
    if (row + 1 > view.y + high) view.y = row + 1 - high;
    this.clamp();
  }

  // Where a pointer is on the canvas, within its border.
  spot(event) {
    const box = this.canvas.getBoundingClientRect();
    return [event.clientX - box.left - this.canvas.clientLeft, event.clientY - box.top - this.canvas.clientTop];
  }

  at(event) {
    const [left, top] = this.spot(event), x = left - GUTTER, y = top - AXIS;
    const tile = Math.floor(view.x + x / view.scale), row = Math.floor(view.y + y / this.rowHeight);
    return x < 0 || y < 0 || row < 0 || row >= this.told.rows || tile >= this.told.tiles ? null : { row, tile };
  }

  onWheel(event) {
    if (!this.dump) return;
    event.preventDefault();
    if (event.shiftKey) this.move((event.deltaY + event.deltaX) / view.scale, 0);
    else this.zoom(Math.exp(-event.deltaY * (event.deltaMode ? 0.05 : 0.0016)), ...this.spot(event));
    this.act.moved();
  }

  onDown(event) {
    if (!this.dump || event.button) return;
    this.canvas.focus();
    if (event.isTrusted) this.canvas.setPointerCapture(event.pointerId);
    this.drag = { x: event.clientX, y: event.clientY, far: false };
  }

  onMove(event) {
    if (!this.dump) return;
    if (!this.drag) { this.act.hover(this.at(event)); return; }
    const dx = event.clientX - this.drag.x, dy = event.clientY - this.drag.y;
    if (!this.drag.far && Math.hypot(dx, dy) < 4) return;
    this.canvas.classList.add('is-moved');
    this.drag = { x: event.clientX, y: event.clientY, far: true };
    this.move(-dx / view.scale, -dy / this.rowHeight);
    this.act.moved();
  }

  onUp(event) {
    const drag = this.drag;
    this.drag = null;
    this.canvas.classList.remove('is-moved');
    const at = this.dump && drag && !drag.far && this.at(event);
    if (at) this.act.choose(at);
  }

  // How much of a canvas is there to draw on, in the screen's own points.
  size() {
    const ratio = window.devicePixelRatio || 1, w = this.canvas.clientWidth, h = this.canvas.clientHeight;
    if (this.canvas.width !== Math.round(w * ratio) || this.canvas.height !== Math.round(h * ratio)) {
      this.canvas.width = Math.round(w * ratio);
      this.canvas.height = Math.round(h * ratio);
    }
    this.g.setTransform(ratio, 0, 0, ratio, 0, 0);
    return [w, h];
  }

  draw({ hovered, chosen, marks, differences }) {
    if (!this.dump) return;
    const g = this.g, [w, h] = this.size(), { told } = this, scale = view.scale, high = this.rowHeight;
    const rowFrom = Math.floor(view.y), rowTo = Math.min(told.rows, Math.ceil(view.y + this.height / high));
    const from = Math.floor(view.x), to = Math.min(told.tiles, Math.ceil(view.x + this.width / scale));
    const px = tile => GUTTER + (tile - view.x) * scale, py = row => AXIS + (row - view.y) * high;
    const each = (runs, act) => {
      for (const [row, first, end, what] of runs) {
        if (row < rowFrom || row >= rowTo || end <= from || first >= to) continue;
        const x = px(Math.max(first, from)), y = py(row);
        act(what, x, y, px(Math.min(end, to)) - x, high);
      }
    };
    g.fillStyle = palette.ground;
    g.fillRect(0, 0, w, h);
    g.save();
    g.beginPath();
    g.rect(GUTTER, AXIS, this.width, this.height);
    g.clip();
    g.fillStyle = palette.empty;
    g.fillRect(px(0), py(0), told.tiles * scale, told.rows * high);
    if (marks) g.globalAlpha = 0.4;
    for (let row = rowFrom; row < rowTo; row++) {
      const y = py(row);
      for (const piece of this.dump.rows[row].pieces) {
        if (piece.end <= from || piece.first >= to) continue;
        const x = px(Math.max(piece.first, from));
        drawPiece(g, piece, x, y, px(Math.min(piece.end, to)) - x, high, view.by, view.layers);
      }
    }
    g.globalAlpha = 1;
    this.drawGrid(g, px, py, rowFrom, rowTo, from, to, high);
    if (view.fills) this.drawFills(g, px, py, rowFrom, rowTo, high);
    if (marks) each(marks, (kind, x, y, wide, tall) => { if (kind !== 'none') drawMark(g, kind, x, y, wide, tall); });
    if (differences) each(differences, (kind, x, y, wide, tall) => { if (kind !== 'same') drawMark(g, 'differs', x, y, wide, tall); });
    if (scale >= 26) this.drawNames(g, px, py, rowFrom, rowTo, from, to, high);
    for (const [at, outer] of [[hovered, 1], [chosen, 2.5]]) {
      if (!at || at.row >= told.rows || at.tile >= told.tiles) continue;
      const x = px(at.tile), y = py(at.row), wide = Math.max(scale, 5), left = x - (wide - scale) / 2;
      g.lineWidth = outer + 2;
      g.strokeStyle = palette.panel;
      g.strokeRect(left, y, wide, high);
      g.lineWidth = outer;
      g.strokeStyle = palette.ink;
      g.strokeRect(left, y, wide, high);
    }
    g.restore();
    this.drawAxes(g, px, py, rowFrom, rowTo, from, to, high, w, h);
  }

  drawGrid(g, px, py, rowFrom, rowTo, from, to, high) {
    const bottom = py(rowTo), top = py(rowFrom);
    g.lineWidth = 1;
    if (view.scale >= 7) {
      g.strokeStyle = palette.line;
      g.globalAlpha = 0.6;
      g.beginPath();
      for (let tile = from; tile <= to; tile++) { const x = Math.round(px(tile)) + 0.5; g.moveTo(x, top); g.lineTo(x, bottom); }
      g.stroke();
      g.globalAlpha = 1;
    }
    g.strokeStyle = palette.panel;
    g.beginPath();
    for (let row = rowFrom; row <= rowTo; row++) { const y = Math.round(py(row)) + 0.5; g.moveTo(px(from), y); g.lineTo(px(to), y); }
    g.stroke();
    g.strokeStyle = palette['line-strong'];
    g.beginPath();
    const wide = this.told.bucketTiles;
    for (let tile = Math.ceil(from / wide) * wide; tile <= to; tile += wide) { const x = Math.round(px(tile)) + 0.5; g.moveTo(x, top); g.lineTo(x, bottom); }
    g.stroke();
  }

  // A stored depth fill: a bar at the bottom of each of its buckets, with a notch. The newest stands for its bucket.
  drawFills(g, px, py, rowFrom, rowTo, high) {
    const wide = this.told.bucketTiles, isLow = high < 14, tall = isLow ? 2 : Math.min(high / 5, 6);
    for (let row = rowFrom; row < rowTo; row++) {
      for (const fill of this.dump.rows[row].fills) {
        const colour = colourOf(view.by === 'panel' ? this.dump.draws[fill.attribute] : fill.attribute), y = py(row) + high - tall;
        for (let bucket = fill.first; bucket < fill.end; bucket++) {
          const x = px(bucket * wide) + 1.5, end = px(Math.min((bucket + 1) * wide, this.told.tiles)) - 1.5;
          if (end < GUTTER || x > this.canvas.clientWidth) continue;
          g.fillStyle = palette.ink;
          g.fillRect(x, y, end - x, tall);
          if (isLow) continue;
          g.fillStyle = colour;
          g.fillRect(x + 1, y + 1, Math.max(end - x - 2, 1), Math.max(tall - 2, 1));
          g.fillStyle = palette.ink;
          g.beginPath();
          g.moveTo(x, y + tall);
          g.lineTo(x, y - tall * 0.6);
          g.lineTo(x + tall * 1.6, y + tall);
          g.fill();
        }
      }
    }
  }

  // The number of the newest piece, where a tile has room for it.
  drawNames(g, px, py, rowFrom, rowTo, from, to, high) {
    g.font = '11px system-ui, "DejaVu Sans", sans-serif';
    g.textAlign = 'center';
    g.textBaseline = 'middle';
    for (let row = rowFrom; row < rowTo; row++) {
      const top = new Map();
      for (const piece of this.dump.rows[row].pieces) {
        if (piece.kind === 'layer') continue;
        for (let tile = Math.max(piece.first, from); tile < Math.min(piece.end, to); tile++) top.set(tile, piece);
      }
      g.fillStyle = palette.ink;
      for (const [tile, piece] of top) g.fillText(String(view.by === 'panel' ? piece.panel : piece.attribute), px(tile) + view.scale / 2, py(row) + high / 2);
    }
  }

  drawAxes(g, px, py, rowFrom, rowTo, from, to, high, w, h) {
    g.fillStyle = palette.panel;
    g.fillRect(0, 0, w, AXIS);
    g.fillRect(0, 0, GUTTER, h);
    g.strokeStyle = palette.line;
    g.lineWidth = 1;
    g.strokeRect(GUTTER - 0.5, AXIS - 0.5, w, h);
    g.fillStyle = palette.soft;
    g.font = '11px system-ui, "DejaVu Sans", sans-serif';
    g.textBaseline = 'middle';
    g.textAlign = 'right';
    const every = Math.max(1, Math.ceil(13 / high));
    for (let row = rowFrom; row < rowTo; row++) if (row % every === 0 && py(row) + high / 2 > AXIS + 4) g.fillText(String(row), GUTTER - 7, py(row) + high / 2);
    g.textAlign = 'left';
    // (a step that has room for its numbers)
    const wide = this.told.bucketTiles, step = [1, 2, 4, 8, wide / 2, wide, 2 * wide, 4 * wide, 8 * wide].find(it => it * view.scale >= 42) || 16 * wide;
    for (let tile = Math.ceil(from / step) * step; tile < to; tile += step) {
      const x = px(tile);
      if (x < GUTTER - 1) continue;
      g.fillRect(Math.round(x), AXIS - 5, 1, 5);
      g.fillText(String(tile), x + 3, AXIS / 2);
    }
  }
}
