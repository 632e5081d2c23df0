// The page: what is open, what is chosen, what is asked.
const $ = id => document.getElementById(id);
const make = (tag, words = {}, ...inside) => {
  const it = document.createElement(tag);
  for (const [name, value] of Object.entries(words)) if (name === 'on') it.addEventListener('click', value); else if (name in it && name !== 'list') it[name] = value; else it.setAttribute(name, value);
  it.append(...inside);
  return it;
};
const still = matchMedia('(prefers-reduced-motion: reduce)');
const darkWanted = matchMedia('(prefers-color-scheme: dark)');
const SLOTS = ['a', 'b'];
const state = { server: null, slots: { a: null, b: null }, hovered: null, chosen: null, mark: null, step: 0, playing: 0, theme: 'system', busy: 0, toSlot: 'a', withNone: true, differs: [], drawn: 0 };
const pictures = {};
const open = () => SLOTS.filter(slot => state.slots[slot] && state.slots[slot].dump);
const count = (n, word) => `${n.toLocaleString('en')} ${word}${n === 1 ? '' : 's'}`;

const say = text => { $('said').textContent = text; };

// A question to the server; its refusals are sentences.
const ask = async (path, words = {}, body) => {
  const response = await fetch(`${path}?${new URLSearchParams(words)}`, body === undefined ? {} : { method: 'POST', body });
  if (!response.ok) throw new Error((await response.text()).trim());
  return response.json();
};
const guarded = act => async (...words) => {
  try { return await act(...words); } catch (error) { say(error.message === 'Failed to fetch' ? 'tools/inspect has ended' : error.message); }
};

let drawWanted = false;
const redraw = () => {
  if (drawWanted) return;
  drawWanted = true;
  requestAnimationFrame(() => {
    drawWanted = false;
    for (const slot of open()) {
      const marks = state.mark && state.mark.runs[slot], differences = state.slots.b ? state.differs : null;
      pictures[slot].draw({ hovered: state.hovered, chosen: state.chosen, marks, differences });
    }
    state.drawn++;
    window.inspect.drawn = state.drawn;
  });
};

// Recordings.

const receive = (slot, told) => {
  const was = state.slots[slot];
  state.slots[slot] = told && { told, dump: told.refused === null ? readDump(told.text) : null, tile: null };
  state.mark = null;
  state.differs = [];
  const figure = $(`figure-${slot}`), notice = $(`notice-${slot}`);
  figure.hidden = !told;
  if (told) {
    // (a long list begins with what matters)
    if (state.slots[slot].dump && slot === 'a') state.withNone = state.slots[slot].dump.draws.length + state.slots[slot].dump.layers.length <= 40;
    figure.classList.toggle('is-refused', told.refused !== null);
    notice.hidden = told.refused === null && !told.note;
    notice.replaceChildren(...(told.refused === null ? [told.note] : [make('b', {}, `refused ${told.refused}`), told.words ? `${told.words[0].toUpperCase()}${told.words.slice(1)}.` : '']));
    if (told.refused === null) {
      pictures[slot].show(told, state.slots[slot].dump);
      pictures[slot].canvas.style.setProperty('--rows', told.rows);
      if (!was || slot === 'a') requestAnimationFrame(() => { pictures[slot].fit(); redraw(); });
    }
  }
  const { a, b } = state.slots;
  for (const [it, found] of [['a', a], ['b', b]]) {
    if (found) $(`caption-${it}`).replaceChildren(...(b ? [make('span', { className: 'which' }, it.toUpperCase())] : []), make('b', {}, found.told.name), ` ${count(found.told.size, 'byte')}${found.dump ? `, ${count(found.told.rows, 'row')}, ${count(found.told.tiles, 'tile')} and ${count(found.told.buckets, 'bucket')} a row, ${count(found.dump.draws.length, 'draw attribute')}, ${count(found.dump.layers.length, 'layer attribute')}` : ', refused'}`);
  }
  $('file').replaceChildren(make('b', {}, a.told.name), ...(b ? [' beside ', make('b', {}, b.told.name)] : []));
  document.title = `${a.told.name}${b ? ` beside ${b.told.name}` : ''}: tile inspector`;
  $('close-beside').hidden = !b;
  document.querySelector('.pictures').classList.toggle('has-two', !!b);
  const { options } = (told || a.told);
  $('width').value = options.width; $('edition').value = options.edition; $('snap').checked = options.snap;
  const chosen = state.chosen;
  state.chosen = null;
  showLegend();
  showWork();
  if (told) say(told.refused !== null ? `${told.name}: refused ${told.refused}, ${told.words}` : `${told.name} is open`);
  if (chosen && open().length) choose(chosen, false); else showTile();
  watchLists();
  redraw();
};

const wordsOfOptions = () => ({ snap: $('snap').checked ? 1 : 0, width: $('width').value, edition: $('edition').value });

const openFile = guarded(async (slot, file) => {
  if (file.size > 1048576) throw new Error(`${file.name} has more than 1,048,576 bytes and is not sent`);
  busy(`Reading ${file.name}`);
  try { receive(slot, await ask('open', { slot, name: file.name.slice(0, 100), ...wordsOfOptions() }, await file.arrayBuffer())); } finally { busy(''); }
});

const readAgain = guarded(async () => {
  busy('Reading again');
  try { for (const slot of SLOTS) if (state.slots[slot]) receive(slot, await ask('options', { slot, ...wordsOfOptions() }, '')); } finally { busy(''); }
});

const busy = text => { state.busy = text; showWork(); };

// Work that goes on behind: one bar, with how far it is.

const showWork = () => {
  const scans = [];
  if (state.busy) scans.push({ text: `${state.busy} …`, done: null });
  if (state.mark) {
    const told = Object.values(state.mark.told), done = told.reduce((n, it) => n + it.done, 0), total = told.reduce((n, it) => n + it.total, 0);
    const kinds = Object.entries(state.mark.counts).filter(([kind]) => kind !== 'none').map(([kind, n]) => `${signOf[kind]} ${{ shown: 'shown', hidden: 'hidden', cut: 'cut away', untouched: 'row never touched' }[kind]} ${n.toLocaleString('en')}`);
    const words = kinds.length ? kinds.join(', ') : 'on no tile yet';
    scans.push({ text: `${state.mark.kind} ${state.mark.number}: ${words}${done < total ? `; ${done.toLocaleString('en')} of ${count(total, 'tile')} asked` : `, of ${count(total, 'tile')}`}`, done, total, failed: told.map(it => it.failed).find(Boolean), mark: true });
  } else if (state.slots.b && open().length === 2 && state.lists) {
    const { done, total, failed } = state.lists;
    scans.push({ text: `${count(state.differing || 0, 'tile')} with different lists${done < total ? `; ${done.toLocaleString('en')} of ${total.toLocaleString('en')} compared` : `, of ${total.toLocaleString('en')}`}`, done, total, failed, lists: true });
  }
  $('work').hidden = !scans.length;
  if (!scans.length) return;
  const scan = scans[0];
  $('work-text').textContent = scan.failed || scan.text;
  $('work-bar').hidden = scan.done !== null && scan.done >= scan.total;
  if (scan.done === null) $('work-bar').removeAttribute('value'); else $('work-bar').value = scan.total ? scan.done / scan.total : 1;
  const keys = scan.mark ? 'mark' : scan.lists ? 'lists' : '';
  if ($('work-keys').dataset.keys !== keys) {
    $('work-keys').dataset.keys = keys;
    $('work-keys').replaceChildren(...(keys === 'mark' ? [make('button', { on: () => setMark(null) }, 'Clear ', make('kbd', {}, 'Esc'))]
      : keys === 'lists' ? [make('button', { on: () => nextDifference(-1) }, 'Previous ', make('kbd', {}, 'V')), make('button', { on: () => nextDifference(1) }, 'Next difference ', make('kbd', {}, 'N'))] : []));
  }
};

// Asks again until all tiles are answered; `go` says whether the answers are still wanted.
const follow = async (path, words, go, take) => {
  let after = 0;
  for (;;) {
    const at = state.hovered || state.chosen || { row: 0, tile: 0 };
    let told;
    try { told = await ask(path, { ...words, row: at.row, tile: at.tile, after }); } catch (error) { if (go()) throw error; }
    if (!go()) return;
    take(told);
    after = told.next;
    if (told.failed || (told.done >= told.total && told.runs.length < 20000)) return;
    await new Promise(done => setTimeout(done, 150));
    if (!go()) return;
  }
};

const setMark = guarded(async attribute => {
  const old = state.mark;
  if (!attribute || (old && old.kind === attribute.kind && old.number === attribute.number)) {
    state.mark = null;
    showWork(); showTile(); showLegend(); redraw();
    return;
  }
  const mark = state.mark = { ...attribute, runs: {}, told: {}, counts: {} };
  showTile(); showLegend(); showWork(); redraw();
  await Promise.all(open().map(slot => {
    mark.runs[slot] = [];
    return follow('marks', { slot, serial: state.slots[slot].told.serial, kind: mark.kind, number: mark.number }, () => state.mark === mark, told => {
      mark.told[slot] = told;
      for (const [row, first, end, text] of told.runs) {
        const kind = reasonKind(told.texts[text]);
        mark.runs[slot].push([row, first, end, kind]);
        mark.counts[kind] = (mark.counts[kind] || 0) + end - first;
      }
      mark.runs[slot] = joined(mark.runs[slot]);
      showWork(); redraw();
    });
  }));
  if (state.mark === mark) say(`${mark.kind} ${mark.number}: all tiles are answered`);
});

const watchLists = guarded(async () => {
  state.lists = null;
  state.differing = 0;
  if (open().length < 2) return;
  const { a, b } = state.slots;
  let runs = state.differs = [];
  await follow('lists', {}, () => state.slots.a === a && state.slots.b === b, told => {
    state.lists = told;
    for (const [row, first, end, text] of told.runs) {
      if (told.texts[text] === 'same') continue;
      runs.push([row, first, end, told.texts[text]]);
      state.differing += end - first;
    }
    runs = state.differs = joined(runs);
    showWork(); redraw();
  });
  say(`${count(state.differing, 'tile')} with different lists`);
});

const nextDifference = step => {
  const places = state.differs.map(([row, first, end]) => ({ row, tile: first, end })).sort((x, y) => x.row - y.row || x.tile - y.tile);
  if (!places.length) return;
  const at = state.chosen || { row: -1, tile: -1 }, after = it => it.row > at.row || (it.row === at.row && it.tile > at.tile);
  const found = step > 0 ? places.find(after) || places[0] : [...places].reverse().find(it => !after(it) && !(it.row === at.row && it.tile === at.tile)) || places[places.length - 1];
  choose({ row: found.row, tile: found.tile });
};

// Runs of one row that touch and say the same, as one.
const joined = runs => {
  const found = [];
  for (const run of [...runs].sort((x, y) => x[0] - y[0] || x[1] - y[1])) {
    const last = found[found.length - 1];
    if (last && last[0] === run[0] && last[2] === run[1] && last[3] === run[3]) last[2] = run[2];
    else found.push([...run]);
  }
  return found;
};

// The tile.

const bucketOf = tile => Math.floor(tile / state.slots[open()[0]].told.bucketTiles);
const nameOf = at => `row ${at.row}, tile ${at.tile}, bucket ${bucketOf(at.tile)}`;

const hover = at => {
  state.hovered = at;
  $('pointer').textContent = at ? nameOf(at) : state.chosen ? `chosen: ${nameOf(state.chosen)}` : 'no tile under the pointer';
  redraw();
};

let asked = 0;
const choose = guarded(async (at, isNew = true) => {
  const slots = open();
  if (!slots.length) return;
  const rows = Math.max(...slots.map(it => state.slots[it].told.rows)), tiles = Math.max(...slots.map(it => state.slots[it].told.tiles));
  if (!rows || !tiles) return;
  const turned = !state.chosen || state.chosen.row !== at.row;
  state.chosen = { row: Math.min(Math.max(at.row, 0), rows - 1), tile: Math.min(Math.max(at.tile, 0), tiles - 1) };
  if (isNew) pictures[slots[0]].reveal(state.chosen.row, state.chosen.tile);
  if (turned || !isNew) showSteps(true);
  if (!state.hovered) hover(null);
  redraw();
  const mine = ++asked, { row, tile } = state.chosen;
  $('tile').setAttribute('aria-busy', 'true');
  await new Promise(done => setTimeout(done, state.server.slow ? 400 : 40));
  if (mine !== asked) return;
  const found = await Promise.all(slots.map(slot => ask('tile', { slot, serial: state.slots[slot].told.serial, row, tile })));
  if (mine !== asked) return;
  slots.forEach((slot, k) => { state.slots[slot].tile = { ...found[k], row, tile }; });
  $('tile').removeAttribute('aria-busy');
  showTile();
  const heard = slots.map((slot, k) => {
    const entries = readPieces(found[k].list), last = entries[entries.length - 1];
    return `${slots.length > 1 ? `${slot.toUpperCase()}: ` : ''}${entries.length === 1 ? '1 entry' : `${entries.length} entries`}${last ? `, newest ${last.kind} ${last.attribute}` : ''}`;
  });
  say(`${nameOf(state.chosen)}: ${heard.join('; ')}`);
});

const attributeButton = (kind, n) => {
  const pressed = !!state.mark && state.mark.kind === kind && state.mark.number === n;
  return make('button', { on: () => setMark({ kind, number: n }), 'aria-pressed': String(pressed), title: `Mark every tile of ${kind} ${n}` }, `${kind} ${n}`);
};

const tableOf = (caption, heads, rows, name) => make('table', { 'data-table': name }, make('caption', {}, caption),
  make('thead', {}, make('tr', {}, ...heads.map(([text, cls]) => make('th', { scope: 'col', className: cls || '' }, text)))), make('tbody', {}, ...rows));

const showTile = () => {
  const at = state.chosen, focused = document.activeElement && $('tile').contains(document.activeElement) && document.activeElement.textContent;
  $('tile-title').textContent = at ? `Row ${at.row}, tile ${at.tile}, bucket ${bucketOf(at.tile)}` : 'No tile chosen';
  $('tile-hint').hidden = !!at;
  const slots = open(), two = slots.length === 2;
  const lines = slot => state.slots[slot].tile ? state.slots[slot].tile.list.split('\n').filter(Boolean) : [];
  const reasons = slot => state.slots[slot].tile ? readReasons(state.slots[slot].tile.why) : [];
  for (const slot of SLOTS) {
    const box = $(`tile-${slot}`), found = state.slots[slot], tile = at && found && found.dump && found.tile;
    if (!tile || tile.row !== at.row || tile.tile !== at.tile) { box.replaceChildren(); continue; }
    const other = two ? slots.find(it => it !== slot) : null, others = other ? new Set(lines(other)) : null;
    const refused = /^refused \d+$/m.exec(tile.list);
    const entries = lines(slot).map((line, k) => {
      const it = readPiece(line);
      const row = make('tr', {}, ...[[k, 'n'], [it.kind === 'layer' ? 'layer' : 'paint'], [attributeButton(it.kind, it.attribute)], [it.panel, 'n'], [it.alpha === null ? '–' : it.alpha, 'n'], [it.nesting, 'n']]
        .map(([value, cls]) => make('td', { className: cls || '' }, value instanceof Node ? value : String(value))));
      row.dataset.line = line;
      if (others && (lines(other)[k] !== line)) row.classList.add('is-other');
      return row;
    });
    const all = reasons(slot), shown = all.filter(it => state.withNone || reasonKind(it.reason) !== 'none');
    const theirs = other ? new Map(reasons(other).map(it => [`${it.kind} ${it.number}`, it.reason])) : null;
    const why = shown.map(it => {
      const kind = reasonKind(it.reason);
      const row = make('tr', {}, make('td', {}, it.kind ? attributeButton(it.kind, it.number) : ''),
        make('td', { className: `reason-${kind}` }, make('span', { className: 'sign', 'aria-hidden': 'true' }, signOf[kind]), make('span', { className: 'words' }, it.reason)));
      row.dataset.line = it.kind ? `${it.kind} ${it.number}: ${it.reason}` : it.reason;
      if (theirs && theirs.get(`${it.kind} ${it.number}`) !== it.reason) row.classList.add('is-other');
      return row;
    });
    const heading = two ? [make('h3', {}, make('span', { className: 'which' }, slot.toUpperCase()), found.told.name, ...(slot === 'b' ? [make('span', { className: 'differs' }, tile.list === state.slots.a.tile.list ? ' same list' : ' ≠ the lists differ')] : []))] : [];
    box.replaceChildren(...heading,
      refused ? make('p', { className: 'small' }, `${refused[0]}: ${state.server.refusals[refused[0].split(' ')[1]] || ''}`)
        : tableOf(entries.length ? 'What it receives, oldest first' : 'It receives nothing', [['#', 'n'], ['What'], ['Attribute'], ['Panel', 'n'], ['Alpha', 'n'], ['Nesting', 'n']], entries, 'list'),
      tableOf('Why', [['Attribute'], ['Reason, as why prints it']], why, 'reasons'),
      make('p', { className: 'small' }, `${all.length - shown.length ? `${count(all.length - shown.length, 'attribute')} with no segment here left out. ` : ''}`,
        make('button', { on: () => { state.withNone = !state.withNone; showTile(); } }, state.withNone ? 'Leave out what has no segment ' : 'List every attribute ', make('kbd', {}, 'G'))));
  }
  if (focused) { const again = [...$('tile').querySelectorAll('button')].find(it => it.textContent === focused); if (again) again.focus(); }
  showSteps(false);
};

// Painting, step by step: of the first recording that is open.

const showSteps = isNew => {
  const slot = open()[0], found = slot && state.slots[slot], at = state.chosen;
  const has = !!(found && at && found.dump.rows[at.row]);
  for (const id of ['step', 'step-first', 'step-back', 'step-play', 'step-on', 'step-last']) $(id).disabled = !has;
  if (!has) {
    $('steps-title').textContent = 'Painting of a row';
    $('step-text').textContent = found ? 'choose a tile' : '';
    $('step-list').replaceChildren(); $('words').replaceChildren();
    $('strip').hidden = $('step-list').hidden = true;
    return;
  }
  $('strip').hidden = $('step-list').hidden = false;
  const { steps, isWhole } = stepsOf(found.dump.rows[at.row], found.told.bucketTiles);
  if (isNew) { state.step = steps.length; stopPlaying(); }
  state.step = Math.min(Math.max(state.step, 0), steps.length);
  state.steps = steps;
  $('steps-title').textContent = `Painting of row ${at.row}${open().length > 1 ? ` of ${slot.toUpperCase()}` : ''}`;
  $('step').max = steps.length;
  $('step').value = state.step;
  const last = steps[state.step - 1];
  $('step').setAttribute('aria-valuetext', last ? `${state.step} of ${steps.length}: ${stepName(last.stored)}` : 'nothing is painted');
  $('step-text').textContent = `${state.step} of ${count(steps.length, 'step')}${isWhole ? '' : '; the pieces do not fit the steps'}`;
  if (isNew || !$('step-list').firstChild || +$('step-list').dataset.row !== at.row) {
    $('step-list').dataset.row = at.row;
    $('step-list').replaceChildren(tableOf('', [['#', 'n'], ['Step'], ['Stored'], ['Pieces painted, in tiles']], steps.map((step, k) => {
      const row = make('tr', {}, make('td', { className: 'n' }, String(k + 1)), make('td', {}, stepName(step.stored)), make('td', {}, step.stored.line), make('td', {}, step.pieces.map(tell).join('; ') || (step.stored.kind === 'push' || step.stored.kind === 'pop' ? '' : 'none: a newer fill hides it')));
      row.addEventListener('click', () => setStep(k + 1));
      return row;
    }), 'steps'));
    $('step-list').querySelector('caption').remove();
  }
  [...$('step-list').querySelectorAll('tbody tr')].forEach((row, k) => {
    row.classList.toggle('is-now', k === state.step - 1);
    row.classList.toggle('is-to-come', k >= state.step);
    if (k === state.step - 1) { row.setAttribute('aria-current', 'step'); seen(row); } else row.removeAttribute('aria-current');
  });
  const words = depthWords(steps, state.step, found.told.buckets, found.told.bucketTiles);
  $('words').replaceChildren(make('table', { 'data-table': 'words' }, make('thead', {}, make('tr', {}, make('th', { scope: 'row' }, 'Bucket'), ...words.map((_, k) => make('th', { scope: 'col' }, String(k))))),
    make('tbody', {}, make('tr', {}, make('th', { scope: 'row' }, 'Depth word'), ...words.map(it => make('td', { className: it === null ? 'is-free' : '' }, it === null ? 'free' : `draw ${it}`))))));
  drawStrip(found, steps);
};

// Scrolls the list of steps, and nothing around it, to a row.
const seen = row => {
  const box = $('step-list'), head = 24;
  if (row.offsetTop - head < box.scrollTop) box.scrollTop = row.offsetTop - head;
  else if (row.offsetTop + row.offsetHeight > box.scrollTop + box.clientHeight) box.scrollTop = row.offsetTop + row.offsetHeight - box.clientHeight;
};

const drawStrip = (found, steps) => {
  const canvas = $('strip'), ratio = window.devicePixelRatio || 1, w = canvas.clientWidth, h = canvas.clientHeight, g = canvas.getContext('2d');
  canvas.width = Math.round(w * ratio); canvas.height = Math.round(h * ratio);
  g.setTransform(ratio, 0, 0, ratio, 0, 0);
  g.fillStyle = palette.empty;
  g.fillRect(0, 0, w, h);
  const scale = w / found.told.tiles, done = steps.slice(0, state.step);
  for (const { pieces } of done) for (const piece of pieces) drawPiece(g, piece, piece.first * scale, 8, (piece.end - piece.first) * scale, h - 16, view.by, view.layers);
  const last = done[done.length - 1];
  if (last) {
    g.strokeStyle = palette.accent;
    g.lineWidth = 3;
    for (const piece of last.pieces) g.strokeRect(piece.first * scale + 1.5, 6, Math.max((piece.end - piece.first) * scale - 3, 2), h - 12);
  }
  g.fillStyle = palette['line-strong'];
  for (let tile = 0; tile <= found.told.tiles; tile += found.told.bucketTiles) g.fillRect(Math.round(tile * scale), 0, 1, h);
  if (state.chosen) {
    g.fillStyle = palette.ink;
    const x = (state.chosen.tile + 0.5) * scale;
    g.beginPath(); g.moveTo(x - 5, 0); g.lineTo(x + 5, 0); g.lineTo(x, 7); g.fill();
  }
};

const setStep = to => {
  if (!state.chosen || !state.steps) return;
  state.step = Math.min(Math.max(to, 0), state.steps.length);
  showSteps(false);
};
const stopPlaying = () => { clearInterval(state.playing); state.playing = 0; $('step-play').firstChild.textContent = 'Play '; };
const play = () => {
  if (state.playing) { stopPlaying(); return; }
  if (!state.steps || !state.chosen) return;
  if (state.step >= state.steps.length) setStep(0);
  $('step-play').firstChild.textContent = 'Pause ';
  state.playing = setInterval(() => { setStep(state.step + 1); if (state.step >= state.steps.length) stopPlaying(); }, 700);
};

// The legend.

const sample = draw => {
  const canvas = make('canvas', { width: 44, height: 28, 'aria-hidden': 'true' }), g = canvas.getContext('2d');
  g.scale(2, 2);
  draw(g);
  return canvas;
};

const showLegend = () => {
  const slots = open();
  const piece = (alpha, nesting, kind = 'draw') => ({ kind, attribute: 0, panel: 0, alpha, nesting });
  const base = g => { g.fillStyle = palette.empty; g.fillRect(0, 0, 22, 14); };
  const signs = [['painted', g => drawPiece(g, piece(null, 0), 0, 0, 22, 14, 'attribute', true)], ['soft edge (alpha)', g => drawPiece(g, piece(0, 0), 0, 0, 22, 14, 'attribute', true)],
    ['in a layer: set in', g => { base(g); drawPiece(g, piece(null, 1), 0, 0, 22, 14, 'attribute', true); }], ['layer closes: frame', g => { base(g); drawPiece(g, piece(null, 1), 4, 0, 14, 14, 'attribute', true); drawPiece(g, piece(null, 1, 'layer'), 0, 0, 22, 14, 'attribute', true); }],
    ['bucket: a depth fill hides what is older', g => { base(g); g.fillStyle = palette.ink; g.fillRect(1, 10, 20, 4); g.fillStyle = colourOf(0); g.fillRect(2, 11, 18, 2); g.fillStyle = palette.ink; g.beginPath(); g.moveTo(1, 14); g.lineTo(1, 6); g.lineTo(8, 14); g.fill(); }]];
  const marks = { shown: `${signOf.shown} shown: outline`, hidden: `${signOf.hidden} hidden: hatching`, cut: `${signOf.cut} cut away: dots`, untouched: `${signOf.untouched} row never touched: lines` };
  if (state.mark) for (const [kind, text] of Object.entries(marks)) signs.push([text, g => { base(g); drawMark(g, kind, 0, 0, 22, 14); }]);
  if (slots.length > 1) signs.push(['lists differ: crossed', g => { base(g); drawMark(g, 'differs', 0, 0, 22, 14); }]);
  $('signs').replaceChildren(...(slots.length ? signs : []).map(([text, draw]) => make('li', {}, sample(draw), text)));
  const dumps = slots.map(slot => state.slots[slot].dump), most = 64;
  let items = [];
  if (view.by === 'panel') {
    const panels = [...new Set(dumps.flatMap(it => [...it.draws, ...it.layers]))].sort((x, y) => x - y);
    items = panels.slice(0, most).map(n => make('li', {}, sample(g => { g.fillStyle = colourOf(n); g.fillRect(0, 0, 22, 14); }), `panel ${n}`));
  } else {
    const draws = Math.max(0, ...dumps.map(it => it.draws.length)), layers = Math.max(0, ...dumps.map(it => it.layers.length));
    const entry = (kind, n, draw) => make('li', {}, make('button', { on: () => setMark({ kind, number: n }), 'aria-pressed': String(!!state.mark && state.mark.kind === kind && state.mark.number === n), title: `Mark every tile of ${kind} ${n}` }, sample(draw), `${kind} ${n}`));
    for (let n = 0; n < Math.min(draws, most); n++) items.push(entry('draw', n, g => { g.fillStyle = colourOf(n); g.fillRect(0, 0, 22, 14); }));
    for (let n = 0; n < Math.min(layers, most); n++) items.push(entry('layer', n, g => { base(g); g.strokeStyle = palette.ink; g.strokeRect(2.5, 2.5, 17, 9); }));
    if (draws > most) items.push(make('li', {}, `and ${draws - most} more: a tile's tables have them`));
  }
  $('legend').replaceChildren(...items);
};

// Themes.

const setTheme = theme => {
  state.theme = theme;
  document.documentElement.dataset.theme = theme === 'system' ? (darkWanted.matches ? 'dark' : 'light') : theme;
  $('theme').firstChild.textContent = `Theme: ${theme} `;
  readPalette();
  if (state.server) { showLegend(); showSteps(false); redraw(); }
};
darkWanted.addEventListener('change', () => setTheme(state.theme));

// Zoom goes over in a few pictures, or at once where motion is to be reduced; the next zoom ends one that is going on, and so does the whole screen.
let zooming = null;
const zoomBy = factor => {
  const picture = pictures[open()[0]];
  if (!picture) return;
  const at = state.chosen ? [GUTTER + (state.chosen.tile + 0.5 - view.x) * view.scale, AXIS + (state.chosen.row + 0.5 - view.y) * picture.rowHeight] : [];
  const middle = at.length && at[0] > GUTTER && at[0] < picture.canvas.clientWidth && at[1] > AXIS && at[1] < picture.canvas.clientHeight ? at : [];
  if (still.matches) { picture.zoom(factor, ...middle); redraw(); return; }
  if (zooming) picture.zoom(zooming.each ** zooming.left, ...zooming.middle);
  const own = zooming = { each: factor ** (1 / 6), left: 6, middle };
  const turn = () => {
    if (zooming !== own) return;
    picture.zoom(own.each, ...own.middle);
    redraw();
    if (--own.left) requestAnimationFrame(turn);
    else zooming = null;
  };
  turn();
};
const fit = () => { const picture = pictures[open()[0]]; zooming = null; if (picture) { picture.fit(); redraw(); } };
const toggle = name => { view[name] = !view[name]; $(name).setAttribute('aria-pressed', String(view[name])); showSteps(false); redraw(); };
const turnColours = () => { view.by = view.by === 'panel' ? 'attribute' : 'panel'; $('colours').firstChild.textContent = `Colours: ${view.by} `; showLegend(); showSteps(false); redraw(); };
const pan = (tiles, rows) => { const picture = pictures[open()[0]]; if (picture) { picture.move(tiles * Math.max(8, 90 / view.scale), rows); redraw(); } };
const walk = (rows, tiles) => choose(state.chosen ? { row: state.chosen.row + rows, tile: state.chosen.tile + tiles } : { row: 0, tile: 0 });
const wide = () => state.slots[open()[0]].told.bucketTiles;
const pick = slot => { state.toSlot = slot; $('chosen').value = ''; $('chosen').click(); };
const closeBeside = guarded(async () => { if (state.slots.b) { await ask('close', { slot: 'b' }, ''); receive('b', null); fit(); } });
const turnMark = step => {
  const slot = open()[0];
  if (!slot) return;
  const { draws, layers } = state.slots[slot].dump, all = [...draws.map((_, number) => ({ kind: 'draw', number })), ...layers.map((_, number) => ({ kind: 'layer', number }))];
  const at = state.mark ? all.findIndex(it => it.kind === state.mark.kind && it.number === state.mark.number) : step > 0 ? -1 : 0;
  if (all.length) setMark(all[(at + step + all.length) % all.length]);
};

const KEYS = [
  ['Arrow keys', 'the next tile; with Shift a bucket or four rows on', null],
  ['+', 'zoom in', () => zoomBy(1.5)], ['-', 'zoom out', () => zoomBy(1 / 1.5)], ['0', 'the whole screen', fit],
  ['W', 'move the picture up', () => pan(0, -1)], ['A', 'move it left', () => pan(-1, 0)], ['S', 'move it down', () => pan(0, 1)], ['D', 'move it right', () => pan(1, 0)],
  ['C', 'colours by attribute or by panel', turnColours], ['L', 'layers shown or not', () => toggle('layers')], ['F', 'depth fills marked or not', () => toggle('fills')],
  ['M', 'mark the next attribute\'s tiles', () => turnMark(1)], ['K', 'mark the previous attribute\'s tiles', () => turnMark(-1)], ['Escape', 'clear the marks', () => setMark(null)],
  ['G', 'list every attribute, or leave out what has no segment', () => { state.withNone = !state.withNone; showTile(); }],
  [',', 'a painting step back', () => setStep(state.step - 1)], ['.', 'a painting step on', () => setStep(state.step + 1)], ['Home', 'before the first step', () => setStep(0)],
  ['End', 'after the last step', () => setStep(state.steps ? state.steps.length : 0)], ['P', 'play or pause', play],
  ['N', 'the next tile whose lists differ', () => nextDifference(1)], ['V', 'the previous one', () => nextDifference(-1)],
  ['O', 'open a recording', () => pick('a')], ['B', 'open one beside it', () => pick('b')], ['X', 'close the second', closeBeside],
  ['T', 'theme: system, light, dark', () => setTheme({ system: 'light', light: 'dark', dark: 'system' }[state.theme])], ['?', 'this list', () => $('help').showModal()],
];

const onKey = event => {
  if (event.ctrlKey || event.metaKey || event.altKey || $('help').open) return;
  const at = event.target, tag = at.tagName;
  if (tag === 'SELECT' || (tag === 'INPUT' && at.type !== 'range' && at.type !== 'checkbox')) return;
  if (event.key.startsWith('Arrow')) {
    if (tag === 'INPUT' || at.id === 'step-list' || !open().length) return;
    if (tag !== 'CANVAS' && tag !== 'BODY') return;
    event.preventDefault();
    const far = event.shiftKey;
    walk(...{ ArrowUp: [far ? -4 : -1, 0], ArrowDown: [far ? 4 : 1, 0], ArrowLeft: [0, far ? -wide() : -1], ArrowRight: [0, far ? wide() : 1] }[event.key]);
    return;
  }
  if (tag === 'INPUT' && (event.key === 'Home' || event.key === 'End')) return;
  const key = event.key.length === 1 ? event.key.toUpperCase() : event.key, found = KEYS.find(([name, , act]) => act && name === (key === '=' ? '+' : key));
  if (!found) return;
  event.preventDefault();
  found[2]();
};

const begin = guarded(async () => {
  const moved = () => redraw(), act = { hover, choose, moved };
  for (const slot of SLOTS) pictures[slot] = new Picture($(`picture-${slot}`), slot, act);
  $('keys').tBodies[0].replaceChildren(...KEYS.map(([name, text]) => make('tr', {}, make('th', { scope: 'row' }, make('kbd', {}, name === 'Escape' ? 'Esc' : name)), make('td', {}, text))));
  const clicks = { open: () => pick('a'), 'open-beside': () => pick('b'), 'close-beside': closeBeside, 'help-open': () => $('help').showModal(), 'zoom-in': () => zoomBy(1.5), 'zoom-out': () => zoomBy(1 / 1.5), fit,
    colours: turnColours, layers: () => toggle('layers'), fills: () => toggle('fills'), 'step-first': () => setStep(0), 'step-back': () => setStep(state.step - 1), 'step-on': () => setStep(state.step + 1),
    'step-last': () => setStep(state.steps.length), 'step-play': play, theme: () => setTheme({ system: 'light', light: 'dark', dark: 'system' }[state.theme]) };
  for (const [id, does] of Object.entries(clicks)) $(id).addEventListener('click', does);
  for (const id of ['width', 'edition', 'snap']) $(id).addEventListener('change', readAgain);
  $('step').addEventListener('input', () => { stopPlaying(); setStep(+$('step').value); });
  $('chosen').addEventListener('change', () => { if ($('chosen').files[0]) openFile(state.toSlot, $('chosen').files[0]); });
  document.addEventListener('keydown', onKey);
  document.addEventListener('dragover', event => { event.preventDefault(); $('drop').hidden = false; });
  document.addEventListener('dragleave', event => { if (!event.relatedTarget) $('drop').hidden = true; });
  document.addEventListener('drop', event => {
    event.preventDefault();
    $('drop').hidden = true;
    const file = event.dataTransfer.files[0];
    if (file) openFile($('figure-b').contains(event.target) ? 'b' : 'a', file);
  });
  new ResizeObserver(() => { for (const slot of open()) pictures[slot].clamp(); if (state.server) showSteps(false); redraw(); }).observe($('picture-a'));
  window.inspect = { drawn: 0, state, view, pictures, choose, openFile, setMark };
  setTheme('system');
  busy('Asking the programs');
  state.server = await ask('state');
  busy('');
  $('build').textContent = `Programs: ${state.server.build}${state.server.version && ` (${state.server.version})`}${state.server.slow ? '. Each question takes ten seconds and more' : ''}`;
  for (const slot of SLOTS) if (state.server.slots[slot]) receive(slot, state.server.slots[slot]);
});
begin();
