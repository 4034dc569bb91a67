/* Core storage. */
const core = {columns: 0, heads: [], cells: [], shown: [], from: null, size: 0, chosen: 0};

function columnsWanted() {
  return byId('core').clientWidth < 560 ? 20 : 50;
}

/* The table of 600 places, for a number of columns that fits. */
function buildCore() {
  core.columns = columnsWanted();
  Object.assign(core, {heads: [], cells: [], shown: [], from: null});
  byId('core').classList.toggle('narrow', core.columns === 20);
  byId('core').replaceChildren();
  const table = added(byId('core'), 'table');
  table.setAttribute('role', 'grid');
  table.id = 'grid';
  const head = added(added(table, 'thead'), 'tr');
  added(head, 'th');
  for (let ten = 0; ten < core.columns; ten += 10) added(head, 'th', {colSpan: 10, textContent: pad(ten, 2)});
  const body = added(table, 'tbody');
  for (let at = 0; at < PLACES_SHOWN; at++) {
    if (at % core.columns === 0) core.heads.push(added(added(body, 'tr'), 'th', {scope: 'row'}));
    const row = core.heads[core.heads.length - 1].parentElement;
    core.cells.push(added(row, 'td', {tabIndex: at === core.chosen ? 0 : -1}));
  }
}

function areaOf(place) {
  if (place >= 1 && place <= 80) return 'read ';
  if (place >= 101 && place <= 180) return 'punch ';
  return place >= 201 && place <= 332 ? 'print ' : '';
}

function drawCore() {
  const {from, cells, registers} = view.picture;
  const moved = core.from !== from;
  core.from = from;
  const begin = registers.I - from, end = begin + instructionLength(cells, begin);
  if (moved) core.heads.forEach((head, row) => setText(head, pad(from + row * core.columns, 4)));
  cells.forEach((cell, at) => {
    const name = areaOf(from + at) + (cell.mark ? 'mark ' : '') + (at >= begin && at < end ? 'next ' : '')
      + (at % 10 === 0 && at % core.columns > 0 ? 'ten' : '');
    const known = core.shown[at], text = cell.graphic + cell.mark;
    if (!moved && known && known.name === name && known.text === text) return;
    const element = core.cells[at];
    element.className = name;
    setText(element, cell.graphic === ' ' ? '\u00a0' : cell.graphic);
    const isOther = !known || known.text !== text;
    if (moved || isOther) element.setAttribute('aria-label', filled(TEXTS.cellLabel, cellWords(at)));
    if (!moved && known && isOther) glow(element);
    core.shown[at] = {name, text};
  });
  setAttribute(byId('grid'), 'aria-label', filled(TEXTS.coreLabel, {from: pad(from, 4)}));
  drawTabs();
  drawChosen();
  if (byId('core-details').open) drawCoreText();
}

function cellWords(at) {
  const {graphic, mark} = view.picture.cells[at];
  return {at: pad(view.picture.from + at, 4), graphic: graphic === ' ' ? TEXTS.blank : graphic,
    mark: mark ? TEXTS.withMark : ''};
}
let hasChosen = false;
function drawChosen() {
  if (!hasChosen) return setText(byId('cell'), TEXTS.cellHint);
  const graphic = view.picture.cells[core.chosen].graphic;
  const rows = rowsOf(graphic).join('-');
  setText(byId('cell'), filled(TEXTS.cell, {...cellWords(core.chosen), bits: bitsOf(graphic) || TEXTS.noBits,
    holes: rows || TEXTS.noHoles}));
}
function choose(at) {
  core.cells[core.chosen].tabIndex = -1;
  core.chosen = at;
  core.cells[at].tabIndex = 0;
  hasChosen = true;
  if (view.picture) drawChosen();
}
function drawCoreText() {
  const {from, cells} = view.picture;
  const rows = [];
  for (let at = 0; at < PLACES_SHOWN; at += 40) {
    const row = cells.slice(at, at + 40).map(cell => (cell.mark ? '~' : '') + cell.graphic).join('');
    rows.push(`${pad(from + at, 4)}  ${row.trimEnd()}`);
  }
  setText(byId('core-text'), rows.join('\n'));
}

/* The windows of core storage: 600 places each, the last one at its end. */
function windowsOf(size) {
  const windows = [];
  for (let at = 0; at + PLACES_SHOWN < size; at += PLACES_SHOWN) windows.push(at);
  return [...windows, size - PLACES_SHOWN];
}
function drawTabs() {
  const {size} = view.picture;
  if (core.size !== size) {
    core.size = size;
    byId('tabs').replaceChildren();
    for (const at of windowsOf(size)) {
      added(byId('tabs'), 'button', {type: 'button', textContent: pad(at, 4), value: at});
    }
  }
  for (const tab of byId('tabs').children) setAttribute(tab, 'aria-pressed', String(Number(tab.value) === view.core));
}
function windowWith(place) {
  const {size} = view.picture;
  return Math.min(Math.floor(place / PLACES_SHOWN) * PLACES_SHOWN, size - PLACES_SHOWN);
}
function showWindow(from) {
  view.core = from;
  drawTabs();
  return inTurn(look);
}
function followI() {
  const {registers, from, size} = view.picture;
  const place = registers.I;
  const isShown = place >= from && place < from + PLACES_SHOWN;
  if (byId('follow').checked && !isShown && place < size) view.core = windowWith(place);
}
async function findPlace(event) {
  event.preventDefault();
  const place = Number(byId('find-at').value.trim() || NaN);
  if (!view.picture) return;
  if (!(Number.isInteger(place) && place >= 0 && place < view.picture.size)) {
    return setText(byId('cell'), filled(TEXTS.findWrong, {last: pad(view.picture.size - 1, 4)}));
  }
  byId('follow').checked = false;
  await showWindow(windowWith(place));
  choose(place - view.picture.from);
  core.cells[core.chosen].focus();
}
function moveInCore(event) {
  const by = {ArrowLeft: -1, ArrowRight: 1, ArrowUp: -core.columns, ArrowDown: core.columns,
    Home: -(core.chosen % core.columns), End: core.columns - 1 - core.chosen % core.columns}[event.key];
  const to = core.chosen + by;
  if (by === undefined || event.altKey || event.ctrlKey) return;
  event.preventDefault();
  if (to < 0 || to >= PLACES_SHOWN) return;
  choose(to);
  core.cells[to].focus();
}
