/* The printer. */
const sheets = new Map();   // the forms that are shown, each with its rows
let followsPaper = true, handOnPaper = -Infinity;

function sheetIn(parent, form) {
  const element = added(parent, 'div', {className: 'sheet'});
  element.setAttribute('role', 'group');
  element.setAttribute('aria-label', filled(TEXTS.formLabel, {form: pad(form, 4)}));
  const text = added(element, 'pre');
  return {element, rows: Array.from({length: FORM_LINES}, () => added(text, 'span'))};
}

/* The forms with lines, the carriage's, and the blank form after it. */
function formsShown() {
  const {FORM} = view.picture.registers;
  return [...new Set([...view.paper.map(line => line.form), FORM, (FORM + 1) % FORMS])];
}

function drawPaper() {
  const {registers} = view.picture;
  const forms = formsShown();
  const isOther = [...sheets.keys()].some((form, at) => forms[at] !== form);
  if (isOther) {
    for (const sheet of sheets.values()) sheet.element.remove();
    sheets.clear();
  }
  const isFirst = sheets.size === 0;
  for (const form of forms) if (!sheets.has(form)) sheets.set(form, sheetIn(byId('fold'), form));
  const texts = textsByForm(view.paper);
  for (const [form, sheet] of sheets) {
    drawSheet(sheet, texts.get(form) || [], form === registers.FORM ? registers.LINE : 0, !isFirst);
  }
  const place = {form: pad(registers.FORM, 4), line: registers.LINE};
  setText(byId('paper-at'), counted(TEXTS.paperAt, view.paper.length, place));
  drawTape(registers.LINE);
  byId('fold').style.setProperty('--lines', view.paper.length);
  byId('newest').hidden = view.paper.length === 0;
  setText(byId('newest'), view.paper.length === 0 ? '' : view.paper.at(-1).text);
  followPaper();
}
function textsByForm(lines) {
  const texts = new Map();
  for (const {form, line, text} of lines) {
    if (!texts.has(form)) texts.set(form, []);
    texts.get(form)[line - 1] = text;
  }
  return texts;
}
function drawSheet(sheet, texts, carriage, glows) {
  sheet.rows.forEach((row, at) => {
    const text = texts[at] || '';
    row.classList.toggle('at', at + 1 === carriage);
    if (row.textContent === text) return;
    row.textContent = text;
    if (glows) glow(row);
  });
}

/* Moves the paper to show the carriage's line, unless somebody has moved it to read. */
function followPaper() {
  byId('to-carriage').hidden = followsPaper;
  if (!followsPaper) return;
  const fold = byId('fold'), {registers} = view.picture;
  const {element, rows} = sheets.get(registers.FORM);
  const line = rows[0].offsetHeight * registers.LINE;
  fold.scrollTop = element.offsetTop + line - fold.clientHeight * .85;
}
/* A scroll soon after a hand was on the paper is a visitor's; any other is the page's own. */
function notePaperMoved() {
  if (performance.now() - handOnPaper < RETRY_MS) followsPaper = false;
  byId('to-carriage').hidden = followsPaper;
}
function goToCarriage() {
  followsPaper = true;
  followPaper();
}

function enlargePaper() {
  const isLarge = byId('fold').classList.toggle('large');
  byId('large-key').setAttribute('aria-pressed', String(isLarge));
  goToCarriage();
}

/* The carriage tape: a row for each line of the form, a hole for each channel. */
function buildTape() {
  const tape = byId('tape');
  drawn(tape, 'rect', {class: 'strip', x: 6, y: .5, width: 48, height: 329});
  for (let line = 1; line <= FORM_LINES; line += 2) {
    drawn(tape, 'rect', {class: 'feed-hole', x: 29, y: line * 5 - 3.5, width: 2, height: 2});
  }
  for (const [channel, line] of CHANNELS) {
    drawn(tape, 'rect', {class: 'hole', x: 8 + channel * 3.5 - 3.5, y: line * 5 - 4.4, width: 4, height: 3.8});
  }
  return drawn(tape, 'path', {class: 'pointer', d: 'M0 -3.4L6 0L0 3.4zM60 -3.4L54 0L60 3.4z'});
}
function drawTape(line) {
  tapePointer.setAttribute('transform', `translate(0 ${line * 5 - 2.5})`);
  setAttribute(byId('tape'), 'aria-label', filled(TEXTS.tapeLabel, {line}));
}

/* The forms that are printed by the browser: the torn-off paper, then what is in the printer. */
function layOutForPrint() {
  const target = byId('sheets-to-print');
  target.replaceChildren();
  for (const [form, texts] of textsByForm([...torn, ...view.paper])) drawSheet(sheetIn(target, form), texts, 0, false);
}
