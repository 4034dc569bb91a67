/* Drawing: the head, the banner, and the operator's panel. */
function draw() {
  drawHead();
  drawPanel();
  drawCore();
  drawCards();
  drawPaper();
  drawKeys();
  guide.draw();
  drawMachines(view.picture);
  if (!tour.isOn) drawStage(view.picture);
  followI();
  showChanges(drawnLast, view.picture);
  drawnLast = view.picture;
}
let drawnLast = null;
/* All of it, in another language. */
function drawAnew() {
  seatsDrawn = '';
  core.size = 0;
  core.from = null;
  for (const sheet of sheets.values()) sheet.element.remove();
  sheets.clear();
  tell(welcomeWords());
  drawProgram();
  guide.draw();
  drawKeyed();
  drawTaken();
  drawBanner();
  if (view.picture) draw();
}

function bannerText() {
  if (view.unkept) return TEXTS.unkept;
  if (view.link !== 'fine') return filled(TEXTS[view.link], {status: view.status});
  const after = view.picture ? view.picture.after : 0;
  if (view.full || after >= JOURNAL_ENTRIES) return TEXTS.full;
  return after >= JOURNAL_NEARLY && renewal.mode !== 'ON' ? filled(TEXTS.nearlyFull, {n: withCommas(after)}) : '';
}
function drawBanner() {
  const text = bannerText();
  setText(byId('banner'), text);
  byId('banner').hidden = text === '';
  byId('link').classList.toggle('lost', view.link !== 'fine');
  setAttribute(byId('link'), 'title', view.link === 'fine' ? TEXTS.answers : text);
}

let seatsDrawn = '';
function drawHead() {
  const {seat, seats, after} = view.picture;
  setText(byId('after'), counted(TEXTS.after, after));
  drawOthers();
  if (seatsDrawn === `${seat} ${seats}`) return;
  seatsDrawn = `${seat} ${seats}`;
  document.title = filled(TEXTS.documentTitle, {seat});
  byId('seats').replaceChildren();
  added(byId('seats'), 'span', {textContent: TEXTS.seats});
  const {protocol, hostname} = location;
  const port = Number(location.port || (protocol === 'https:' ? 443 : 80)) - seat;
  for (let n = 1; n <= seats; n++) {
    const address = `${protocol}//${hostname}:${port + n}/`;
    const link = added(byId('seats'), 'a', {href: address, textContent: n});
    link.setAttribute('aria-label', filled(n === seat ? TEXTS.thisSeat : TEXTS.seat, {n}));
    if (n === seat) link.setAttribute('aria-current', 'page');
  }
}

/* What another seat does; its number and its last line are known unless this page gave the last command. */
function othersWords(what) {
  const last = lastOfOthers();
  return last ? filled(TEXTS[`seat${what}`], last) : TEXTS[`others${what}`];
}
/* That another seat runs a program, which the keys that start one say too, or has just given commands; and how many all
   others gave, and the last one. */
function drawOthers() {
  const {count} = view.others;
  const now = othersWords(othersRun() ? 'Run' : 'Now'), before = count > 0 ? counted(TEXTS.others, count) : '';
  setText(byId('others'), othersAtWork() ? now : before + (before && lastOfOthers() ? othersWords('Last') : ''));
  byId('others').classList.toggle('wrong', othersAtWork());
  for (const id of ['load-key', 'step-key', 'start-key', 'run-key']) {
    const why = isKeptOff() ? holdWords() : othersRun() ? othersWords('Run') : '';
    setAttribute(byId(id), 'title', why || TEXTS[byId(id).dataset.title]);
  }
  drawRun();
}

function drawPanel() {
  const registers = view.picture.registers;
  for (const name of ['I', 'A', 'B']) {
    const digits = pad(registers[name], 5), element = byId(name);
    [...digits].forEach((digit, at) => setText(element.children[at], digit));
    setAttribute(element, 'aria-label', `${TEXTS[`register${name}`]} ${digits}`);
  }
  for (const [name, lamp] of lamps) {
    lamp.classList.toggle('on', registers[name] === 1);
    const state = registers[name] === 1 ? TEXTS.on : TEXTS.off;
    setAttribute(lamp, 'aria-label', filled(TEXTS.lampLabel, {name: TEXTS.lamps[name], state}));
  }
  const hasEnded = view.ended !== null && registers.I === view.ended;
  const next = hasEnded ? '' : (view.picture.next || '').trim();
  setText(byId('next'), next || (hasEnded ? TEXTS.nextEnded : TEXTS.nextNone));
  setText(byId('next-words'), TEXTS.operations[next.split(' ')[0]] || '');
  for (const button of byId('switches').children) {
    setAttribute(button, 'aria-pressed', String(registers.SWITCHES.includes(button.value)));
  }
  drawBulbs();
}

/* A second view of the registers: the lamps of a console, each character by its bits C B A 8 4 2 1. */
function bitsWithCheck(graphic) {
  const code = GRAPHICS.indexOf(graphic), bits = [32, 16, 8, 4, 2, 1].map(bit => (code & bit) > 0);
  return [bits.filter(Boolean).length % 2 === 0, ...bits];
}
function bulbRows() {
  const {registers, from, cells} = view.picture;
  const at = place => cells[place - from] ? cells[place - from].graphic : ' ';
  const rows = [['B', at(registers.B)], ['A', at(registers.A)], ['OP', at(registers.I)]];
  const address = [...pad(registers.I, 5)].map((digit, at) => [`${TEXTS.bulbAddress}${at + 1}`, digit]);
  return [...rows, ...address];
}
function drawBulbs() {
  const isShown = byId('view-key').getAttribute('aria-pressed') === 'true';
  byId('bulbs').hidden = !isShown;
  byId('registers').hidden = isShown;
  if (!isShown || !view.picture) return;
  byId('bulbs').replaceChildren();
  for (const [name, graphic] of bulbRows()) {
    const row = added(byId('bulbs'), 'div');
    added(row, 'b', {textContent: name});
    bitsWithCheck(graphic).forEach((isOn, at) => {
      added(row, 'i', {textContent: 'CBA8421'[at], className: isOn ? 'on' : ''}).setAttribute('aria-hidden', 'true');
    });
    row.setAttribute('role', 'img');
    row.setAttribute('aria-label', `${name} ${graphic === ' ' ? TEXTS.blank : graphic}`);
  }
}
function pressView() {
  const isShown = byId('view-key').getAttribute('aria-pressed') !== 'true';
  byId('view-key').setAttribute('aria-pressed', String(isShown));
  drawBulbs();
}
