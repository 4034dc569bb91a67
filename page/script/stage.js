/* The stage: the page's fragment says that it is the screen of an exhibit (#exhibit) or a projector's view (#watch). It
   may say more: #exhibit&name=The+museum&lang=de. A stage has drawings, one card, 80 places of core storage, the newest
   lines and four keys; one key shows everything else. */
const FRAGMENT = new URLSearchParams(location.hash.slice(1));
const isExhibit = FRAGMENT.has('exhibit'), isWatch = FRAGMENT.has('watch'), isStage = isExhibit || isWatch;
const STRIP_PLACES = 80;
const PRINT_FROM = 201, PRINT_PLACES = 40;
const BAND_LINES = 12;
/* The keys and words of the plain page that a stage has, and what becomes of them there. */
const ON_STAGE = {'stage-keys': ['feed-key', 'load-key', 'step-key', 'run-key'], 'stage-said': ['guide-said'],
  'stage-more': ['turn-key', 'language'], stage: ['name-form', 'home-figure']};
const strip = {cells: [], shown: [], heads: [], from: 1};

function buildStage() {
  if (!isStage) return;
  document.body.classList.add(isExhibit ? 'exhibit' : 'watch');
  byId('stage').hidden = false;
  for (const [place, parts] of Object.entries(ON_STAGE)) byId(place).append(...parts.map(byId));
  buildStrip();
  for (const id of ['run-key', 'feed-key']) byId(id).addEventListener('click', pressStageKey);
  if (isExhibit) Object.assign(IDLE, {attractMs: 10000, pauseMs: 4000, seatMs: 0});
}
/* Rows of 20 places: four of core storage, and two of the print area. */
function buildStrip() {
  for (let at = 0; at < STRIP_PLACES + PRINT_PLACES; at++) {
    if (at % 20 === 0) strip.heads.push(added(byId('strip'), 'b'));
    strip.cells.push(added(byId('strip'), 'span', {className: at < STRIP_PLACES ? '' : 'print'}));
  }
}
/* The first of the 80 places: those of the card, or others if the next instruction is there. */
function stripFrom({registers: {I}, size}) {
  return I <= STRIP_PLACES ? 1 : Math.min(I - (I - 1) % STRIP_PLACES, size - STRIP_PLACES);
}
/* The cell at a place; a blank one if the picture doesn't have it. */
const cellAt = ({cells, from}, place) => cells[place - from] || {graphic: ' ', mark: false};

/* Draws a picture on the stage: the machine's, or that of a scene, with the places that an instruction has touched. */
function drawStage(picture, touched = []) {
  if (!isStage) return;
  const from = stripFrom(picture), moved = from !== strip.from;
  const begin = picture.registers.I, end = begin + instructionLength(picture.cells, begin - picture.from);
  strip.from = from;
  strip.heads.forEach((head, row) => setText(head, pad(row < 4 ? from + 20 * row : PRINT_FROM + 20 * (row - 4), 3)));
  strip.cells.forEach((element, at) => {
    const place = at < STRIP_PLACES ? from + at : PRINT_FROM + at - STRIP_PLACES;
    const {graphic, mark} = cellAt(picture, place);
    const isOther = strip.shown[at] !== undefined && strip.shown[at] !== graphic + mark;
    setText(element, graphic === ' ' ? '\u00a0' : graphic);
    element.classList.toggle('mark', mark);
    element.classList.toggle('next', place >= begin && place < end);
    element.classList.toggle('touched', touched.includes(place));
    if (isOther && !moved) glow(element);
    strip.shown[at] = graphic + mark;
  });
  setAttribute(byId('strip'), 'aria-label', filled(TEXTS.stage.stripLabel, {from: pad(from, 3)}));
  drawBand(view.paper);
  drawStageCard(picture);
}
/* The newest lines of the paper, as large as the longest of them allows. */
function drawBand(lines) {
  const shown = lines.slice(-BAND_LINES).map(line => line.text), band = byId('band');
  byId('band').style.setProperty('--columns', Math.max(26, ...shown.map(text => text.trimEnd().length + 2)));
  while (band.childElementCount > shown.length) band.firstElementChild.remove();
  while (band.childElementCount < shown.length) added(band, 'p');
  shown.forEach((text, at) => setText(band.children[at], text || '\u00a0'));
}
/* The card that was read, or the next one, with a cut at each word mark. */
function drawStageCard(picture) {
  const {read, hopper} = picture, isThere = read !== '';
  cards.stage(isThere ? read : hopper);
  setText(byId('stage-card-name'), isThere ? TEXTS.stage.cardRead : hopper === null ? TEXTS.stage.cardNone
    : TEXTS.stage.cardNext);
  let cuts = '';
  for (let place = 2; isThere && place <= CARD_COLUMNS; place++) {
    const x = CARD.left + (place - 1.5) * CARD.column;
    if (cellAt(picture, place).mark) cuts += `M${x} 1V${CARD.height - 1}`;
  }
  setAttribute(stageCuts, 'd', cuts);
  const {I} = picture.registers, length = instructionLength(picture.cells, I - picture.from);
  const isLit = isThere && I >= 1 && I + length <= CARD_COLUMNS + 1;
  setAttribute(stageLit, 'x', CARD.left + (I - 1.5) * CARD.column);
  setAttribute(stageLit, 'width', isLit ? length * CARD.column : 0);
}
function pressMore() {
  const isMore = document.body.classList.toggle('more');
  setText(byId('more-key'), isMore ? TEXTS.stage.back : TEXTS.stage.more);
  byId('more-key').setAttribute('aria-expanded', String(isMore));
  if (view.picture && isMore) resized();
}
/* What the head of a stage says: the museum's name, or for a projector who is at the machine. */
function drawStageHead() {
  if (!isStage) return;
  const last = view.others.last, seat = isHeld() ? hold.seat : last && othersAtWork() ? last.seat : 0;
  setText(byId('stage-name'), FRAGMENT.get('name') || TEXTS.stage.name);
  setText(byId('stage-who'), !isWatch ? '' : seat ? filled(TEXTS.stage.who, {seat}) : TEXTS.stage.nobody);
}
/* On a stage RUN is STOP while a program runs, and FEED clears the machine where the guide asks for it. */
function pressStageKey(event) {
  if (!isExhibit) return;
  if (event.currentTarget.id === 'run-key' && run) {
    event.stopImmediatePropagation();
    stopRun();
  }
  if (event.currentTarget.id === 'feed-key' && wantsClearing() && mayCommand()) {
    event.stopImmediatePropagation();
    once('feed-key', clearForGuide);
  }
}
const wantsClearing = () => isExhibit && ['other', 'paper'].includes(guide.step());
async function clearForGuide() {
  if (!(await takeTurn())) return;
  stopRun();
  while (run) await delay(SLICE_MS);
  await startAfresh(renewal.mode === 'ON' ? renewRoom : clearMachine);
  guide.begin();
}
/* The teacher's keys of a projector's view. Both hold the machine, which ends a run before its next part; the one for a
   run gives it back after the longest part that a run has. */
const watching = {holds: false, stops: false, until: Infinity};
function watchStop() {
  Object.assign(watching, {stops: true, until: Infinity});
  return lookForWatch();
}
async function watchHold() {
  watching.holds = !watching.holds;
  if (!watching.holds && !watching.stops && isHolder()) await askToHold('/release');
  return lookForWatch();
}
/* Waits for the end of another page's hold. A hold has a minute; it is asked for again while the key is pressed. */
async function lookForWatch() {
  const {holds, stops} = watching;
  if ((holds || stops) && !isHeld()) await askToHold('/hold');
  if (stops && isHolder()) watching.until = Math.min(watching.until, performance.now() + LONGEST_PART_MS);
  if (performance.now() > watching.until) {
    Object.assign(watching, {stops: false, until: Infinity});
    if (!holds && isHolder()) await askToHold('/release');
  }
  for (const key of ['hold', 'stop']) byId(`watch-${key}`).setAttribute('aria-pressed', String(watching[`${key}s`]));
}
