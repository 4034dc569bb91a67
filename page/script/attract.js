/* Idle minutes: the machine runs a deck by itself until somebody touches it, unless the staff has prepared it. Each
   such run takes about a hundred entries of the journal, and none begins once half of the journal is used. */
const IDLE = {attractMs: 180000, pauseMs: 90000, seatMs: 20000, mostAfter: JOURNAL_ENTRIES / 2};
const attract = {on: false, stop: false, yields: false, press: false, touched: performance.now(),
  pressed: performance.now(), ended: -Infinity};

/* A key of the keyboard that is held down on a button: it presses once. */
const isHeldDown = ({repeat, key, target}) => repeat && ['Enter', ' '].includes(key) && target.tagName === 'BUTTON';
/* A hand on the page ends the attract loop, between two decks too, and does nothing else. The click that ends its press
   does nothing either, even if the machine is clear by then. */
function touch(event) {
  attract.touched = attract.pressed = performance.now();
  if (run) run.wake();
  if (event.isTrusted === false) return;
  const waited = VISIT.isFresh;
  if (waited) greet();
  if (isHeldDown(event)) return event.preventDefault();
  const isClick = event.type === 'click', ends = guide.state === 'attract' || waited, goesOn = isClick && attract.press;
  attract.press = ends && !isClick;
  if (ends) {
    if (attract.on) attract.stop = true;
    else takeOver();
    stopRun();
  } else if (!goesOn) return;
  if (event.key === 'Tab') return;
  event.preventDefault();
  event.stopPropagation();
}
function noteHand() {
  attract.touched = performance.now();
}
function isIdle() {
  const now = performance.now(), {picture} = view;
  if (!picture || hold.isPrepared || !mayCommand() || run || feed || taking || document.hidden) return false;
  if (isStage && !VISIT.isFresh) return false;
  if (picture.after > IDLE.mostAfter) return false;
  const wanted = IDLE.attractMs + picture.seat * IDLE.seatMs;
  return now - attract.touched > wanted && now - view.changed > wanted - IDLE.attractMs + IDLE.pauseMs
    && now - attract.ended > IDLE.pauseMs && now - view.others.at > wanted;
}
async function attractIfIdle() {
  if (attract.on || !isIdle()) return;
  Object.assign(attract, {on: true, stop: false, yields: false});
  document.body.classList.add('attracts');
  if (!isStage) asNew();
  guide.state = 'attract';
  guide.draw();
  await playDeck();
  if (attract.stop) return takeOver();
  Object.assign(attract, {on: false, ended: performance.now()});
  if (attract.yields) stepAside();
}
/* The guide begins for whoever has come, with a clear machine unless somebody works at another seat. */
async function takeOver() {
  Object.assign(attract, {on: true, stop: true});
  const isOurs = !attract.yields && mayCommand() && !othersAtWork();
  if (isOurs && !isClear(view.picture)) await startAfresh();
  Object.assign(attract, {on: false, ended: performance.now()});
  document.body.classList.remove('attracts');
  guide.begin();
}
/* Somebody works at another seat: the machine is left to them as it is. */
function yieldToOthers() {
  attract.yields = true;
  if (attract.on) stopRun();
  else if (guide.state === 'attract') stepAside();
}
function stepAside() {
  document.body.classList.remove('attracts');
  guide.stepAside();
}
/* Clears the machine, feeds a deck that needs nobody, and runs it at the machine's own pace. */
async function playDeck() {
  const ends = () => attract.stop || attract.yields || !mayCommand();
  await startAfresh();
  if (ends()) return;
  const shown = PROGRAMS.filter(program => program.alone && !(isExhibit && program.name === 'hello'));
  const program = shown[Math.floor(Math.random() * shown.length)], pace = byId('pace').selectedIndex;
  byId('program').value = program.name;
  drawProgram();
  await feedDeck(program.cards);
  if (ends()) return;
  if (program.switches) await say(`SWITCH ${program.switches} ON`);
  await pressLoad();
  if (ends()) return;
  byId('pace').selectedIndex = isExhibit ? 0 : PACES.indexOf(OWN_PACE);
  await pressRun();
  byId('pace').selectedIndex = pace;
}
