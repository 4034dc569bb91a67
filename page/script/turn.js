/* Whose turn it is. In a room of several seats the guide holds the machine for its visitor, from the first step on. The
   pages of the others wait in line: after each turn the next seat that waits holds it, in the order of the seats. */
const TURN_IDLE_MS = 60000;
const TURN_SLOT_MS = 1500;
const TURN_LOOK_MS = 200;
const turn = {has: false, wants: false, freeSince: null};

const isShared = () => view.picture !== null && view.picture.seats > 1;
/* How many seats come to their turn after the last one, up to this one. Seats at which nobody sits are left out. */
function placeInLine() {
  const {seat, seats} = view.picture, last = hold.seat || hold.last;
  let place = 0;
  for (let by = 1; by <= seats; by++) {
    const at = (last + by - 1) % seats + 1;
    if (at === seat) return place + 1;
    if (hold.taken.includes(at)) place++;
  }
  return place + 1;
}
/* Holds the machine for this visitor, or puts them into the line. Whether they may go on. */
async function takeTurn() {
  if (!isShared() || guide.state !== 'on') return true;
  if (!isHolder()) await askToHold('/hold');
  turn.has = isHolder();
  turn.wants = isKeptOff();
  turn.freeSince = null;
  guide.draw();
  return !isKeptOff();
}
async function giveTurn() {
  turn.has = false;
  if (isHolder()) await askToHold('/release');
  guide.draw();
}
/* The key of the guide: to wait in line, to leave it, or to give the machine to the next. */
async function pressTurn() {
  if (turn.has) {
    await giveTurn();
    return guide.stepAside();
  }
  turn.wants = !turn.wants;
  turn.freeSince = null;
  guide.draw();
}
/* A turn ends with the name on the paper, after a minute without a hand, and with the guide. While a run goes on the
   machine isn't held again, so others can stop it. */
function isTurnOver() {
  return performance.now() - attract.touched > TURN_IDLE_MS || [null, 'done', 'lessonDone'].includes(guide.step());
}
async function lookForTurn() {
  if (!isShared() || view.link !== 'fine') return;
  if (turn.has && isKeptOff()) Object.assign(turn, {has: false, wants: true});
  if (turn.has && isTurnOver()) await giveTurn();
  else if (turn.has && !isHeld() && run === null) await takeTurn();
  if (guide.state !== 'on') turn.wants = false;
  if (turn.wants) await waitInLine();
}
/* The machine is free: the seats that come before have a moment each to take it. */
async function waitInLine() {
  if (isHeld()) {
    turn.freeSince = null;
    return guide.draw();
  }
  turn.freeSince ??= performance.now();
  if (performance.now() - turn.freeSince < placeInLine() * TURN_SLOT_MS || !(await takeTurn())) return;
  noteHand();
  tell(TEXTS.said.yourTurn);
}
function turnWords() {
  if (!isHeld()) return TEXTS.turn.soon;
  const n = placeInLine() - 1, values = {seat: hold.seat, n};
  if (!turn.wants) return filled(TEXTS.turn.busy, values);
  return n === 0 ? filled(TEXTS.turn.next, values) : counted(TEXTS.turn.later, n, values);
}
function drawTurn() {
  const isHidden = !turn.has && guide.step() !== 'wait';
  byId('turn-key').hidden = isHidden;
  byId('guide-key').hidden = !isHidden;
  setText(byId('turn-key'), turn.has ? TEXTS.turn.give : turn.wants ? TEXTS.turn.leave : TEXTS.turn.wait);
}
