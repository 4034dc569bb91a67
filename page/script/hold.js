/* Which page holds the machine, which seat gave the last command, which seats are taken, and whether the room was begun
   with a program or cards, as the server says. A page may hold the machine for a minute: then no other page gives it
   lines. */
const HOLD_MS = 1000;
const hold = {asked: -Infinity, seat: 0, left: 0, until: 0, last: 0, taken: [], isPrepared: false};
const HOLD_FORM = /^HOLD (?:FREE|(\d+) FOR (\d+))\nLAST (?:NONE|(\d+) (.+))\nTAKEN([ \d]*)\nBEGAN (PLAIN|PREPARED)\n$/;

const isHeld = () => hold.seat !== 0 && performance.now() < hold.until;
const isHolder = () => isHeld() && view.picture !== null && view.picture.seat === hold.seat;
const isKeptOff = () => isHeld() && !isHolder();

/* Takes in what the server says. */
function takeHold(text) {
  const found = HOLD_FORM.exec(text);
  if (!found) return;
  const [, seat, left, last, line, taken, began] = found;
  Object.assign(hold, {seat: Number(seat || 0), left: Number(left || 0), isPrepared: began === 'PREPARED',
    last: Number(seat || hold.last), taken: taken.split(' ').map(Number)});
  hold.until = performance.now() + 1000 * hold.left;
  view.others.last = last ? {seat: Number(last), line} : null;
  drawTakenSeats(taken.split(' '));
  drawHold();
  guide.draw();
}
/* Somebody sits at these other seats. */
function drawTakenSeats(taken) {
  for (const link of byId('seats').querySelectorAll('a:not([aria-current])')) {
    const n = link.textContent, isTaken = taken.includes(n);
    link.classList.toggle('taken', isTaken);
    setAttribute(link, 'aria-label', filled(isTaken ? TEXTS.takenSeat : TEXTS.seat, {n}));
  }
}
function forgetHold() {
  Object.assign(hold, {asked: -Infinity, seat: 0, left: 0, until: 0});
  view.others.last = null;
  drawHold();
}
async function askForHold(path, method) {
  const headers = method === 'POST' ? {'X-1401-Room': view.picture.room} : {};
  const response = await fetch(path, {method, headers, cache: 'no-store', signal: timeLimit()});
  const text = await response.text();
  if (response.status === 200 || response.status === 423) takeHold(text);
}
/* Once, and then again and again in a room of several seats. */
async function lookForHold() {
  const now = performance.now(), isEnding = turn.has && hold.until - now < HOLD_MS;
  const pause = turn.wants || watching.holds || watching.stops || isEnding ? TURN_LOOK_MS : HOLD_MS;
  if (view.link !== 'fine' || now - hold.asked < (isShared() ? pause : Infinity)) return;
  hold.asked = now;
  try {
    await askForHold('/hold', 'GET');
  } catch {
    hold.seat = 0;
  }
}
async function askToHold(path) {
  try {
    await askForHold(path, 'POST');
  } catch {
    setLink('lost');
  }
}
/* Who lets others go on by this key gives their turn back too. */
const pressHold = () => turn.has ? giveTurn() : askToHold(isHolder() ? '/release' : '/hold');

function holdWords() {
  if (!isHeld()) return '';
  if (isHolder() && turn.has) return '';
  return isHolder() ? TEXTS.holder : filled(TEXTS.keptOff, {seat: hold.seat});
}
/* The seconds aren't read aloud: they change all the time. */
function drawHold() {
  const isOne = !view.picture || view.picture.seats === 1;
  byId('hold-key').hidden = isOne;
  setText(byId('hold-key'), isHolder() ? TEXTS.releaseHold : TEXTS.holdKey);
  setAttribute(byId('hold-key'), 'title', isHolder() ? TEXTS.releaseTitle : TEXTS.holdTitle);
  setOff(byId('hold-key'), view.link !== 'fine' || isKeptOff());
  drawNotice();
  drawKeys();
}
/* What is to be known of the room: that another machine follows soon, or that a page holds this one. */
function drawNotice() {
  const {seconds} = renewal, words = seconds === null ? holdWords() : counted(TEXTS.renewal, seconds);
  setText(byId('notice-words'), words);
  setText(byId('notice-left'), seconds === null && words ? ` ${filled(TEXTS.secondsLeft, {n: hold.left})}` : '');
  byId('notice').hidden = words === '';
}
