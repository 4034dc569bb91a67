/* The machine made ready for the next visitor, by lines that an operator could type: hopper, paper and stacker are
   emptied, the switches turned off, core storage cleared, and the I register set to 0. The lamps and the carriage stay
   where they are, since no line sets them; the A and B registers are where the clearing leaves them. */
const CLEARED_AT_ONCE = 4000;
let isClearing = false;

/* An address in three characters: its thousands are zones. */
function addressOf(place) {
  const digits = pad(place % 1000, 3), thousands = Math.floor(place / 1000);
  const zoned = (digit, zone) => GRAPHICS[zone * 16 + (Number(digit) || 10)];
  return zoned(digits[0], thousands % 4) + digits[1] + zoned(digits[2], Math.floor(thousands / 4));
}
/* The lines that clear core storage of this size: instructions that clear a hundred places each, from the last on. */
function clearingLines(size) {
  const program = '~/' .repeat(39) + '~.', lines = [];
  for (let top = size; top > 0; top -= CLEARED_AT_ONCE) {
    lines.push(`DEPOSIT 0001 ~/${addressOf(top - 1)}${program.slice(0, 72)}`, `DEPOSIT 0041 ${program.slice(72)}`,
      'START 0001', `RUN ${Math.min(top, CLEARED_AT_ONCE) / 100}`);
  }
  return [...lines, 'START 0000'];
}
/* Whether nothing is left of what somebody did. */
function isClear({registers, cells, next}) {
  const {I, HOPPER, STACKER, PAPER, SWITCHES} = registers;
  return I + HOPPER + STACKER + PAPER === 0 && !/[A-G]/.test(SWITCHES) && next === null
    && cells.every(cell => cell.graphic === ' ' && !cell.mark);
}

async function pressAfresh() {
  if (!mayCommand() || taking || feed) return;
  const question = othersAtWork() ? TEXTS.afreshOthers : TEXTS.afreshAsk;
  if (!(await confirmed(question)) || !(await takeTurn())) return;
  stopRun();
  while (run) await delay(SLICE_MS);
  await startAfresh(renewal.mode === 'ON' ? renewRoom : clearMachine);
  guide.beginAgain();
}
/* What this page has taken and kept is gone too, and its words are as at first. A new machine may have what the staff
   has prepared. */
async function startAfresh(clear = clearMachine) {
  isClearing = true;
  note('words', TEXTS.said.clearing);
  tell(TEXTS.said.clearing);
  const isDone = await clear(), {clear: empty, prepared, notClear} = TEXTS.said;
  const words = isDone && isClear(view.picture) ? empty : isDone && clear === renewRoom ? prepared : notClear;
  isClearing = false;
  torn.length = taken.length = 0;
  drawTaken();
  forgetWords();
  followsPaper = byId('follow').checked = true;
  view.ended = null;
  byId('name').value = byId('keyed').value = '';
  drawKeyed();
  tell(words);
  note('words', words);
}
/* What the page has said of cards is over, and no card is in the read station. */
function forgetWords() {
  byId('moving-card').classList.add('none');
  fedAt = null;
  tellDeck('');
  tellTaken('');
}
/* The machine isn't clear any more. */
function leaveClear(words) {
  if (byId('said-words').textContent === TEXTS.said.clear) tell(words);
}
/* Another page has cleared the machine, or the room was opened again: whoever is here begins with it as it is now. */
function beginAnew(words) {
  forgetWords();
  tell(words);
  if (!['off', 'attract'].includes(guide.state)) guide.beginAgain();
}
/* Sends lines in as few requests as there may be, as long as each reply is of this form. */
async function sendInTurn(lines, wanted) {
  const {breaks} = view;
  for (let sent = 0; sent < lines.length;) {
    const {replies} = await inTurn(() => sendAll(lines.slice(sent), breaks));
    if (replies.length === 0 || !replies.every(reply => wanted.test(reply))) return false;
    sent += replies.length;
  }
  return true;
}
async function clearMachine() {
  const {HOPPER, PAPER, STACKER, SWITCHES} = view.picture.registers, {size} = view.picture;
  const lines = [...SWITCHES.replace(/-/g, '')].map(name => `SWITCH ${name} OFF`);
  const drawn = () => {};
  if (HOPPER) await takeMany('LOAD', 'OK', HOPPER, drawn, drawn);
  if (PAPER) await takeMany('LINE', 'LINE ', PAPER, drawn, drawn);
  if (STACKER) await takeMany('CARD', 'CARD ', STACKER, drawn, drawn);
  if (!(await sendInTurn([...lines, ...clearingLines(size)], /^(OK|STOP 01)/))) return false;
  view.core = 0;
  await inTurn(look);
  return true;
}
