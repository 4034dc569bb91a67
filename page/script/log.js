/* What the page says: the log of lines and replies, the words below the keys, and what has happened, for the parts that
   wait for it. */
const onHappened = [];
function happened(event) {
  for (const call of onHappened) call(event);
}

function stopOf(reply) {
  const parts = /^STOP \d\d ([A-Z]+) STEPS (\d+) I (\d{5})$/.exec(reply || '');
  return parts && {name: parts[1], steps: Number(parts[2]), next: Number(parts[3])};
}
/* What a lost word mark leads to: an instruction that is too long, or none at its place. */
const EXPLAINED = ['NOMARK', 'OPCODE', 'NOTFITTED', 'LENGTH', 'DCHAR', 'ADDRESS', 'OVERLAP'];
function markWords({name, next: at}) {
  const {from, cells} = view.picture, {before, isLost} = markBefore(at);
  const isLong = place => instructionLength(cells, place - from) === 8 && cells[place - from + 8]?.mark === false;
  if (!EXPLAINED.includes(name) || !cells[at - from]) return '';
  if (name !== 'NOMARK') return isLong(at) ? filled(TEXTS.tooLong, {at: pad(at, 3)}) : '';
  const values = {at: pad(at, 3), before: pad(before, 3)};
  const why = isLost ? TEXTS.lostMark : before === at - 8 && isLong(before) ? TEXTS.longBefore : '';
  return why && filled(`${TEXTS.noMarkAt} ${why}`, values);
}
/* The place before this one at which an instruction should begin: the last of the lesson's that has lost its
   mark, or else the last with a mark. */
function markBefore(at) {
  const {from, cells} = view.picture, lesson = lessonChosen();
  const has = place => cells[place - from] && cells[place - from].mark;
  let marked = at - 1;
  while (marked > from && !has(marked)) marked--;
  const lost = lesson ? placesOf(lesson.source).filter(place => place > marked && place < at) : [];
  return lost.length ? {before: lost[lost.length - 1], isLost: true} : {before: marked, isLost: false};
}
/* A reply in a visitor's words, if there are any. */
function wordsOf(reply) {
  const stop = stopOf(reply);
  if (stop) return lessonWords(stop) || markWords(stop) || TEXTS.stops[stop.name] || '';
  const known = /^(BYE$|(REFUSED|ERROR|FAULT|GLANCE FAULT) \d(?= [A-Z]))/.exec(reply);
  return known ? TEXTS.replies[known[0]] || '' : '';
}

/* Shows what became of a line in the log, and keeps what it has taken from the machine. */
function noteOutcome(outcome) {
  if (outcome.failed) return note('bad', outcome.failed);
  const reply = outcome.reply;
  if (/^LINE \d{4} \d\d /.test(reply)) torn.push(printedLineOf(reply));
  if (reply.startsWith('CARD ')) taken.push(reply.slice(5));
  if (reply !== '') note(/^(REFUSED|ERROR|FAULT|GLANCE FAULT) \d/.test(reply) ? 'bad' : '', reply);
  if (wordsOf(reply)) note('words', wordsOf(reply));
  drawTaken();
}

function note(kind, text) {
  const log = byId('log');
  added(log, 'p', {className: kind, textContent: text});
  while (log.childElementCount > 400) log.firstElementChild.remove();
  log.scrollTop = log.scrollHeight;
}

function tell(words, reply = '') {
  setText(byId('said-words'), words);
  setText(byId('said-reply'), reply);
}
function tellOutcome(outcome, words) {
  if (outcome.failed) tell(outcome.failed);
  else tell(wordsOf(outcome.reply) || words, outcome.reply);
}
/* What a visitor may do first, by what the machine has. */
function welcomeWords() {
  const {picture} = view;
  if (!picture) return TEXTS.said.welcome;
  const {HOPPER} = picture.registers;
  if (HOPPER > 0) return counted(TEXTS.said.welcomeCards, HOPPER);
  if (TEXTS.operations[(picture.next || '').split(' ')[0]]) return TEXTS.said.welcomeProgram;
  return hold.isPrepared && !isClear(picture) ? TEXTS.said.welcomePrepared : TEXTS.said.welcome;
}
