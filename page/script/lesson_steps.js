/* The guide through a lesson, while a lesson is the chosen program. The machine decides here too which key is lit. The
   page remembers whether it has fed the lesson's cards, whether the broken program has run, whether a run has ended
   since the cards were fed, whether it ended for lack of cards since switch A was off, and whether an instruction was
   put into core storage. */
const LESSON_BEGINS = 400;
const lesson = {hasFed: false, hasRun: false, hasEnded: false, lacksSwitch: false, isMended: false};

/* The lesson that is chosen; none on a stage, which has no console. */
function lessonChosen() {
  const program = chosenProgram();
  return !isStage && program.loads ? program : null;
}
/* The lesson goes on with a machine that is clear, or with cards that were just fed. */
function beginLessonAgain(hasFed = false) {
  Object.assign(lesson, {hasFed, hasEnded: false, lacksSwitch: false, isMended: false});
}
function forgetLesson() {
  beginLessonAgain();
  lesson.hasRun = false;
}
function noteLesson(event, name) {
  if (event === 'fed') beginLessonAgain(true);
  if (event === 'stop' && ['lessonRun', 'lessonAgain'].includes(name)) {
    if (isWithoutSwitch(view.stop)) lesson.lacksSwitch = true;
    else lesson.hasRun = lesson.hasEnded = true;
  }
  if (event === 'deposit' && name === 'lessonMend') lesson.isMended = true;
}
/* The reader is empty, and the program that should notice its last card couldn't. */
function isWithoutSwitch(stop) {
  return stop.name === 'READER' && !view.picture.registers.SWITCHES.includes('A');
}
/* What a stop means in a lesson; nothing where the machine stops as in any program. */
function lessonWords(stop) {
  const chosen = lessonChosen(), words = TEXTS.lessonSaid;
  if (!chosen || !lesson.hasFed || guide.state !== 'on') return '';
  if (isWithoutSwitch(stop)) return words.noSwitch;
  const isLoaded = stop.name === 'LIMIT' && stop.next === LESSON_BEGINS && lesson.hasRun && !lesson.isMended;
  if (stop.name !== 'HALT' && !isLoaded) return '';
  const ended = lesson.hasEnded ? ['again', 'againMended'] : ['halt', 'mended'];
  const name = isLoaded ? 'loaded' : ended[Number(lesson.isMended)];
  return filled(words[name], {n: chosen.number});
}
/* The cards of a lesson are all in the hopper, and a program that is in core storage would read them as data. */
function warnsOfLesson() {
  if (!['lessonSwitch', 'lessonLoad'].includes(guide.step())) return false;
  tell(TEXTS.lessonSaid.loadFirst);
  return true;
}
/* Which places a DEPOSIT has filled, and where it has put word marks. */
function noteDeposit(line) {
  const [, at, text] = /^ *DEPOSIT +(\d+) (.*)$/.exec(line) || [];
  if (!lessonChosen() || at === undefined) return;
  const cells = [], from = Number(at);
  cellsOf(text, cells);
  const marks = cells.flatMap((cell, by) => cell.mark ? [pad(from + by, 3)] : []).join(', ');
  const values = {from: pad(from, 3), to: pad(from + cells.length - 1, 3), marks: marks || TEXTS.lessonSaid.none};
  note('words', filled(TEXTS.lessonSaid.deposited, values));
}
/* The step of a lesson that the machine is at. */
function lessonStepOf(picture, {cards}, {hasFed, hasRun, hasEnded, lacksSwitch, isMended}) {
  const {registers: {I, HOPPER, PAPER, SWITCHES}, cells, next, read, hopper} = picture;
  if (PAPER >= MOST_CARDS) return 'paper';
  if (lacksSwitch) return 'lessonNoSwitch';
  if (hasEnded) return isMended ? 'lessonDone' : 'lessonLook';
  if (hopper !== null && !cards.includes(hopper)) return 'lessonOther';
  if (HOPPER === cards.length) return SWITCHES.includes('A') ? 'lessonLoad' : 'lessonSwitch';
  if (hasFed) {
    if (!hasRun) return 'lessonRun';
    if (read === cards[0] && I === 1) return 'lessonSend';
    return I === LESSON_BEGINS && !isMended ? 'lessonMend' : 'lessonAgain';
  }
  return next === null && cells.every(cell => cell.graphic === ' ' && !cell.mark) ? 'lessonFeed' : 'lessonOther';
}
