/* The keys of the panel. */
let run = null;     // the run that goes on

/* Whether lines can be sent now. */
function mayCommand() {
  const isFull = view.full || view.picture !== null && view.picture.after >= JOURNAL_ENTRIES;
  return view.link === 'fine' && !view.unkept && !isFull && !isKeptOff();
}
/* A halt is an end for most programs: what comes next isn't carried out unless it is an instruction, or asked twice. */
function warnsOfEnd() {
  const {picture, ended} = view;
  if (ended === null || !picture || picture.registers.I !== ended) return false;
  view.ended = null;
  if (TEXTS.operations[(picture.next || '').split(' ')[0]]) return false;
  tell(TEXTS.said.afterEnd);
  return true;
}
/* Nothing is in core storage to be carried out: what is to be done first is said, and nothing is sent. */
function warnsOfNothing() {
  const {cells, next, registers} = view.picture;
  if (next !== null || !cells.every(cell => cell.graphic === ' ' && !cell.mark)) return false;
  tell(registers.HOPPER > 0 ? TEXTS.said.loadFirst : TEXTS.said.nothing);
  return true;
}
function noteStop(stop) {
  view.ended = stop && stop.name === 'HALT' ? stop.next : null;
  view.stop = stop;
  if (view.ended !== null) happened('halt');
  if (stop && stop.name !== 'LIMIT') happened('stop');
}

/* A deck that a stage runs by itself has parts of a second, since each is an entry of the journal. */
const ATTRACT_GROWN = 10;
/* A key that does one thing: a second press is left out until the first one has its answer, and a moment longer. */
const GUARD_MS = 400;
const guarded = new Set();
async function once(key, action) {
  if (guarded.has(key)) return;
  guarded.add(key);
  drawKeys();
  try {
    await action();
  } finally {
    setTimeout(() => {
      guarded.delete(key);
      drawKeys();
    }, GUARD_MS);
  }
}

const pressLoad = () => once('load-key', loadCard);
async function loadCard() {
  if (run || !mayCommand()) return;
  view.ended = null;
  const before = view.picture, outcome = await say('LOAD');
  tellOutcome(outcome, TEXTS.said.load);
  if (outcome.reply !== 'OK') return;
  tellDeck('');
  sound('read');
  noteScene(before, view.picture, true);
  happened('load');
}
async function pressStep() {
  if (run || !mayCommand() || warnsOfEnd() || warnsOfNothing() || warnsOfLesson()) return;
  const before = view.picture, outcome = await say('RUN 1'), stop = stopOf(outcome.reply);
  tellOutcome(outcome, TEXTS.said.step);
  noteStop(stop);
  if (stop && stop.steps === 1) noteScene(before, view.picture, false);
  if (stop) happened('step');
  drawPanel();
}
async function pressStart(event) {
  event.preventDefault();
  if (run || !mayCommand()) return;
  view.ended = null;
  tellOutcome(await say(`START ${byId('start-at').value.trim()}`), TEXTS.said.start);
}
function pressStop() {
  stopRun();
}
function stopRun() {
  if (!run) return;
  run.stop = true;
  run.wake();
}

/* RUN in parts, ten a second at first, so STOP ends it and the others get their turn. */
async function pressRun() {
  if (run || !mayCommand() || warnsOfEnd() || warnsOfNothing() || warnsOfLesson()) return;
  run = {stop: false, slices: 0, steps: 0, waits: '', began: performance.now(), grown: 1, wake: () => {}};
  view.ended = null;
  tell('');
  drawKeys();
  happened('run');
  const outcome = await runParts();
  const ended = run, stop = stopOf(outcome.reply);
  await showStop(stop);
  run = null;
  drawKeys();
  noteOutcome(outcome);
  tellRun(ended, outcome, stop);
  noteStop(stop);
  await inTurn(look);
  drawPanel();
}
/* A stop at a mistake shows the place where it is. */
async function showStop(stop) {
  if (!stop || !EXPLAINED.includes(stop.name) || stop.next >= view.picture.size) return;
  view.core = windowWith(stop.next);
  await inTurn(look);
}
function tellRun(ended, outcome, stop) {
  const counts = {steps: withCommas(ended.steps)};
  if (!stop) return tellOutcome(outcome, '');
  // The steps of all parts are shown, not those of the last one.
  const reply = outcome.reply.replace(/STEPS \d+/, `STEPS ${ended.steps}`);
  if (stop.name !== 'LIMIT') return tellOutcome({reply}, '');
  tell(ended.stop ? counted(TEXTS.said.stopped, ended.steps, counts) : filled(TEXTS.said.pause, counts));
}
async function runParts() {
  for (;;) {
    const outcome = await runPart(), stop = stopOf(outcome.reply);
    if (!stop || run.stop) return outcome;
    const hasWaited = await waitsFor(stop.name);
    if (hasWaited && !run.stop) continue;
    if (stop.name !== 'LIMIT' || view.picture.after >= JOURNAL_NEARLY || run.stop) return outcome;
  }
}
async function runPart() {
  const pace = PACES[byId('pace').selectedIndex];
  const idle = performance.now() - Math.max(run.began, attract.pressed);
  run.grown = Math.max(grownBy(idle), isExhibit && attract.on ? ATTRACT_GROWN : 1);
  const steps = Math.min(MOST_STEPS, run.grown * (pace === OWN_PACE ? OWN_STEPS : pace)), line = `RUN ${steps}`;
  if (run.slices === 0) note('you', line);
  const began = performance.now(), before = view.picture, {breaks} = view;
  const outcome = await inTurn(() => send(line, breaks)), stop = stopOf(outcome.reply);
  run.slices++;
  run.steps += stop ? stop.steps : 0;
  drawRun();
  const wanted = pace === OWN_PACE && stop ? await ownTime(before, stop.steps) : SLICE_MS * run.grown;
  const rest = attract.pressed > began ? SLICE_MS : wanted + began - performance.now();
  if (stop && stop.name === 'LIMIT') await napInRun(rest);
  return outcome;
}
/* How many times longer a part is, this long after somebody has pressed something. Each part is an entry of the
   journal, and so a day of running takes less than a fifth of one. */
function grownBy(idle) {
  return Math.min(MOST_GROWN, Math.max(1, 1 + Math.floor((idle - GROW_AFTER_MS) / GROW_MS)));
}
/* Waits until the next part is due, or until somebody presses something. */
function napInRun(ms) {
  return run.stop ? null : new Promise(done => {
    run.wake = done;
    setTimeout(done, Math.max(0, ms));
  });
}
/* How long the machine itself takes for what was done since a picture: 800 cards read, 250 punched and 600 lines
   printed a minute. */
async function ownTime(before, steps) {
  await inTurn(look);
  const {registers} = view.picture;
  const more = (name, by) => Math.max(0, by * (registers[name] - before.registers[name]));
  return Math.max(SLICE_MS, steps * .2 + 75 * more('HOPPER', -1) + 240 * more('STACKER', 1) + 100 * more('PAPER', 1));
}
/* A run that stops for cards that are being fed, or for a full printer or stacker, waits, says so, and goes on. */
async function waitsFor(stop) {
  const waiting = {
    READER: () => feed !== null && view.picture.registers.HOPPER === 0,
    FORMS: () => taking !== null || view.paper.length >= MOST_CARDS,
    STACKER: () => taking !== null || view.picture.registers.STACKER >= MOST_CARDS,
  }[stop];
  await inTurn(look);
  if (!waiting || !mayCommand() || stop === 'READER' && !feed) return false;
  run.waits = stop;
  tell(TEXTS.waits[stop]);
  while (!run.stop && mayCommand() && waiting()) {
    drawRun();
    await delay(WAIT_MS);
    await inTurn(look);
  }
  run.waits = '';
  tell('');
  return true;
}

/* Keys that can't be used now keep the keyboard's focus, and do nothing. */
const COMMAND_KEYS = ['load-key', 'run-key', 'step-key', 'start-key', 'feed-key', 'pick-key', 'card-key',
  'all-cards-key', 'tear-key', 'send-key', 'release-key', 'deck-key', 'name-key', 'afresh-key', 'feed-again-key'];
function drawKeys() {
  const may = mayCommand(), {PAPER, STACKER} = view.picture ? view.picture.registers : {PAPER: 0, STACKER: 0};
  for (const id of COMMAND_KEYS) setOff(byId(id), !may || guarded.has(id));
  for (const id of ['load-key', 'run-key', 'step-key', 'start-key']) {
    setOff(byId(id), !may || run !== null || guarded.has(id));
  }
  for (const button of byId('switches').children) setOff(button, !may);
  setOff(byId('stop-key'), run === null);
  if (isExhibit) setOff(byId('run-key'), run === null && (!may || guarded.has('run-key')));
  setOff(byId('tear-key'), !may || taking !== null || PAPER === 0);
  for (const id of ['card-key', 'all-cards-key']) setOff(byId(id), !may || taking !== null || STACKER === 0);
  drawRun();
}
function runWords() {
  if (!run) return othersRun() ? othersWords('Running') : '';
  return run.waits ? TEXTS.waits[run.waits] : filled(TEXTS.running, {steps: withCommas(run.steps)});
}
function drawRun() {
  if (isExhibit) setText(byId('run-key'), run ? TEXTS.stopKey : TEXTS.runKey);
  setText(byId('running'), runWords());
}
