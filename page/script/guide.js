/* The guide. Before each step it asks the machine: what is in hopper, core storage and registers decides which key it
   lights. The page remembers only whether its visitor has fed a card, and the card with their name. */
const GUIDE_WAITS_MS = 120000;
/* Where the instructions of the hello card begin, and where its halt leaves the I register. */
const HELLO_AT = [1, 8, 15, 22, 29, 36, 37];
const HELLO_END = 38;
/* Each step has the key for it, and the number of the step that is shown. */
const GUIDE_STEPS = {
  feed: {key: 'feed-key', shown: 0}, load: {key: 'load-key', shown: 1}, step: {key: 'step-key', shown: 2},
  run: {key: 'run-key', shown: 3}, name: {key: 'name-key', shown: 4, focus: 'name'},
  loadName: {key: 'load-key', shown: 4}, runName: {key: 'run-key', shown: 4}, done: {key: '', shown: 5},
  lessonFeed: {key: 'feed-key', shown: -1}, lessonSwitch: {key: 'switch-A', shown: -1},
  lessonLoad: {key: 'load-key', shown: -1}, lessonRun: {key: 'run-key', shown: -1},
  lessonLook: {key: 'afresh-key', shown: -1}, lessonNoSwitch: {key: 'afresh-key', shown: -1},
  lessonOther: {key: 'afresh-key', shown: -1}, lessonSend: {key: 'send-key', shown: -1, focus: 'line'},
  lessonMend: {key: 'send-key', shown: -1, focus: 'line'}, lessonAgain: {key: 'run-key', shown: -1},
  lessonDone: {key: '', shown: -1},
  other: {key: 'afresh-key', shown: -1}, paper: {key: 'tear-key', shown: -1}, wait: {key: 'turn-key', shown: -1},
};
/* The steps at which it waits for as long as it takes. */
const PATIENT_STEPS = ['feed', 'wait', 'lessonFeed', 'lessonLook', 'lessonNoSwitch', 'lessonOther', 'lessonMend'];
/* The steps at which a visitor sends lines, and needs the console in sight. */
const CONSOLE_STEPS = ['lessonSend', 'lessonMend', 'lessonAgain'];

/* Gives a key the focus, and scrolls no further than it takes to see it. */
function focusNear(key) {
  key.focus({preventScroll: true});
  key.scrollIntoView({block: 'nearest'});
}
const isHello = text => text !== null && text.startsWith(HELLO.slice(0, NAME_COLUMN));
/* Whether the line of a card is on the paper. The lines that were there before the card was punched don't count. */
function isPrinted(card, from) {
  return [...torn, ...view.paper].slice(from).some(line => line.text === card.slice(NAME_COLUMN));
}
/* Whether a hello card would run: core storage is clear, but for an earlier hello card that halted or was left. */
function isFree({cells, from, read, next, registers}) {
  if (isHello(read) && [...HELLO_AT, HELLO_END].includes(registers.I)) {
    return from > 0 || cells.slice(201, 333).every(cell => !cell.mark);
  }
  return next === null && cells.every(cell => cell.graphic === ' ' && !cell.mark);
}
/* The step that the machine is at, for a visitor who has fed a card or not, and has a card with a name or not. */
function stepOf(picture, {hasFed, card, from}) {
  const {registers: {I, HOPPER, PAPER}, read, hopper} = picture, isOurs = text => text === HELLO || text === card;
  if (card !== null && isPrinted(card, from)) return 'done';
  if (PAPER >= MOST_CARDS) return 'paper';
  if (isOurs(read) && HELLO_AT.includes(I)) return card !== null ? 'runName' : I === 1 ? 'step' : 'run';
  if (HOPPER > 0) return !isOurs(hopper) ? 'other' : card !== null ? 'loadName' : 'load';
  if (!isFree(picture)) return 'other';
  return hasFed && isOurs(read) ? 'name' : 'feed';
}
/* The program whose cards are next and were read last, if there is just one. */
function programThere({read, hopper}) {
  const has = ({cards}, card) => cards.some(each => each.trimEnd() === card);
  const found = PROGRAMS.filter(each => (hopper === null || has(each, hopper)) && (read === '' || has(each, read)));
  return (hopper !== null || read !== '') && found.length === 1 ? found[0].name : null;
}

const guide = {
  state: 'off', hasFed: false, card: null, from: 0, since: 0, lit: '',

  /* Begins with what the machine has now. What the staff has put into it isn't to be cleared. */
  begin() {
    byId('program').value = 'hello';
    drawProgram();
    forgetLesson();
    this.goOn();
  },
  /* Begins, and a lesson that is chosen goes on. */
  beginAgain() {
    if (!lessonChosen()) return this.begin();
    beginLessonAgain();
    this.goOn();
  },
  goOn() {
    const isPrepared = hold.isPrepared && view.picture !== null && !isClear(view.picture);
    Object.assign(this, {hasFed: false, card: null, since: performance.now(), state: isPrepared ? 'prepared' : 'on'});
    this.draw();
  },
  /* Something has happened here: the guide is needed. A card that follows a name's is the next visitor's. */
  on(event) {
    this.since = performance.now();
    noteLesson(event, this.step());
    if (event === 'fed') {
      if (this.step() === 'done') this.card = null;
      this.hasFed = true;
    }
    this.draw();
  },
  /* After a while without a hand the guide steps aside. A run that nobody has touched for longer was left here. */
  look() {
    const now = performance.now(), isLeft = run !== null && !attract.on && now - attract.touched > IDLE.attractMs;
    if (isLeft && this.state === 'aside') this.begin();
    const isLate = now - Math.max(this.since, attract.touched) > GUIDE_WAITS_MS;
    if (this.state === 'on' && !PATIENT_STEPS.includes(this.step()) && isLate && !run) this.stepAside();
  },
  stepAside() {
    if (isStage) return this.begin();
    this.state = 'aside';
    this.draw();
  },
  press() {
    if (this.isOver()) return lessonChosen() ? this.goOn() : this.begin();
    this.state = 'off';
    this.draw();
  },

  isOver() {
    return this.state !== 'on' || this.step() === 'done';
  },
  /* The step that the machine is at now; null if there is nothing to guide. */
  step() {
    if (this.state !== 'on' || view.picture === null) return null;
    const chosen = lessonChosen();
    const step = chosen ? lessonStepOf(view.picture, chosen, lesson) : stepOf(view.picture, this);
    return !['done', 'lessonDone'].includes(step) && (turn.wants || isKeptOff()) ? 'wait' : step;
  },
  draw() {
    const name = this.step(), step = name && GUIDE_STEPS[name], shown = step ? step.shown : -1;
    this.light(this.keyFor(name), step && !tour.isOn && step.focus);
    const chosen = lessonChosen();
    byId('guide-steps').hidden = chosen !== null;
    document.documentElement.classList.toggle('sends', CONSOLE_STEPS.includes(name));
    setText(byId('guide-title'), chosen ? filled(TEXTS.lessonTitle, {n: chosen.number}) : TEXTS.guideTitle);
    if (isExhibit) setText(byId('feed-key'), TEXTS.childKeys[wantsClearing() ? 'clear' : 'feed']);
    [...byId('guide-steps').children].forEach((element, at) => {
      element.classList.toggle('done', at < shown);
      element.toggleAttribute('aria-current', at === shown);
      if (at === shown) element.setAttribute('aria-current', 'step');
      setAttribute(element, 'aria-label', filled(at < shown ? TEXTS.stepDone : TEXTS.stepOpen,
        {n: at + 1, name: TEXTS.guideSteps[at]}));
    });
    byId('name-form').hidden = name !== 'name' || tour.isOn;
    byId('guide-end').hidden = name !== 'done';
    setText(byId('guide-now'), this.words(name));
    setText(byId('guide-key'), this.isOver() ? TEXTS.guideOn : TEXTS.guideOff);
    drawHomeCode(name === 'done');
    drawTurn();
  },
  /* The key for a step. On a stage FEED clears too, and the tour is closed before the name is written. */
  keyFor(name) {
    if (name === null) return '';
    return wantsClearing() ? 'feed-key' : name === 'name' && tour.isOn ? 'why-key' : GUIDE_STEPS[name].key;
  },
  /* Lights a key. The keyboard's focus goes on to it from the key that was lit before. */
  light(lit, focus) {
    if (lit === this.lit) return;
    const before = this.lit && byId(this.lit);
    this.lit = lit;
    if (before) before.classList.remove('lit');
    if (!lit) return;
    byId(lit).classList.add('lit');
    if (before && before === document.activeElement) setTimeout(() => focusNear(byId(focus || lit)));
  },
  words(name) {
    if (name === null) return TEXTS.guide[this.state === 'on' ? 'off' : this.preparedWords()];
    if (name === 'wait') return turnWords();
    const words = isExhibit ? TEXTS.childWords : TEXTS.guideWords;
    const there = name === 'other' ? programThere(view.picture) : null, {loads, number} = chosenProgram();
    if (there) return filled(words.program, {name: TEXTS.programs[there].name});
    return filled(words[name], {loads, n: number});
  },
  preparedWords() {
    return this.state === 'prepared' && renewal.mode === 'ON' ? 'preparedAgain' : this.state;
  },
};
onHappened.push(event => guide.on(event));

/* The longest of the guide's texts decides its height, so the keys below it stay where they are. */
function reserveGuide() {
  if (isStage) return;
  const probe = byId('guide-said').cloneNode(true), [words, end] = probe.children;
  probe.id = words.id = '';
  probe.className = 'probe';
  words.removeAttribute('aria-live');
  byId('guide').append(probe);
  const heights = Object.entries(TEXTS.guideWords).map(([name, text]) => {
    words.textContent = text;
    end.hidden = name !== 'done';
    return probe.offsetHeight + 1;
  });
  probe.remove();
  byId('guide-said').style.minHeight = `${Math.max(...heights)}px`;
}
