/* The beginning: texts, parts that are built once, and what listens. */
function putTexts() {
  document.documentElement.lang = TEXTS.language;
  document.documentElement.dir = TEXTS.dir;
  for (const element of document.querySelectorAll('[data-text], [data-label], [data-title], [data-hint]')) {
    const {text, label, title, hint} = element.dataset;
    if (text) element.textContent = TEXTS[text];
    if (label) element.setAttribute('aria-label', TEXTS[label]);
    if (title) element.title = TEXTS[title];
    if (hint) element.placeholder = TEXTS[hint];
  }
  byId('after').title = TEXTS.afterTitle;
  putChoices();
  for (const [table, rows] of [['lines', TEXTS.lines], ['help-shortcuts', TEXTS.shortcuts]]) {
    byId(table).replaceChildren();
    for (const row of rows) {
      const line = added(byId(table), 'tr');
      for (const text of row) added(line, 'td', {textContent: text});
    }
  }
  byId('guide-steps').replaceChildren();
  for (const step of TEXTS.guideSteps) added(byId('guide-steps'), 'li', {textContent: step});
  buildAbout();
  if (isStage) buildDrawings();
  buildKeyboard();
  buildNameKeys();
  reserveGuide();
  namePanel();
}
/* What can be chosen, by its names. */
function putChoices() {
  const pace = byId('pace').selectedIndex, program = byId('program').value;
  byId('pace').replaceChildren();
  for (const name of TEXTS.paces) added(byId('pace'), 'option', {textContent: name});
  byId('pace').selectedIndex = pace < 0 ? FASTEST : pace;
  byId('program').replaceChildren();
  for (const {name} of PROGRAMS) {
    added(byId('program'), 'option', {value: name, textContent: TEXTS.programs[name].name});
  }
  byId('program').value = program || 'hello';
  byId('language').replaceChildren();
  for (const [name, texts] of Object.entries(LANGUAGES)) {
    added(byId('language'), 'option', {value: name, textContent: texts.name, lang: name});
  }
  byId('language').value = TEXTS.language;
}
function namePanel() {
  for (const button of byId('switches').children) {
    button.setAttribute('aria-label', filled(TEXTS.switchLabel, {name: button.value}));
  }
  for (const [name, lamp] of lamps) setText(lamp.previousElementSibling, TEXTS.lamps[name]);
}
function buildPanel() {
  for (const name of ['I', 'A', 'B']) {
    for (let digit = 0; digit < 5; digit++) added(byId(name), 'b', {textContent: '0'});
  }
  for (const name of SWITCHES) {
    const id = `switch-${name}`;
    const button = added(byId('switches'), 'button', {type: 'button', id, value: name, textContent: name});
    button.setAttribute('aria-pressed', 'false');
    button.addEventListener('click', () => turnSwitch(button));
  }
  return ['UNEQUAL', 'LOW', 'HIGH', 'OVERFLOW'].map(name => {
    const part = added(byId('lamps'), 'div');
    added(part, 'span', {className: 'name'}).setAttribute('aria-hidden', 'true');
    const lamp = added(part, 'div', {className: 'lamp'});
    lamp.setAttribute('role', 'img');
    return [name, lamp];
  });
}

function turnSwitch(button) {
  const isOn = button.getAttribute('aria-pressed') === 'true';
  if (!isOff(button)) say(`SWITCH ${button.value} ${isOn ? 'OFF' : 'ON'}`);
}

function listenForClicks() {
  const clicks = {
    'load-key': pressLoad, 'run-key': pressRun, 'stop-key': pressStop, 'step-key': pressStep,
    'pick-key': () => byId('file').click(), 'card-key': takeCard, 'deck-key': () => feedText(byId('deck').value),
    'feed-key': feedChosen, 'all-cards-key': takeAllCards, 'afresh-key': pressAfresh, 'guide-key': () => guide.press(),
    'view-key': pressView, 'hold-key': pressHold, 'turn-key': pressTurn, 'more-key': pressMore,
    'why-key': pressWhy, 'tour-back': tourBack, 'tour-pause': pauseTour, 'tour-next': tourNext,
    'watch-stop': watchStop, 'watch-hold': watchHold, 'sound-key': pressSound, 'card-print-key': printCard,
    'about-key': showAbout, 'about-close': () => byId('about').close(),
    'feed-again-key': () => feedDeck([...taken]),
    'save-cards-key': () => saveFile('taken.cards', `${taken.join('\n')}\n`),
    'release-key': releaseCard, 'program-key': takeProgram, 'tear-key': tearOff, 'drop-key': dropTorn,
    'save-key': () => saveFile('paper.txt', paperText([...torn, ...view.paper])), 'print-key': () => print(),
    'to-carriage': goToCarriage, 'large-key': enlargePaper,
    'help-key': () => byId('help').showModal(), 'help-close': () => byId('help').close(),
    'ask-yes': () => byId('ask').close('yes'), 'ask-no': () => byId('ask').close(),
  };
  for (const [id, action] of Object.entries(clicks)) {
    byId(id).addEventListener('click', event => { if (!isOff(byId(id))) action(event); });
  }
  byId('feed-stop').addEventListener('click', () => { if (feed) feed.stop = true; });
  byId('take-stop').addEventListener('click', () => { if (taking) taking.stop = true; });
}
function listen() {
  byId('file').addEventListener('change', () => {
    const [file] = byId('file').files;
    byId('file').value = '';
    if (file) feedFile(file);
  });
  byId('program').addEventListener('change', chooseProgram);
  byId('language').addEventListener('change', () => chooseLanguage(byId('language').value));
  byId('name-form').addEventListener('submit', punchName);
  byId('name').addEventListener('input', drawName);
  byId('keyboard').addEventListener('keydown', moveOnKeyboard);
  byId('start-form').addEventListener('submit', pressStart);
  byId('find').addEventListener('submit', findPlace);
  byId('line-form').addEventListener('submit', sendLine);
  byId('line').addEventListener('keydown', recallLine);
  byId('keyed').addEventListener('input', drawKeyed);
  byId('keyed').addEventListener('keydown', event => { if (event.key === 'Enter') releaseCard(); });
  byId('tabs').addEventListener('click', event => {
    if (event.target.value === '' || event.target.tagName !== 'BUTTON') return;
    byId('follow').checked = false;
    showWindow(Number(event.target.value));
  });
  byId('core-details').addEventListener('toggle', () => { if (view.picture) drawCoreText(); });
  byId('fold').addEventListener('scroll', notePaperMoved);
  for (const hand of ['wheel', 'touchmove', 'pointerdown', 'keydown']) {
    byId('fold').addEventListener(hand, () => { handOnPaper = performance.now(); }, {passive: true});
  }
  document.addEventListener('keydown', pressKey);
  document.addEventListener('visibilitychange', () => { if (!document.hidden) inTurn(look); });
  window.addEventListener('beforeprint', layOutForPrint);
  window.addEventListener('beforeunload', keepsPaper);
  for (const hand of ['keydown', 'pointerdown', 'click']) window.addEventListener(hand, touch, {capture: true});
  for (const hand of ['pointermove', 'wheel']) window.addEventListener(hand, noteHand, {passive: true});
  window.addEventListener('resize', resized);
}
function listenForPlaces(places) {
  places.addEventListener('keydown', moveInCore);
  places.addEventListener('focusin', event => {
    const at = core.cells.indexOf(event.target);
    if (at >= 0) choose(at);
  });
  places.addEventListener('click', event => { if (event.target.tagName === 'TD') event.target.focus(); });
}
/* A deck may be dropped anywhere on the page. */
function listenForFiles() {
  document.addEventListener('dragover', event => {
    event.preventDefault();
    if (!isStage) byId('feeder').classList.add('over');
  });
  for (const name of ['dragleave', 'drop']) {
    document.addEventListener(name, () => byId('feeder').classList.remove('over'));
  }
  document.addEventListener('drop', event => {
    event.preventDefault();
    const [file] = event.dataTransfer.files;
    if (file && !isStage) feedFile(file);
  });
}
function resized() {
  reserveGuide();
  if (columnsWanted() !== core.columns) buildCore();
  if (view.picture) draw();
}

/* Looks again and again: four times a second while the page is seen, once a second else; not while many lines are sent,
   which would wait for each look. */
async function poll() {
  for (;;) {
    if (!taking && !(feed && !feed.waits)) await (view.posting ? lookAside() : inTurn(look));
    if (view.picture) drawOthers();
    guide.look();
    lookForRenewal();
    lookForHold();
    lookForTurn();
    lookForVisitor();
    lookForTour();
    lookForWatch();
    drawStageHead();
    attractIfIdle();
    await delay(view.link !== 'fine' ? RETRY_MS : document.hidden ? HIDDEN_POLL_MS : POLL_MS);
  }
}
async function begin() {
  if (isHome) return showHome();
  tell(TEXTS.said.welcome);
  note('words', TEXTS.said.firstNote);
  while (!(await inTurn(look))) await delay(RETRY_MS);
  await lookForHold();
  tell(welcomeWords());
  guide.begin();
  poll();
}

TEXTS = LANGUAGES[languageWanted()];
const lamps = buildPanel();
const tapePointer = buildTape();
const cards = {read: cardIn(byId('card-read')), next: cardIn(byId('card-next')), punched: cardIn(byId('card-punched')),
  keyed: cardIn(byId('card-keyed')), toPrint: cardIn(byId('card-to-print')), stage: cardIn(byId('stage-card'))};
const stageSvg = byId('stage-card').querySelector('svg');
const stageCuts = drawn(stageSvg, 'path', {class: 'cuts'});
const stageLit = drawn(stageSvg, 'rect', {class: 'lit-part', y: 1, height: CARD.height - 2});
for (const card of [cards.read, cards.next, cards.punched, cards.stage]) card(null);
buildStage();
putTexts();
buildCore();
drawKeyed();
drawProgram();
guide.draw();
drawKeys();
listenForClicks();
listen();
listenForPlaces(byId('core'));
listenForFiles();
begin();
