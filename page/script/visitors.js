/* Between visitors: after a minute without a hand a stage asks whether somebody is there; then everything is as new.
   Until the next hand it says that it may be touched, in each language in turn, and decks run by themselves. */
const VISIT = {idleMs: 60000, leaveMs: 10000, wordsMs: 4000, isFresh: false, at: 0};

function lookForVisitor() {
  if (!isExhibit) return;
  const idle = performance.now() - attract.touched, left = VISIT.idleMs + VISIT.leaveMs - idle;
  byId('leaving').hidden = VISIT.isFresh || idle < VISIT.idleMs;
  setText(byId('leaving-words'), counted(TEXTS.stage.leaving, Math.max(0, Math.ceil(left / 1000))));
  if (!VISIT.isFresh && left <= 0) welcomeNext();
  drawTouchMe();
}
/* The words that ask for a touch, in each language in turn. */
function drawTouchMe() {
  byId('touch-me').hidden = !VISIT.isFresh;
  const all = Object.values(LANGUAGES), texts = all[Math.floor(performance.now() / VISIT.wordsMs) % all.length];
  setText(byId('touch-words'), texts.stage.touch);
  byId('touch-words').lang = texts.language;
}
/* A hand has come to a stage that waits for one. */
function greet() {
  VISIT.isFresh = false;
  byId('touch-me').hidden = true;
}
/* Everything is as new: the page, the hold, and the machine if nobody else is at it. */
async function welcomeNext() {
  VISIT.isFresh = true;
  stopRun();
  turn.wants = false;
  if (turn.has || isHolder()) await giveTurn();
  asNew();
  guide.state = 'attract';
  guide.draw();
  const isOurs = mayCommand() && !othersAtWork() && !hold.isPrepared;
  if (isOurs && view.picture && !isClear(view.picture)) await startAfresh();
  byId('log').replaceChildren();
}
/* The page as it is when it is opened. */
function asNew() {
  for (const dialog of document.querySelectorAll('dialog[open]')) dialog.close();
  for (const field of document.querySelectorAll('input:not([type=file]), textarea')) {
    field.value = field.defaultValue;
    field.checked = field.defaultChecked;
  }
  for (const part of document.querySelectorAll('details')) part.open = part.id === 'source-details';
  if (byId('fold').classList.contains('large')) enlargePaper();
  if (byId('view-key').getAttribute('aria-pressed') === 'true') pressView();
  if (speaker) pressSound();
  if (document.body.classList.contains('more')) pressMore();
  byId('pace').selectedIndex = isExhibit ? 0 : FASTEST;
  byId('log').replaceChildren();
  Object.assign(typed, {lines: [], at: 0});
  released = '';
  nameCard = HELLO;
  Object.assign(guide, {card: null, hasFed: false});
  torn.length = taken.length = 0;
  followsPaper = true;
  view.ended = null;
  forgetWords();
  endTour();
  chooseLanguage(languageWanted());
  drawKeyed();
  drawName();
  document.activeElement.blur();
  scrollTo(0, 0);
}
