/* Decks: what is read of a text, and how cards are fed. */
let feed = null;    // the deck that is being fed
let fedAt = null;   // how many cards the hopper had when words were shown that are over once one of them is read

/* The cards of a text, or the first fault of it. */
function deckOf(text) {
  const lines = text.replace(/^\ufeff/, '').split('\n');
  if (lines[lines.length - 1] === '') lines.pop();
  const cards = [];
  for (const [at, line] of lines.entries()) {
    const card = line.replace(/\r$/, '').replace(/[a-z]/g, letter => letter.toUpperCase());
    for (let column = 0; column < card.length; column++) {
      const what = column >= CARD_COLUMNS ? TEXTS.tooLong : GRAPHICS.includes(card[column]) ? '' : noCard(card[column]);
      if (what) return {fault: filled(TEXTS.deckWrong, {line: at + 1, column: column + 1, what})};
    }
    cards.push(card.trimEnd());
  }
  return cards.length ? {cards} : {fault: TEXTS.deckEmpty};
}
function noCard(letter) {
  const known = plain(letter);
  const isKnown = known !== letter && known !== '' && [...known].every(each => GRAPHICS.includes(each));
  return isKnown ? filled(TEXTS.noAccent, {letter, spelt: known}) : TEXTS.noGraphic;
}

function tellDeck(text, isWrong = false) {
  byId('deck-words').classList.toggle('wrong', isWrong);
  setText(byId('deck-words'), text);
}
async function feedText(text) {
  const deck = deckOf(text);
  if (deck.fault) return tellDeck(deck.fault, true);
  return feedDeck(deck.cards);
}
/* The text of a file: in UTF-8 if its bytes are, or else a letter for each byte. */
function textOf(bytes) {
  try {
    return new TextDecoder('utf-8', {fatal: true}).decode(bytes);
  } catch {
    return new TextDecoder('latin1').decode(bytes);
  }
}
async function feedFile(file) {
  if (file.size > DECK_CARDS * (CARD_COLUMNS + 2)) return tellDeck(TEXTS.deckLarge, true);
  try {
    await feedText(textOf(await file.arrayBuffer()));
  } catch {
    tellDeck(TEXTS.deckUnread, true);
  }
}

/* Feeds cards, many with a request; while the hopper is full it waits. */
async function feedDeck(cards, words) {
  if (feed) return tellDeck(TEXTS.alreadyFeeding, true);
  if (!mayCommand()) return tellDeck(TEXTS.outcomes.off, true);
  feed = {fed: 0, all: cards.length, stop: false, waits: false, drawn: 0};
  note('you', feedLine(cards[0]));
  const why = await feedAll(cards);
  const {fed, all} = feed;
  endFeed();
  note('', counted(TEXTS.fedInLog, fed));
  await inTurn(look);
  tellDeck(why ? filled(TEXTS.fedPart, {n: fed, all, why}) : words || counted(TEXTS.fedAll, all), why !== '');
  if (why) return;
  fedAt = words ? view.picture.registers.HOPPER : null;
  leaveClear(welcomeWords());
  happened('fed');
}
async function feedAll(cards) {
  const {breaks} = view;
  let why = '';
  while (!why && feed.fed < feed.all) {
    drawFeed();
    if (feed.stop) why = TEXTS.stoppedByYou;
    else if (feed.waits) await waitForRoom();
    else why = await feedSome(cards.slice(feed.fed, feed.fed + CHUNK), breaks);
  }
  return why;
}
const feedLine = card => card === '' ? 'FEED' : `FEED ${card}`;

/* Feeds some cards; says why that wasn't possible, if it should not be tried again. */
async function feedSome(cards, breaks) {
  const {failed, replies} = await inTurn(() => sendAll(cards.map(feedLine), breaks));
  feed.fed += replies.filter(each => each === 'OK').length;
  if (failed) return failed;
  const reply = replies[replies.length - 1];
  feed.waits = reply === 'REFUSED 2 HOPPER';
  return reply === 'OK' || feed.waits ? '' : wordsOf(reply) || reply;
}
async function waitForRoom() {
  await delay(WAIT_MS);
  await inTurn(look);
  feed.waits = view.picture.registers.HOPPER >= MOST_CARDS;
}
function endFeed() {
  const hadFocus = document.activeElement === byId('feed-stop');
  feed = null;
  byId('feeding').hidden = true;
  if (hadFocus) byId('feed-key').focus();
}

/* Shows how far it is, ten times a second at most. */
function drawFeed() {
  const now = performance.now();
  if (feed.fed > 0 && now - feed.drawn < SLICE_MS) return;
  feed.drawn = now;
  byId('feeding').hidden = feed.all === 1;
  byId('feed-bar').value = feed.fed / feed.all;
  setText(byId('feed-count'), filled(feed.waits ? TEXTS.feedWaits : TEXTS.feedingCount, {n: feed.fed, all: feed.all}));
}

/* The program that is chosen. */
function chosenProgram() {
  return PROGRAMS.find(program => program.name === byId('program').value) || PROGRAMS[0];
}
const feedChosen = () => once('feed-key', feedProgram);
async function feedProgram() {
  if (feed || !mayCommand() || !(await takeTurn())) return;
  const program = chosenProgram(), words = TEXTS.programs[program.name];
  const cards = program.extra ? [...program.cards, ...program.extra()] : program.cards;
  await feedDeck(cards, words.fed);
}
function chooseProgram() {
  drawProgram();
  forgetLesson();
  guide.draw();
}
function drawProgram() {
  const program = chosenProgram(), words = TEXTS.programs[program.name];
  setText(byId('source-title'), filled(TEXTS.sourceTitle, {name: words.name}));
  setText(byId('source-about'), words.about);
  setText(byId('source'), program.source);
  byId('source').classList.toggle('whole', program.loads !== undefined);
}
