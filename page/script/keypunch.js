/* The keypunch. */
let released = '';  // the card released last, which DUP copies

const keyed = () => byId('keyed').value.replace(/[a-z]/g, letter => letter.toUpperCase());
function drawKeyed() {
  const text = keyed(), wrong = [...text].findIndex(graphic => !GRAPHICS.includes(graphic));
  cards.keyed(text);
  byId('keyed-words').classList.toggle('wrong', wrong >= 0);
  setText(byId('keyed-words'), wrong >= 0
    ? filled(TEXTS.columnWrong, {column: wrong + 1, what: noCard(text[wrong])})
    : text.length >= CARD_COLUMNS ? TEXTS.cardFull : filled(TEXTS.columnTold, {n: text.length + 1}));
}
function keyIn(graphic) {
  const field = byId('keyed');
  if (field.value.length < CARD_COLUMNS) field.setRangeText(graphic, field.selectionStart, field.selectionEnd, 'end');
  drawKeyed();
}
const KEY_ACTIONS = {
  space: () => keyIn(' '),
  back: () => {
    const field = byId('keyed'), at = field.selectionStart;
    if (at > 0) field.setRangeText('', at - 1, at, 'end');
    drawKeyed();
  },
  dup: () => keyIn(released[byId('keyed').selectionStart] || ' '),
  clear: () => {
    byId('keyed').value = '';
    drawKeyed();
  },
};
async function releaseCard() {
  const deck = deckOf(`${keyed()}\n`);
  if (deck.fault) return drawKeyed();
  if (feed) return tellDeck(TEXTS.alreadyFeeding, true);
  released = keyed();
  KEY_ACTIONS.clear();
  sound('punch');
  await feedDeck(deck.cards);
}
function takeProgram() {
  byId('keyed').value = HELLO;
  drawKeyed();
  byId('keyed').focus();
  byId('keyed').setSelectionRange(NAME_COLUMN, HELLO.length);
}
function buildKeyboard() {
  byId('keyboard').replaceChildren();
  for (const row of KEYBOARD) {
    const line = added(byId('keyboard'), 'div');
    for (const graphic of row) {
      const onclick = () => keyIn(graphic);
      const key = added(line, 'button', {type: 'button', textContent: graphic, tabIndex: -1, onclick});
      key.setAttribute('aria-label', filled(TEXTS.keyTitle, {graphic}));
    }
  }
  const line = added(byId('keyboard'), 'div');
  for (const [name, action] of Object.entries(KEY_ACTIONS)) {
    const key = added(line, 'button', {type: 'button', className: 'wide', tabIndex: -1, onclick: action});
    key.textContent = TEXTS.keys[name];
    if (name === 'dup') key.title = TEXTS.dupTitle;
  }
  keysOf(byId('keyboard'))[0].tabIndex = 0;
}
/* The keyboard is one place for Tab; the arrow keys go from key to key. */
const keysOf = keyboard => [...keyboard.querySelectorAll('button')];
function moveOnKeyboard(event) {
  const keys = keysOf(byId('keyboard')), at = keys.indexOf(event.target);
  const by = {ArrowLeft: -1, ArrowRight: 1, ArrowUp: -10, ArrowDown: 10}[event.key];
  if (at < 0 || by === undefined || event.altKey) return;
  event.preventDefault();
  const to = Math.max(0, Math.min(keys.length - 1, at + by));
  keys[at].tabIndex = -1;
  keys[to].tabIndex = 0;
  keys[to].focus();
}
