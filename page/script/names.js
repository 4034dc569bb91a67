/* The visitor's name: how a card spells it, the keys to write it with, and the card that has it. */
const NAME_MOST = CARD_COLUMNS - NAME_COLUMN;
/* Letters that cards don't have, each with those that they get; first Latin ones, then Greek, Cyrillic, Hebrew and
   Arabic, as passports and libraries write them. Accents go before these are looked for. */
const SPELLINGS = new Map((
  '\u00e4AE \u00f6OE \u00fcUE \u00dfSS \u00e6AE \u0153OE \u00f8OE \u00e5AA \u0142L \u0111D \u00f0D \u00feTH '
  + '\u0127H \u0131I \u014bNG \u0167T \u0133IJ \u0138K \u017fS \u0259E \u0192F \u03b1A \u03b2V \u03b3G '
  + '\u03b4D \u03b5E \u03b6Z \u03b7I \u03b8TH \u03b9I \u03baK \u03bbL \u03bcM \u03bdN \u03beX \u03bfO \u03c0P '
  + '\u03c1R \u03c3S \u03c2S \u03c4T \u03c5Y \u03c6F \u03c7CH \u03c8PS \u03c9O \u0430A \u0431B \u0432V '
  + '\u0433G \u0434D \u0435E \u0436ZH \u0437Z \u0438I \u043aK \u043bL \u043cM \u043dN \u043eO \u043fP \u0440R '
  + '\u0441S \u0442T \u0443U \u0444F \u0445KH \u0446TS \u0447CH \u0448SH \u0449SHCH \u044a \u044bY \u044c '
  + '\u044dE \u044eYU \u044fYA \u0454YE \u0456I \u0457YI \u0491G \u0451YO \u0439Y \u045eU \u0452DJ \u0458J '
  + '\u0459LJ \u045aNJ \u045bC \u045fDZ \u0455DZ \u05d0A \u05d1B \u05d2G \u05d3D \u05d4H \u05d5V \u05d6Z '
  + '\u05d7H \u05d8T \u05d9Y \u05dbK \u05daK \u05dcL \u05deM \u05ddM \u05e0N \u05dfN \u05e1S \u05e2A \u05e4P '
  + '\u05e3F \u05e6TS \u05e5TS \u05e7K \u05e8R \u05e9SH \u05eaT \u0627A \u0628B \u062aT \u062bTH \u062cJ '
  + '\u062dH \u062eKH \u062fD \u0630DH \u0631R \u0632Z \u0633S \u0634SH \u0635S \u0636D \u0637T \u0638Z '
  + '\u0639A \u063aGH \u0641F \u0642Q \u0643K \u0644L \u0645M \u0646N \u0647H \u0648U \u064aI \u0629A \u0649A '
  + '\u0621 \u067eP \u0686CH \u06a9K \u06afG \u06ccI'
).split(' ').map(each => [each[0], each.slice(1)]));

/* A letter as cards have it: a capital without accents, or what the table says. */
function spelt(letter) {
  const small = letter.toLowerCase();
  if (SPELLINGS.has(small)) return SPELLINGS.get(small);
  const bare = small.normalize('NFD').replace(/[\u0300-\u036f\u064b-\u065f]/g, '');
  return SPELLINGS.get(bare) ?? bare.toUpperCase();
}
/* A text with letters that cards have, as far as there are any. */
function plain(text) {
  const quotes = {'\u2019': '\'', '\u2018': '\'', '\u2013': '-', '\u00a0': ' '};
  return [...text.normalize('NFC')].map(letter => quotes[letter] || spelt(letter)).join('');
}

/* The name as the card has it, and the first letter that no card has. */
function nameOnCard() {
  const name = plain(byId('name').value).trim().slice(0, NAME_MOST).trim();
  return {name, wrong: [...name].find(letter => !GRAPHICS.includes(letter))};
}
/* Below the field: how the card spells the name, or that it can't. */
function drawName() {
  const {name, wrong} = nameOnCard(), isSame = name === byId('name').value.trim().toUpperCase();
  byId('name-words').classList.toggle('wrong', wrong !== undefined);
  setText(byId('name-words'), wrong ? filled(TEXTS.nameWrong, {letter: wrong})
    : name === '' || isSame ? '' : filled(TEXTS.nameSpelt, {name}));
}
function writeLetter(letter) {
  const field = byId('name');
  if (field.value.length < NAME_MOST) field.setRangeText(letter, field.selectionStart, field.selectionEnd, 'end');
  drawName();
}
function wipeLetter() {
  const field = byId('name'), {selectionStart: at, selectionEnd: end} = field;
  if (end > at) field.setRangeText('', at, end, 'end');
  else if (at > 0) field.setRangeText('', at - 1, at, 'end');
  drawName();
}
/* Keys for a screen without a keyboard: the letters in the order of the language, the digits, a blank and a wipe. */
function buildNameKeys() {
  const target = byId('name-keys');
  target.replaceChildren();
  const key = (textContent, onclick, label) => {
    const button = added(target, 'button', {type: 'button', textContent, onclick});
    button.setAttribute('aria-label', label || filled(TEXTS.keyTitle, {graphic: textContent}));
    return button;
  };
  for (const letter of `${TEXTS.alphabet}0123456789-`) key(letter, () => writeLetter(letter));
  key(TEXTS.keys.space, () => writeLetter(' '), TEXTS.keys.space).className = 'wide';
  key('\u232b', wipeLetter, TEXTS.wipe).className = 'wide';
}

let nameCard = HELLO;   // the card with the name of the last visitor who punched one

/* Punches the hello card with a visitor's name in place of its greeting, and feeds it. */
async function punchName(event) {
  event.preventDefault();
  return once('name-key', feedName);
}
async function feedName() {
  const {name, wrong} = nameOnCard();
  drawName();
  if (name === '') setText(byId('name-words'), TEXTS.nameEmpty);
  if (name === '' || wrong || !mayCommand() || feed || !(await takeTurn())) return;
  byId('name').value = name;
  drawName();
  nameCard = released = HELLO.slice(0, NAME_COLUMN) + name;
  Object.assign(guide, {card: nameCard, from: torn.length + view.paper.length});
  sound('punch');
  await feedDeck([nameCard], filled(TEXTS.fedName, {name}));
}
/* Prints the card with the name in its real size. */
function printCard() {
  cards.toPrint(nameCard);
  document.body.classList.add('prints-card');
  print();
  document.body.classList.remove('prints-card');
}
