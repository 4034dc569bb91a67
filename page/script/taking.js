/* What is taken from the machine: printed lines and punched cards. */
let taking = null;      // what is being taken, one after the other

/* Takes up to this many with a line, many with a request; each reply that begins so is handed on. How many were
   taken. */
async function takeMany(line, begins, all, each, drawn) {
  const {breaks} = view;
  taking = {stop: false};
  drawKeys();
  byId('take-stop').hidden = all <= CHUNK;
  let n = 0, outcome = {replies: []}, isRefused = false;
  while (n < all && !isRefused && !taking.stop) {
    outcome = await inTurn(() => sendAll(Array(Math.min(CHUNK, all - n)).fill(line), breaks));
    const found = outcome.replies.filter(reply => reply.startsWith(begins));
    found.forEach(each);
    n += found.length;
    isRefused = found.length === 0 || found.length < outcome.replies.length;
    drawn(n);
  }
  taking = null;
  endTaking();
  if (isRefused) noteOutcome(outcome.failed ? outcome : {reply: outcome.replies[outcome.replies.length - 1]});
  return n;
}
function endTaking() {
  if (document.activeElement === byId('take-stop')) byId('tear-key').focus();
  byId('take-stop').hidden = true;
  drawKeys();
}

async function takeCard() {
  if (!mayCommand() || taking) return;
  const outcome = await say('CARD');
  const text = outcome.reply && outcome.reply.startsWith('CARD ') ? outcome.reply.slice(5) : null;
  if (text === null) tellTaken(outcome.failed || wordsOf(outcome.reply), true);
  else tellTaken(text === '' ? TEXTS.takenBlank : filled(TEXTS.taken, {text}));
}
async function takeAllCards() {
  if (!mayCommand() || taking) return;
  const all = view.picture.registers.STACKER;
  note('you', 'CARD');
  const n = await takeMany('CARD', 'CARD ', all, reply => taken.push(reply.slice(5)),
    n => tellTaken(filled(TEXTS.takingCards, {n, all})));
  note('', counted(TEXTS.cardsInLog, n));
  tellTaken(counted(TEXTS.takenAll, n));
  drawTaken();
  await inTurn(look);
}
function tellTaken(text, isWrong = false) {
  byId('taken-words').classList.toggle('wrong', isWrong);
  setText(byId('taken-words'), text);
}

async function tearOff() {
  if (!mayCommand() || taking) return;
  const all = view.paper.length;
  if (all === 0) return tell(TEXTS.noPaper);
  if (!(await confirmed(counted(TEXTS.tearAsk, all)))) return;
  note('you', 'LINE');
  const n = await takeLines(all);
  note('', counted(TEXTS.tornInLog, n));
  drawTaken();
  byId('tear-key').focus();
  await inTurn(look);
}
function takeLines(all) {
  return takeMany('LINE', 'LINE ', all, reply => torn.push(printedLineOf(reply)),
    n => setText(byId('torn-words'), filled(TEXTS.tearing, {n, all})));
}
async function dropTorn() {
  if (!(await confirmed(TEXTS.dropAsk))) return;
  torn.length = 0;
  drawTaken();
  byId('tear-key').focus();
}

function drawTaken() {
  byId('save-cards-key').hidden = byId('feed-again-key').hidden = taken.length === 0;
  byId('drop-key').hidden = torn.length === 0;
  setText(byId('torn-words'), torn.length ? counted(TEXTS.torn, torn.length) : '');
}
/* Whether something would be lost with the page. */
function keepsPaper(event) {
  if (torn.length || taken.length) event.preventDefault();
}

/* The paper as `ibm1401 run` writes it: each line at its place on the form, and a form feed for each new form. The
   printer's first form begins the text; paper that was torn off further down begins with the form feeds before it. */
function paperText(lines) {
  let text = '', form = 1, line = 1;
  for (const printed of lines) {
    if (printed.form !== form) {
      text += '\f'.repeat((printed.form - form + FORMS) % FORMS);
      form = printed.form;
      line = 1;
    }
    text += '\n'.repeat(Math.max(0, printed.line - line)) + printed.text + '\n';
    line = printed.line + 1;
  }
  return text;
}

/* A question in a dialog: whether it was answered with yes. */
function confirmed(question) {
  const dialog = byId('ask');
  setText(byId('ask-text'), question);
  dialog.returnValue = '';
  dialog.showModal();
  return new Promise(done => {
    dialog.addEventListener('close', () => done(dialog.returnValue === 'yes'), {once: true});
  });
}
