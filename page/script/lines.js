/* Lines: each is sent once. */
const COMMANDS = /^ *(DEPOSIT|START|SWITCH|FEED|LOAD|RUN|LINE|CARD)( |$)/;
const RECORDED = /^(OK|STOP |LINE |CARD |REFUSED )/;

/* How many commands the seat has made after this reply; null for a line whose reply may be any text. */
function madeAfter(line, reply, count) {
  if (!COMMANDS.test(line)) return null;
  return RECORDED.test(reply) ? count + 1 : count;
}

/* Posts a body, and says what became of it: the text of the answer, or in words how it failed. What was meant for the
   machine as it was before the connection broke isn't sent. */
async function post(path, body, breaks) {
  if (breaks !== view.breaks) return {failed: TEXTS.outcomes.broken};
  if (view.made === null && !(await look())) return {failed: bannerText()};
  const count = view.made, {room} = view.picture;
  view.made = null;
  view.posting = true;
  let response, text;
  try {
    const headers = {'Content-Type': 'text/plain', 'X-1401-Line': String(count), 'X-1401-Room': room};
    response = await fetch(path, {method: 'POST', body, cache: 'no-store', headers, signal: timeLimit()});
    text = await response.text();
  } catch {
    return lostLine(count, room);
  } finally {
    view.posting = false;
  }
  if (PROXY_STATUS.includes(response.status)) return lostLine(count, room);
  if (response.status === 200) return {text, count};
  // What the answer says of the hold is taken in first: the words for the refusal name its holder.
  const done = response.status === 423 ? repliesBefore(text) : '';
  return {...refusedLine(statusOf(response)), done};
}
/* The replies to the lines that were carried out before another page held the machine; the hold follows them. */
function repliesBefore(text) {
  const at = text.search(/^HOLD /m);
  if (at >= 0) takeHold(text.slice(at));
  return at >= 0 ? text.slice(0, at) : text;
}
/* Sends a line: its reply, or how it failed. */
async function send(line, breaks = view.breaks) {
  const {failed, text, count} = await post('/line', line, breaks);
  if (failed) return {failed};
  const reply = text.replace(/\n$/, '');
  view.made = madeAfter(line, reply, count);
  noteFault(reply);
  return {reply};
}
/* Sends commands in one request. They are carried out one after the other, up to the first whose reply isn't OK, a
   printed line or a card; there are as many replies. */
async function sendAll(lines, breaks) {
  const {failed, text, count, done = ''} = await post('/lines', lines.join('\n'), breaks);
  const replies = (failed ? done : text).split('\n').slice(0, -1);
  if (failed) return {failed, replies};
  view.made = count + replies.filter(reply => RECORDED.test(reply)).length;
  noteFault(replies[replies.length - 1]);
  return {replies};
}
function noteFault(reply) {
  if (reply === 'FAULT 2 JOURNAL FULL') view.full = true;
  if (reply === 'FAULT 4 UNKEPT') view.unkept = true;
  drawBanner();
}

function refusedLine(status) {
  if (status === 500) view.unkept = true;
  if (LINK_OF_STATUS[status] && status !== 507) setLink(LINK_OF_STATUS[status]);
  drawBanner();
  const {seat, left} = hold;
  return {failed: filled(TEXTS.outcomes[status] || TEXTS.outcomes.other, {status, seat, left})};
}

/* The connection failed, so the line may have been carried out or not: the count of the next picture says which. */
async function lostLine(count, room) {
  note('bad', TEXTS.lostAsking);
  setLink('lost');
  while (!(await look())) await delay(RETRY_MS);
  const since = view.made - count;
  if (view.picture.room !== room) return {failed: TEXTS.lostNewRoom};
  if (since === 0) return {failed: TEXTS.lostNotDone};
  return {failed: since === 1 ? TEXTS.lostDone : filled(TEXTS.lostUnclear, {n: since})};
}

/* Sends the line that somebody has typed, or that a key gives, and shows it with its reply. */
async function say(line) {
  note('you', line);
  const {breaks} = view;
  const outcome = view.link === 'fine' ? await inTurn(() => send(line, breaks)) : {failed: TEXTS.outcomes.off};
  noteOutcome(outcome);
  await inTurn(look);
  return outcome;
}
