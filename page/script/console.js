/* The console line. */
const typed = {lines: [], at: 0};

async function sendLine(event) {
  event.preventDefault();
  if (!mayCommand()) return;
  const line = byId('line').value.replace(/[a-z]/g, letter => letter.toUpperCase());
  if (line.trim() === '') return;
  byId('line').value = '';
  typed.lines.push(line);
  typed.at = typed.lines.length;
  if (!/^[ -~]*$/.test(line)) {
    note('you', line);
    return note('bad', TEXTS.notText);
  }
  if (line.trim() === 'HELP') {
    byId('lines-details').open = true;
    byId('lines-details').scrollIntoView({block: 'nearest'});
    return;
  }
  view.ended = null;
  const outcome = await say(line);
  const stop = stopOf(outcome.reply);
  if (stop) tellOutcome(outcome, counted(TEXTS.said.limit, stop.steps));
  if (stop) noteStop(stop);
  if (outcome.reply !== 'OK' || !/^ *DEPOSIT /.test(line)) return;
  noteDeposit(line);
  happened('deposit');
}
function recallLine(event) {
  const by = {ArrowUp: -1, ArrowDown: 1}[event.key];
  const to = typed.at + by;
  if (by === undefined || event.altKey || to < 0 || to > typed.lines.length) return;
  event.preventDefault();
  typed.at = to;
  byId('line').value = typed.lines[to] || '';
}
