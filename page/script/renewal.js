/* Rooms in succession: the server may put this machine away, and have another one follow it. */
const RENEWAL_MS = 5000;
const renewal = {mode: '', seconds: null, asked: -Infinity};

/* Asks when another machine follows, or for one now. */
async function askRenewal(method) {
  const headers = method === 'POST' ? {'X-1401-Room': view.picture.room} : {};
  const response = await fetch('/renewal', {method, headers, cache: 'no-store', signal: timeLimit()});
  const found = /^RENEWAL (?:(OFF|ON)|IN (\d+))\n$/.exec(await response.text());
  if (response.status !== 200 || !found) return;
  const {mode} = renewal;
  renewal.mode = found[1] || 'ON';
  renewal.seconds = found[2] === undefined ? null : Number(found[2]);
  drawNotice();
  if (mode !== renewal.mode) guide.draw();
}
/* Once, and then again and again if rooms follow each other. */
async function lookForRenewal() {
  const now = performance.now();
  if (view.link !== 'fine' || renewal.mode === 'OFF' || now - renewal.asked < RENEWAL_MS) return;
  renewal.asked = now;
  try {
    await askRenewal('GET');
  } catch {
    renewal.mode = '';
  }
}
/* Another machine is asked for, and waited for; its page is this one. Whether it has come. */
async function renewRoom() {
  const {room} = view.picture;
  tell(TEXTS.said.renewing);
  try {
    await askRenewal('POST');
  } catch {
    setLink('lost');
  }
  for (let looks = 0; looks < 2 * RENEWAL_MS / POLL_MS && view.picture.room === room; looks++) {
    await delay(POLL_MS);
    await inTurn(look);
  }
  return view.picture.room !== room;
}
/* A new room has no notice yet. */
function forgetRenewal() {
  Object.assign(renewal, {seconds: null, asked: -Infinity});
  drawNotice();
}
