/* Looking: what the page has seen, and the next look. */
const view = {
  core: 0,          // the first place that is asked for
  picture: null,    // the picture that is drawn
  paper: [],        // the printed lines that nobody has taken, oldest first
  posting: false,   // whether a line is being sent
  made: null,       // how many commands this seat has made, null where only a picture can tell
  link: 'lost',     // whether the server answers, and else why not
  status: 0,
  breaks: 0,        // how often the server was gone, or another room was there
  unkept: false, full: false,
  since: null,      // the counts of the first picture
  // how many commands others gave since then, when the last one was seen, since when they have come
  // without a pause, how long the pause before the last one was, and the last command of all, with its seat
  others: {count: 0, at: -Infinity, began: -Infinity, gap: 0, last: null},
  changed: 0,       // when the count of commands was last seen to change
  ended: null,      // the I register after a halt, until this page gives another command
  stop: null,       // the last stop that this page was answered
};
const OTHERS_MS = 8000;
/* A request that isn't answered within this time has failed. */
const LIMIT = {requestMs: 10000};
const timeLimit = () => AbortSignal.timeout(LIMIT.requestMs);
/* A proxy that doesn't reach the room answers so. */
const PROXY_STATUS = [502, 504];
const PAUSE_MS = 800;
const LONGEST_PART_MS = 7000;
const torn = [];    // the printed lines that this page has taken
const taken = [];   // the punched cards that this page has taken

class Refused extends Error {
  constructor(status) {
    super(`status ${status}`);
    this.status = status;
  }
}

/* The status of a response; "busy" where the server takes the request later, since too many wait. */
function statusOf(response) {
  return response.status === 503 && response.headers.has('Retry-After') ? 'busy' : response.status;
}

/* One exchange with the server after the other, which puts counts and pictures in order. */
let queue = Promise.resolve();
function inTurn(task) {
  const result = queue.then(task);
  queue = result.catch(() => {});
  return result;
}

/* A picture, whose paper begins with the last line that the page has; null where the machine is still as it was. It has
   the name of its room, and always comes if the page knows another room. */
async function askForPicture(kept, after) {
  const room = view.picture ? view.picture.room : '';
  const part = `room=${room}&core=${pad(view.core, 4)}&paper=${Math.max(0, kept.length - 1)}`;
  const query = after === null ? part : `${part}&after=${after}`;
  const response = await fetch(`/picture?${query}`, {cache: 'no-store', signal: timeLimit()});
  const text = await response.text();
  if (response.status === 204) return null;
  if (response.status !== 200) throw new Refused(statusOf(response));
  return pictureOf(text);
}

/* The lines of a picture after those that the page has; null if they don't go on, since somebody has taken lines. */
function joined(kept, picture) {
  if (picture.first === 0) return picture.lines;
  const goesOn = kept.length === picture.first + 1 && picture.lines.length > 0
    && sameLine(kept[picture.first], picture.lines[0]);
  return goesOn ? [...kept.slice(0, picture.first), ...picture.lines] : null;
}

/* Takes a picture in, and asks for further ones until all printed lines are there. */
async function takeIn(picture) {
  const isNewRoom = view.picture !== null && picture.room !== view.picture.room;
  let lines = joined(isNewRoom ? [] : view.paper, picture);
  for (let turns = 0; turns < 2 * MOST_CARDS / FORM_LINES; turns++) {
    if (lines !== null && lines.length === picture.registers.PAPER) break;
    picture = await askForPicture(lines || [], null);
    lines = joined(lines || [], picture);
  }
  if (isNewRoom || view.since === null) view.since = {after: picture.after, made: picture.made};
  const shown = view.picture;
  if (isNewRoom) enterRoom();
  noteOthers(picture);
  view.paper = lines || [];
  view.made = picture.made;
  view.picture = picture;
  draw();
  noteNewState(shown, isNewRoom);
}
/* The machine may be another one, or be cleared by another page, since this picture was shown. In a room that was
   opened again with its journal it goes on with as many commands as before, or more. */
function noteNewState(shown, isNewRoom) {
  if (!shown) return;
  const {newRoom, resumed, clear} = TEXTS.said, words = view.picture.after < shown.after ? newRoom : resumed;
  if (isClearing) return;
  if (isNewRoom) note('words', words);
  if (isNewRoom) beginAnew(words);
  else if (isClear(view.picture) && !isClear(shown)) beginAnew(clear);
}
/* The server has another machine, in a room of another name: what was meant for the old one isn't sent. */
function enterRoom() {
  Object.assign(view, {full: false, unkept: false, ended: null, breaks: view.breaks + 1});
  view.others.count = 0;
  forgetRenewal();
  forgetHold();
}
function noteOthers({after, made}) {
  const count = after - view.since.after - (made - view.since.made), now = performance.now();
  if (count > view.others.count) {
    const gap = now - view.others.at;
    if (gap > PAUSE_MS) view.others.began = now;
    Object.assign(view.others, {at: now, gap: gap > LONGEST_PART_MS || !isPart(lastOfOthers()) ? 0 : gap});
    leaveClear('');
    yieldToOthers();
  }
  view.others.count = count;
  if (!view.picture || after !== view.picture.after) view.changed = now;
}
const othersAtWork = () => performance.now() - view.others.at < OTHERS_MS;
/* The last command, if another seat gave it. */
function lastOfOthers() {
  const {last} = view.others;
  return last && view.picture && last.seat !== view.picture.seat ? last : null;
}
const isPart = last => last !== null && /^RUN (?!1$)/.test(last.line);
/* Another seat runs a program: its commands have come for some time without a pause, or its last one is a part of a run
   and the next part may be under way. */
function othersRun() {
  const {at, began, gap} = view.others, since = performance.now() - at;
  if (isPart(lastOfOthers())) return since < PAUSE_MS + 2 * gap;
  return since < PAUSE_MS && at - began > 2 * PAUSE_MS;
}

/* Looks once, and draws what is new. False where there was nothing to see; the banner then says why. */
async function look() {
  const shown = view.picture;
  const isCurrent = shown && view.link === 'fine' && view.made !== null && shown.from === view.core;
  try {
    const picture = await askForPicture(view.paper, isCurrent ? shown.after : null);
    if (picture !== null) await takeIn(picture);
    setLink('fine');
    return true;
  } catch (why) {
    blame(why);
    return false;
  }
}

/* A look while a line is being sent, which may hang: what it shows is drawn, and the line's own answer says how many
   commands this seat has made. */
async function lookAside() {
  try {
    const picture = await askForPicture(view.paper, null), lines = joined(view.paper, picture);
    const isLater = picture.room === view.picture.room && picture.after >= view.picture.after;
    if (!isLater || lines === null || lines.length !== picture.registers.PAPER) return;
    noteOthers(picture);
    Object.assign(view, {paper: lines, picture});
    draw();
  } catch (why) {
    blame(why);
  }
}

const LINK_OF_STATUS = {403: 'foreign', 410: 'closed', 429: 'busy', 502: 'proxyAlone', 503: 'taken503',
  504: 'proxyAlone', 507: 'noMemory', busy: 'busy'};
function blame(why) {
  if (why instanceof Unreadable) setLink('unread');
  else if (!(why instanceof Refused)) setLink('lost');
  else {
    if (why.status === 404) view.core = 0;
    view.status = why.status;
    setLink(LINK_OF_STATUS[why.status] || 'refusedStatus');
  }
}
function setLink(link) {
  if (link === 'lost' && view.link === 'fine') view.breaks++;
  view.link = link;
  drawBanner();
  drawKeys();
}
