/* The machine, as far as the page knows it. */
const PLACES_SHOWN = 600;
const FORM_LINES = 66;
const FORMS = 10000;
const CARD_COLUMNS = 80;
const MOST_CARDS = 500;
const DECK_CARDS = 10000;
const JOURNAL_ENTRIES = 100000;
const JOURNAL_NEARLY = 95000;
const CHANNELS = [[1, 4], [9, 60], [12, 63]];
const SWITCHES = 'ABCDEFG';
/* The graphics by their code; see docs/MACHINE.md, Characters. */
const GRAPHICS = ' 1234567890#@:>(^/STUVWXYZ\',%=\\+-JKLMNOPQR!$*];_&ABCDEFGHI?.)[<"';
const KEYBOARD = ['1234567890-&', 'QWERTYUIOP', 'ASDFGHJKL', 'ZXCVBNM,./', '#@$*%+=:;\'"', '()<>[]^_?!\\'];
/* What RUN asks for ten times a second, in the order of TEXTS.paces; the last pace is the machine's own. */
const OWN_PACE = 'own';
const OWN_STEPS = 12;
const PACES = [1, 10, 100, 400, 100000, OWN_PACE];
const FASTEST = 4;
const SLICE_MS = 100;
/* How many cards or lines go into one request: it has at most 16,384 bytes. */
const CHUNK = 100;
/* After a minute in which nobody has pressed anything a part of a run grows from a tenth of a second to six seconds. */
const GROW_AFTER_MS = 60000;
const GROW_MS = 3000;
const MOST_GROWN = 60;
const MOST_STEPS = 1000000;
const POLL_MS = 250;
const WAIT_MS = 50;
const HIDDEN_POLL_MS = 1000;
const RETRY_MS = 1000;
/* The punched rows of a graphic, from the top of the card down; see docs/MACHINE.md, Card code. */
function rowsOf(graphic) {
  const code = GRAPHICS.indexOf(graphic), zone = code >> 4, low = code & 15;
  const zoneRows = [[], [0], [11], [12]][zone];
  if (code === 16) return [2, 8];
  if (low === 10) return zone === 1 ? [0, 2, 8] : zone === 0 ? [0] : [...zoneRows, 0];
  if (low === 0) return zoneRows;
  return low < 10 ? [...zoneRows, low] : [...zoneRows, low - 8, 8];
}

function bitsOf(graphic) {
  const code = GRAPHICS.indexOf(graphic);
  return ['B', 'A', '8', '4', '2', '1'].filter((_, at) => code & (32 >> at)).join(' ');
}

/* How many places the instruction here has, 0 where none begins; see docs/MACHINE.md, Reading an instruction. */
function instructionLength(cells, at) {
  if (!cells[at] || !cells[at].mark) return 0;
  let length = 1;
  while (length < 8 && cells[at + length] && !cells[at + length].mark) length++;
  const operation = cells[at].graphic;
  if (operation === ',' || operation === '/') return Math.min(length, 7);
  if (operation === 'B' && length > 4 && cells[at + 4].graphic === ' ') return 4;
  return length;
}
