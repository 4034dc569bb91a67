/* The programs that a visitor can choose. Those with a source were assembled from it, as decks that load themselves. */
const HELLO = ',008015,022029,036037,038041M0802402.   HELLO FROM AN IBM 1401';
const NAME_COLUMN = 40;
const LISTING = [
  ',008015,022029,036040,047054,061068,072/047499/054399/061299/0681991040',
  '                                       )008015)022029)036036N0000001040',
  ',001F1FS/332/M4792192                  L021420,404406,408412,4134201040',
  '/332/1M080280M080180FT6                L023443,425426,427434,4414431040',
  'B460AB404@B421  .LISTING OF THE DECK   L036479,449454,460461,4614611040',
  '                                       /400080',
  '0001 CARD READ PUNCH     1402', '0002 PROCESSING UNIT     1401', '0003 PRINTER             1403',
  '0004 MAGNETIC TAPE UNIT   729', '0005 DISK STORAGE        1405', '0006 PAPER TAPE READER   1011',
  '0007 CONSOLE INQUIRY     1407', '0008 STORAGE UNIT        1406', '0009 MAGNETIC READER     1412',
  '0010 OPTICAL READER      1418', '0011 CARD SORTER          083', '0012 CARD COLLATOR        088',
  '0013 KEY PUNCH            026', '0014 VERIFIER             056', '0015 INTERPRETER          557',
  '0016 REPRODUCING PUNCH    519', '0017 ACCOUNTING MACHINE   407', '0018 CALCULATING PUNCH    604',
  '0019 STATISTICAL MACHINE  101', '0020 CARD PUNCH           024', '0021 THE LAST CARD',
];
const HELLO_SOURCE = `,008015        SW   8,15        word marks for the next two
,022029        SW   22,29
,036037        SW   36,37
,038041        SW   38,41       and where the text begins
M080240        MLC  80,240      041 to 080 into the print area
2              W                print the line
.              H                halt`;

/* A card with a number from 1 to 99 that nobody has seen, for the game. */
const secretCard = () => [pad(1 + Math.floor(Math.random() * 99), 2)];
/* Three blanks and more are a ~ and a letter in the document, D for three. */
const widened = text => text.replace(/~([D-Z])/g, (_, letter) => ' '.repeat(letter.charCodeAt() - 65));
function assembled(name) {
  const {source, cards} = PROGRAM_FILES[name];
  return {source: widened(source), cards: cards.map(widened)};
}
/* Where the lines of a listing put characters, in its order. */
const placesOf = listing => [...listing.matchAll(/^0*(\d+) \S/gm)].map(([, place]) => Number(place));
const PROGRAMS = [
  {name: 'hello', cards: [HELLO], source: HELLO_SOURCE, alone: true},
  {name: 'banner', ...assembled('banner')},
  {name: 'calculation', ...assembled('calculation'), alone: true},
  {name: 'payroll', ...assembled('payroll'), alone: true},
  {name: 'game', ...assembled('game'), extra: secretCard},
  {name: 'listing', cards: LISTING, source: LISTING.join('\n'), switches: 'A', alone: true},
];
