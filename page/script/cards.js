/* Cards. */
const CARD = {width: 516, height: 176, left: 20, column: 6, top: 17, row: 12.6};
const rowOrder = [12, 11, 0, 1, 2, 3, 4, 5, 6, 7, 8, 9];
const columnsAt = Array.from({length: CARD_COLUMNS}, (_, at) => CARD.left + at * CARD.column).join(' ');

/* A card in a figure, with a call that shows a text on it. */
function cardIn(figure) {
  const {width, height} = CARD;
  const picture = drawn(figure, 'svg', {viewBox: `0 0 ${width} ${height}`, role: 'img'});
  const edge = `M17 .5H${width - 6}q5.5 0 5.5 5.5V${height - 6}q0 5.5-5.5 5.5H6q-5.5 0-5.5-5.5V17z`;
  drawn(picture, 'path', {class: 'edge', d: edge});
  rowOrder.slice(2).forEach((row, at) => {
    const y = CARD.top + (at + 2) * CARD.row + 8.5;
    const line = drawn(picture, 'text', {class: 'rows', 'text-anchor': 'middle', x: columnsAt, y});
    line.textContent = String(row).repeat(CARD_COLUMNS);
  });
  for (let column = 10; column <= CARD_COLUMNS; column += 10) {
    const label = drawn(picture, 'text', {class: 'columns', 'text-anchor': 'middle',
      x: CARD.left + (column - 1) * CARD.column, y: height - 3});
    label.textContent = column;
  }
  const print = drawn(picture, 'text', {class: 'typed', 'text-anchor': 'middle', x: columnsAt, y: 12.5});
  const holes = drawn(picture, 'path', {class: 'holes'});
  let shown;
  return text => {
    if (shown === text) return;
    shown = text;
    figure.classList.toggle('none', text === null);
    const columns = (text || '').padEnd(CARD_COLUMNS).slice(0, CARD_COLUMNS);
    setText(print, columns);
    holes.setAttribute('d', holesOf(columns));
    picture.setAttribute('aria-label', cardLabel(text));
  };
}
function cardLabel(text) {
  if (text === null) return TEXTS.cardNone;
  return text.trim() === '' ? TEXTS.cardBlank : filled(TEXTS.cardLabel, {text});
}
function holesOf(columns) {
  let path = '';
  [...columns].forEach((graphic, column) => {
    if (!GRAPHICS.includes(graphic)) return;
    const x = CARD.left + column * CARD.column - 1.7;
    for (const row of rowsOf(graphic)) {
      const y = CARD.top + rowOrder.indexOf(row) * CARD.row + 1.8;
      path += `M${x.toFixed(1)} ${y.toFixed(1)}h3.4v9h-3.4z`;
    }
  });
  return path;
}

function drawCards() {
  const {registers, read, hopper, punched} = view.picture;
  for (const [name, pile] of [['HOPPER', byId('hopper-pile')], ['STACKER', byId('stacker-pile')]]) {
    setText(byId(name), pad(registers[name], 3));
    pile.classList.toggle('none', registers[name] === 0);
    pile.style.setProperty('--cards', registers[name]);
  }
  if (fedAt !== null && registers.HOPPER < fedAt) {
    fedAt = null;
    tellDeck('');
  }
  cards.read(read);
  cards.next(hopper);
  cards.punched(punched);
  setText(byId('card-next-name'), hopper === null ? TEXTS.cardNoNext : TEXTS.cardNext);
  setText(byId('card-punched-name'), punched === null ? TEXTS.cardNoPunched : TEXTS.cardPunched);
  const station = read.trim() === '' ? TEXTS.cardBlank : filled(TEXTS.cardLabel, {text: read.trim()});
  setAttribute(byId('transport'), 'aria-label',
    filled(TEXTS.transportLabel, {hopper: registers.HOPPER, station, stacker: registers.STACKER}));
}
