/* A card to take home: an address whose fragment has the card's columns and the line that it printed, as a code that a
   telephone reads. Opened there, the page shows both, without a room, and from a file too. */
const isHome = FRAGMENT.has('card');

/* The address for a card; empty if a telephone couldn't reach it. The fragment may name another page (home=https://..),
   and a page at the loopback has no address of its own. */
function homeAddress(card) {
  const isAlone = /^(127\.|localhost$|\[::1\]$)/.test(location.hostname) || location.protocol === 'file:';
  const page = FRAGMENT.get('home') || (isAlone ? '' : `${location.origin}/`);
  return page && `${page}#${new URLSearchParams({card, line: card.slice(NAME_COLUMN)})}`;
}
function drawHomeCode(isDone) {
  const address = isDone ? homeAddress(nameCard) : '', code = address && qrOf(address), picture = byId('home-code');
  byId('home-figure').hidden = !code;
  if (!code || picture.dataset.address === address) return;
  picture.dataset.address = address;
  picture.setAttribute('viewBox', `-4 -4 ${code.length + 8} ${code.length + 8}`);
  picture.replaceChildren();
  const path = code.map((row, y) => row.map((dark, x) => dark ? `M${x} ${y}h1v1h-1z` : '').join('')).join('');
  drawn(picture, 'rect', {x: -4, y: -4, width: code.length + 8, height: code.length + 8, class: 'ground'});
  drawn(picture, 'path', {d: path});
}
/* The page of a card that was taken home. */
function showHome() {
  const text = name => [...(FRAGMENT.get(name) || '').toUpperCase()].filter(each => GRAPHICS.includes(each)).join('');
  document.body.classList.add('home');
  byId('home').hidden = false;
  cardIn(byId('home-card'))(text('card').slice(0, CARD_COLUMNS));
  setText(byId('home-line'), text('line').slice(0, 132));
}
