/* What a visitor is looking at: a drawing of the machine, its words, and where the numbers come from. */
const ABOUT_PARTS = [[20, 'reader'], [235, 'unit'], [450, 'printer']];

/* From its first line on: the key that closes it is at its end, and gets the focus. */
function showAbout() {
  byId('about').showModal();
  byId('about').scrollTop = 0;
}
function buildAbout() {
  byId('about-drawing').replaceChildren();
  for (const [x, name] of ABOUT_PARTS) {
    drawn(byId('about-drawing'), 'rect', {x, y: 40, width: 170, height: 90, rx: 6});
    for (const [at, text] of TEXTS.aboutParts[name].entries()) {
      drawn(byId('about-drawing'), 'text', {x: x + 85, y: 76 + 24 * at}).textContent = text;
    }
  }
  drawn(byId('about-drawing'), 'path', {d: 'M192 85h38m-8-6l8 6l-8 6M407 85h38m-8-6l8 6l-8 6'});
  for (const [at, text] of TEXTS.aboutParts.below.entries()) {
    drawn(byId('about-drawing'), 'text', {x: ABOUT_PARTS[at][0] + 85, y: 158}).textContent = text;
  }
  byId('about-words').replaceChildren();
  for (const [word, meaning] of TEXTS.aboutWords) {
    added(byId('about-words'), 'dt', {textContent: word});
    added(byId('about-words'), 'dd', {textContent: meaning});
  }
}
