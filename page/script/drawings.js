/* Drawings of the three machines on a stage: each part that moves stands for something in the picture. */
const DRAWING = {reader: 20, unit: 330, printer: 640, width: 240};
const machines = {};

function box(parent, x, y, width, height, name, rx = 3) {
  return drawn(parent, 'rect', {x, y, width, height, rx, class: name});
}
function buildDrawings() {
  const picture = byId('machines');
  picture.replaceChildren();
  for (const [name, x] of [['reader', DRAWING.reader], ['unit', DRAWING.unit], ['printer', DRAWING.printer]]) {
    const part = drawn(picture, 'g', {transform: `translate(${x} 0)`});
    box(part, 0, 40, DRAWING.width, 110, 'cabinet', 8);
    drawn(part, 'text', {x: DRAWING.width / 2, y: 172}).textContent = TEXTS.stage.machines[name];
    machines[name] = part;
  }
  buildReader(machines.reader);
  buildUnit(machines.unit);
  buildPrinter(machines.printer);
}
/* The 1402: its hopper on the right, the read station, and a stacker. */
function buildReader(part) {
  box(part, 158, 14, 66, 60, 'tray');
  box(part, 14, 84, 66, 56, 'tray');
  box(part, 90, 66, 60, 18, 'slot');
  Object.assign(machines, {hopper: box(part, 161, 72, 60, 0, 'pile'), stacker: box(part, 17, 138, 60, 0, 'pile'),
    card: box(part, 94, 68, 52, 13, 'pile none', 1)});
}
/* The 1401: the characters of the B and A fields and of the operation, as a console shows them. */
function buildUnit(part) {
  box(part, 14, 54, 212, 82, 'slot', 4);
  machines.lights = [];
  for (let row = 0; row < 3; row++) {
    for (let at = 0; at < 7; at++) {
      machines.lights.push(drawn(part, 'circle', {cx: 36 + at * 28, cy: 70 + row * 25, r: 9, class: 'light'}));
    }
  }
}
/* The 1403: its chain, and the paper that comes out at the top. */
function buildPrinter(part) {
  machines.paper = drawn(part, 'g', {});
  box(machines.paper, 50, 4, 140, 78, 'paper', 0);
  machines.rows = Array.from({length: 6}, (_, at) => box(machines.paper, 58, 70 - at * 12, 0, 5, 'row', 0));
  box(part, 34, 80, 172, 14, 'slot');
  machines.chain = drawn(part, 'path', {class: 'chain', d: 'M38 87H202'});
}
/* A pile grows fast with its first cards, and slowly then. */
function drawPile(pile, n, foot) {
  const height = n === 0 ? 0 : Math.min(52, 4 + 8 * Math.log2(n));
  setAttribute(pile, 'height', String(height));
  setAttribute(pile, 'y', String(foot - height));
}
function drawMachines({registers, from, cells}) {
  if (!isStage) return;
  drawPile(machines.hopper, registers.HOPPER, 72);
  drawPile(machines.stacker, registers.STACKER, 138);
  const at = place => cells[place - from] ? cells[place - from].graphic : ' ';
  const bits = [registers.B, registers.A, registers.I].flatMap(place => bitsWithCheck(at(place)));
  machines.lights.forEach((light, n) => light.classList.toggle('on', bits[n] && registers.I > 0));
  const newest = view.paper.slice(-machines.rows.length).reverse();
  const widthOf = line => line ? Math.min(124, 3.2 * line.text.length) : 0;
  machines.rows.forEach((row, n) => setAttribute(row, 'width', String(widthOf(newest[n]))));
}
/* A card goes from the hopper to the stacker; the paper goes up under the chain, which runs. */
function moveReader() {
  machines.card.classList.remove('none');
  if (!still.matches) machines.card.animate([{transform: 'translate(66px, -14px)'}, {transform: 'none'}], 400);
}
function movePrinter(lines) {
  if (still.matches) return;
  machines.paper.animate([{transform: `translateY(${Math.min(lines, 4) * 12}px)`}, {transform: 'none'}], 300);
  machines.chain.animate([{strokeDashoffset: 0}, {strokeDashoffset: 48}], 500);
}
