/* The tour: what each instruction did, one scene after the other. A scene is made from two pictures of the machine, and
   is right for any deck. Going on past the last scene carries out one more instruction. */
const SCENE_MS = 8000;
const MOST_SCENES = 200;
const tour = {scenes: [], at: -1, isOn: false, plays: false, since: 0};

/* A card was read by LOAD, or an instruction was carried out alone. */
function noteScene(before, after, isLoad) {
  if (!isStage) return;
  if (isLoad) Object.assign(tour, {scenes: [], at: -1});
  if (tour.scenes.length === MOST_SCENES) tour.scenes.shift();
  tour.scenes.push({before, after, isLoad, line: view.paper.at(-1)});
  tour.at = tour.scenes.length - 1;
  drawTour();
}
/* The operation and the addresses of the instruction that is next in a picture. */
function instructionOf({next}) {
  const [operation, operands = ''] = (next || '').trim().split(/\s+/);
  return {operation, places: operands.split(',').filter(place => /^\d+$/.test(place)).map(Number)};
}
/* The places of the two fields that an instruction has gone through: from its addresses down to where its registers are
   now. */
function fieldsOf({before, after}) {
  const {places: [a, b]} = instructionOf(before), length = a - after.registers.A;
  if (b === undefined || !(length > 0 && length <= STRIP_PLACES * 2)) return null;
  return {a: a - length + 1, b: b - length + 1, length};
}
function textAt(picture, place, length) {
  return Array.from({length}, (_, at) => cellAt(picture, place + at).graphic).join('').trim();
}
function touchedBy(scene) {
  if (scene.isLoad) return [];
  const {operation, places} = instructionOf(scene.before), fields = fieldsOf(scene);
  if (operation === 'SW' || operation === 'CW' || !fields) return places;
  return Array.from({length: fields.length}, (_, at) => [fields.a + at, fields.b + at]).flat();
}
/* The sentence of a scene. */
function sceneWords(scene) {
  const {scenes, operations} = TEXTS;
  if (scene.isLoad) return scenes.load;
  const {operation, places} = instructionOf(scene.before), fields = fieldsOf(scene);
  const values = {places: places.join(TEXTS.scenes.and), what: operations[operation] || operation};
  if (operation === 'W' && scene.line) return filled(scenes.W, {line: scene.line.text.trim()});
  if (fields && ['MCW', 'LCA', 'MLC'].includes(operation)) {
    return filled(scenes.MCW, {from: fields.a, to: fields.b, text: textAt(scene.after, fields.b, fields.length)});
  }
  if (fields && scenes[operation]) return filled(scenes[operation], {...values, a: places[0], b: places[1]});
  return filled(['SW', 'H'].includes(operation) ? scenes[operation] : scenes.other, values);
}

function drawTour() {
  const scene = tour.scenes[tour.at];
  byId('tour').hidden = !tour.isOn;
  byId('why-key').setAttribute('aria-pressed', String(tour.isOn));
  setText(byId('why-key'), tour.isOn ? TEXTS.closeKey : TEXTS.whyKey);
  guide.draw();
  if (!tour.isOn) return view.picture && drawStage(view.picture);
  setText(byId('tour-words'), scene ? sceneWords(scene) : TEXTS.scenes.none);
  setText(byId('tour-at'), scene ? filled(TEXTS.scenes.at, {n: tour.at + 1, all: tour.scenes.length}) : '');
  setText(byId('tour-pause'), tour.plays ? TEXTS.scenes.pause : TEXTS.scenes.play);
  setOff(byId('tour-back'), tour.at <= 0);
  if (scene) drawStage(scene.after, touchedBy(scene));
}
function pressWhy() {
  Object.assign(tour, {isOn: !tour.isOn, plays: !tour.isOn, at: tour.isOn ? tour.at : Math.min(tour.at, 0)});
  tour.since = performance.now();
  drawTour();
}
function tourBack() {
  Object.assign(tour, {plays: false, at: Math.max(0, tour.at - 1)});
  drawTour();
}
async function tourNext() {
  tour.since = performance.now();
  if (tour.at < tour.scenes.length - 1) tour.at++;
  else if (canGoOn()) return pressStep();
  else tour.plays = false;
  drawTour();
}
/* Whether one more instruction can be carried out: there is one, and the program hasn't ended. */
function canGoOn() {
  const {next, registers} = view.picture;
  return tour.scenes.length > 0 && next !== null && registers.I !== view.ended && !run && mayCommand();
}
function pauseTour() {
  Object.assign(tour, {plays: !tour.plays, since: performance.now()});
  drawTour();
}
function lookForTour() {
  if (tour.isOn && tour.plays && performance.now() - tour.since > SCENE_MS) tourNext();
}
function endTour() {
  Object.assign(tour, {scenes: [], at: -1, isOn: false, plays: false});
  drawTour();
}
