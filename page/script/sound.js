/* Sound, made by the page itself; off until it is asked for. */
const SOUNDS = {read: {ms: 90, hertz: 700}, print: {ms: 130, hertz: 1900}, punch: {ms: 160, hertz: 350}};
let speaker = null;

function pressSound() {
  if (speaker) speaker.close();
  speaker = speaker ? null : new AudioContext();
  byId('sound-key').setAttribute('aria-pressed', String(speaker !== null));
  sound('print');
}
/* A burst of noise around a frequency, which dies away. */
function sound(name) {
  if (!speaker) return;
  const {ms, hertz} = SOUNDS[name], length = Math.floor(speaker.sampleRate * ms / 1000);
  const burst = speaker.createBuffer(1, length, speaker.sampleRate), samples = burst.getChannelData(0);
  for (let at = 0; at < length; at++) samples[at] = (Math.random() * 2 - 1) * (1 - at / length) ** 2;
  const source = speaker.createBufferSource(), filter = speaker.createBiquadFilter();
  source.buffer = burst;
  Object.assign(filter, {type: 'bandpass'}).frequency.value = hertz;
  source.connect(filter).connect(speaker.destination);
  source.start();
}
