/* Keys of the keyboard. */
function openKeypunch() {
  byId('keypunch').open = true;
  byId('keyed').focus();
}
const SHORTCUTS = {
  KeyF: feedChosen, KeyL: pressLoad, KeyR: pressRun, KeyN: pressStep, KeyT: tearOff, KeyK: openKeypunch,
  KeyC: () => byId('line').focus(), KeyA: () => byId('find-at').select(), KeyP: () => byId('fold').focus(),
};
function pressKey(event) {
  if (document.querySelector('dialog[open]')) return;
  if (event.key === 'Escape') return pressStop();
  const action = SHORTCUTS[event.code];
  if (isStage || !action || !event.altKey) return;
  if (event.ctrlKey || event.metaKey || event.getModifierState('AltGraph')) return;
  event.preventDefault();
  if (!event.repeat) action();
}
