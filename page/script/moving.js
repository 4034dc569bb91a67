/* Movement: a card goes from the hopper through the read station, and the paper moves under the carriage. */
function moveCard() {
  const card = byId('moving-card');
  card.classList.remove('none');
  if (still.matches) return;
  card.animate([{transform: 'translateX(-260px)', opacity: .3}, {transform: 'none', opacity: 1}], 260);
}
function movePaper(lines) {
  if (still.matches) return;
  const by = `translateY(${Math.min(lines, 6) * 1.18}em)`;
  for (const sheet of sheets.values()) sheet.element.animate([{transform: by}, {transform: 'none'}], 140);
  tapePointer.animate([{opacity: .2}, {opacity: 1}], 140);
}
/* What has changed since the picture before, as movement and sound. */
function showChanges(before, now) {
  if (!before || before.size !== now.size) return;
  const from = before.registers, to = now.registers;
  const isRead = to.HOPPER < from.HOPPER || now.read !== before.read && now.read !== '';
  if (isRead) moveCard();
  if (isRead && isStage) moveReader();
  const lines = to.LINE - from.LINE + FORM_LINES * (to.FORM - from.FORM);
  if (lines > 0) movePaper(lines);
  if (lines > 0 && isStage) movePrinter(lines);
  if (to.STACKER > from.STACKER) sound('punch');
  else if (to.PAPER > from.PAPER) sound('print');
  else if (to.HOPPER < from.HOPPER) sound('read');
}
