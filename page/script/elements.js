/* Small helpers. */
const byId = id => document.getElementById(id);
const pad = (number, width) => String(number).padStart(width, '0');
const delay = ms => new Promise(done => setTimeout(done, ms));
const still = matchMedia('(prefers-reduced-motion: reduce)');

function filled(text, values = {}) {
  return text.replace(/\{(\w+)\}/g, (whole, name) => name in values ? String(values[name]) : whole);
}
/* A text with a form for one thing and forms for several, by the rules of its language. */
function counted(forms, n, values = {}) {
  const form = forms[new Intl.PluralRules(TEXTS.language).select(n)] ?? forms.many;
  return filled(form, {n: withCommas(n), ...values});
}
function withCommas(number) {
  return String(number).replace(/\B(?=(\d{3})+$)/g, TEXTS.thousands);
}
function setText(element, text) {
  if (element.textContent !== text) element.textContent = text;
}
function setAttribute(element, name, value) {
  if (element.getAttribute(name) !== value) element.setAttribute(name, value);
}
function added(parent, name, properties = {}) {
  const element = Object.assign(document.createElement(name), properties);
  parent.append(element);
  return element;
}
function drawn(parent, name, attributes) {
  const element = document.createElementNS('http://www.w3.org/2000/svg', name);
  for (const [key, value] of Object.entries(attributes)) element.setAttribute(key, value);
  parent.append(element);
  return element;
}
/* A key that is off keeps the focus, and does nothing. */
function setOff(key, off) {
  setAttribute(key, 'aria-disabled', String(off));
}
const isOff = key => key.getAttribute('aria-disabled') === 'true';
function glow(element) {
  if (!still.matches) element.animate([{backgroundColor: '#ffb238'}, {}], 1400);
}
function saveFile(name, text) {
  const address = URL.createObjectURL(new Blob([text], {type: 'text/plain'}));
  const link = added(document.body, 'a', {href: address, download: name});
  link.click();
  link.remove();
  setTimeout(() => URL.revokeObjectURL(address), RETRY_MS);
}
