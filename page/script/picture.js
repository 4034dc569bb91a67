/* A picture: all that is shown, of one moment. */
class Unreadable extends Error {}

/* The parts of a line that has this form, or the picture can't be read. */
function partsOf(line, form) {
  const parts = form.exec(line === undefined ? '' : line);
  if (!parts) throw new Unreadable(line);
  return parts.slice(1);
}
/* What follows the word of a line, or null if nothing does. */
function afterWord(line, word) {
  if (line === word) return null;
  return partsOf(line, new RegExp(`^${word} (.*)$`))[0];
}
function cellsOf(line, cells) {
  for (let at = 0; at < line.length; at++) {
    const mark = line[at] === '~';
    if (mark) at++;
    cells.push({graphic: line[at], mark});
  }
}
function registersOf(line) {
  const values = {};
  for (const [, name, value] of line.matchAll(/(\w+)=(\S+)/g)) {
    values[name] = name === 'SWITCHES' ? value : Number(value);
  }
  return values;
}
function pictureOf(text) {
  const [head, ...lines] = text.split('\n'), [room] = partsOf(head, /^ROOM (\w+)$/);
  const [seat, seats, made] = partsOf(lines[0], /^SEAT (\d+) OF (\d+) MADE (\d+)$/).map(Number);
  const after = Number(partsOf(lines[1], /^AFTER (\d+)$/)[0]);
  const [from, size] = partsOf(lines[7], /^CORE (\d+) OF (\d+)$/).map(Number);
  const picture = {
    room, seat, seats, made, after, from, size, cells: [], lines: [], registers: registersOf(lines[2]),
    next: afterWord(lines[3], 'NEXT'), read: afterWord(lines[4], 'READ') || '',
    hopper: afterWord(lines[5], 'HOPPER'), punched: afterWord(lines[6], 'PUNCHED'),
  };
  for (const line of lines.slice(8, 23)) cellsOf(line, picture.cells);
  if (picture.cells.length !== PLACES_SHOWN) throw new Unreadable('cells');
  picture.first = Number(partsOf(lines[23], /^PAPER (\d+)$/)[0]);
  for (const line of lines.slice(24, -1)) picture.lines.push(printedLineOf(line));
  return picture;
}
/* A printed line from its text, which the reply to LINE has too. */
function printedLineOf(line) {
  const [form, at, text] = partsOf(line, /^LINE (\d{4}) (\d\d) (.*)$/);
  return {form: Number(form), line: Number(at), text};
}
const sameLine = (one, other) => one.form === other.form && one.line === other.line && one.text === other.text;
