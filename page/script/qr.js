/* A QR code of a text: bytes, error correction level L, versions 1 to 10; see ISO/IEC 18004. */
/* Of each version: the bytes of error correction of a block, and how many blocks there are. */
const QR_BLOCKS = [[7, 1], [10, 1], [15, 1], [20, 1], [26, 1], [18, 2], [20, 2], [24, 2], [30, 2], [18, 4]];
const QR_BYTES = [26, 44, 70, 100, 134, 172, 196, 242, 292, 346];
const QR_MARKS = [[], [6, 18], [6, 22], [6, 26], [6, 30], [6, 34], [6, 22, 38], [6, 24, 42], [6, 26, 46], [6, 28, 50]];
const QR_MASKS = [
  (x, y) => (x + y) % 2, (x, y) => y % 2, x => x % 3, (x, y) => (x + y) % 3,
  (x, y) => (Math.floor(x / 3) + Math.floor(y / 2)) % 2, (x, y) => x * y % 2 + x * y % 3,
  (x, y) => (x * y % 2 + x * y % 3) % 2, (x, y) => ((x + y) % 2 + x * y % 3) % 2,
];

/* A product of two bytes as polynomials, modulo x^8 + x^4 + x^3 + x^2 + 1. */
function timesInField(one, other) {
  let product = 0;
  for (let bit = 7; bit >= 0; bit--) {
    product = product << 1 ^ (product >> 7) * 0x11d;
    product ^= (other >> bit & 1) * one;
  }
  return product;
}
/* The bytes of error correction for these: what is left of a division by (x - 1)(x - 2)(x - 4) .. */
function correctionOf(bytes, length) {
  const divisor = [...Array(length - 1).fill(0), 1], rest = Array(length).fill(0);
  for (let at = 0, root = 1; at < length; at++, root = timesInField(root, 2)) {
    for (let to = 0; to < length; to++) divisor[to] = timesInField(divisor[to], root) ^ (divisor[to + 1] ?? 0);
  }
  for (const byte of bytes) {
    const factor = byte ^ rest.shift();
    rest.push(0);
    divisor.forEach((each, at) => { rest[at] ^= timesInField(each, factor); });
  }
  return rest;
}
/* The bytes of a text with their length, filled up to what the version holds. */
function dataOf(bytes, version) {
  const [each, blocks] = QR_BLOCKS[version - 1], most = QR_BYTES[version - 1] - each * blocks;
  const bits = [];
  const put = (value, length) => { for (let bit = length - 1; bit >= 0; bit--) bits.push(value >> bit & 1); };
  put(4, 4);
  put(bytes.length, version < 10 ? 8 : 16);
  for (const byte of bytes) put(byte, 8);
  if (bits.length > most * 8) return null;
  put(0, Math.min(4, most * 8 - bits.length));
  while (bits.length % 8) bits.push(0);
  const data = [];
  for (let at = 0; at < bits.length; at += 8) data.push(parseInt(bits.slice(at, at + 8).join(''), 2));
  for (let pad = 0xec; data.length < most; pad ^= 0xec ^ 0x11) data.push(pad);
  return data;
}
/* The data in blocks, each with its error correction, byte by byte in turn. The last blocks are longer by one. */
function woven(data, version) {
  const [length, count] = QR_BLOCKS[version - 1], short = Math.floor(data.length / count);
  const blocks = [], longer = data.length % count;
  for (let block = 0, at = 0; block < count; block++) {
    const end = at + short + (block >= count - longer ? 1 : 0);
    blocks.push(data.slice(at, end));
    at = end;
  }
  const corrections = blocks.map(block => correctionOf(block, length)), found = [];
  for (let at = 0; at <= short; at++) for (const block of blocks) if (at < block.length) found.push(block[at]);
  for (let at = 0; at < length; at++) for (const block of corrections) found.push(block[at]);
  return found;
}
/* The patterns that each code has, and undefined where its data comes. */
function patternsOf(version) {
  const size = 17 + 4 * version, modules = Array.from({length: size}, () => Array(size));
  const ring = (x, y, reach, dark) => {
    for (let dy = -reach; dy <= reach; dy++) {
      for (let dx = -reach; dx <= reach; dx++) {
        if (modules[y + dy] && x + dx >= 0 && x + dx < size) {
          modules[y + dy][x + dx] = dark(Math.max(Math.abs(dx), Math.abs(dy)));
        }
      }
    }
  };
  for (let at = 0; at < size; at++) modules[6][at] = modules[at][6] = at % 2 === 0;
  const marks = QR_MARKS[version - 1], last = marks.length - 1;
  marks.forEach((y, row) => marks.forEach((x, column) => {
    const isCorner = row === 0 && (column === 0 || column === last) || column === 0 && row === last;
    if (!isCorner) ring(x, y, 2, far => far !== 1);
  }));
  for (const [x, y] of [[3, 3], [size - 4, 3], [3, size - 4]]) ring(x, y, 4, far => far !== 2 && far !== 4);
  putVersion(modules, version);
  putFormat(modules, 0);
  return modules;
}
/* What is left of a value, shifted, when it is divided. */
function remainder(value, divisor, bits) {
  let rest = value;
  for (let at = 0; at < bits; at++) rest = rest << 1 ^ (rest >> bits - 1) * divisor;
  return rest;
}
function putFormat(modules, mask) {
  const size = modules.length, value = 8 | mask, bits = (value << 10 | remainder(value, 0x537, 10)) ^ 0x5412;
  const bit = at => (bits >> at & 1) === 1;
  for (let at = 0; at < 6; at++) modules[at][8] = bit(at);
  modules[7][8] = bit(6);
  modules[8][8] = bit(7);
  modules[8][7] = bit(8);
  for (let at = 9; at < 15; at++) modules[8][14 - at] = bit(at);
  for (let at = 0; at < 8; at++) modules[8][size - 1 - at] = bit(at);
  for (let at = 8; at < 15; at++) modules[size - 15 + at][8] = bit(at);
  modules[size - 8][8] = true;
}
function putVersion(modules, version) {
  if (version < 7) return;
  const size = modules.length, bits = version << 12 | remainder(version, 0x1f25, 12);
  for (let at = 0; at < 18; at++) {
    const near = Math.floor(at / 3), far = size - 11 + at % 3;
    modules[near][far] = modules[far][near] = (bits >> at & 1) === 1;
  }
}
/* The bits of the bytes, two columns at a time from the right, up and down, under a mask. */
function filledWith(patterns, bytes, mask) {
  const size = patterns.length, modules = patterns.map(row => [...row]);
  let at = 0;
  for (let right = size - 1; right >= 1; right -= 2) {
    if (right === 6) right = 5;
    const isUp = (right + 1 & 2) === 0;
    for (let step = 0; step < size; step++) {
      const y = isUp ? size - 1 - step : step;
      for (const x of [right, right - 1]) {
        if (patterns[y][x] !== undefined) continue;
        const bit = (bytes[at >> 3] >> 7 - (at & 7) & 1) === 1;
        modules[y][x] = bit !== (QR_MASKS[mask](x, y) === 0);
        at++;
      }
    }
  }
  putFormat(modules, mask);
  return modules;
}
/* How hard a code is to read: long runs and blocks of one colour, and an imbalance of the two. */
function penaltyOf(modules) {
  const size = modules.length;
  let penalty = 0, dark = 0;
  for (let one = 0; one < size; one++) {
    for (const at of [other => modules[one][other], other => modules[other][one]]) {
      for (let other = 1, run = 1; other <= size; other++) {
        if (other < size && at(other) === at(other - 1)) run++;
        else {
          penalty += run >= 5 ? run - 2 : 0;
          run = 1;
        }
      }
    }
    for (let x = 0; x < size; x++) {
      dark += modules[one][x];
      const isBlock = one > 0 && x > 0 && modules[one][x] === modules[one - 1][x]
        && modules[one][x] === modules[one][x - 1] && modules[one][x] === modules[one - 1][x - 1];
      penalty += isBlock ? 3 : 0;
    }
  }
  return penalty + 10 * Math.floor(Math.abs(20 * dark / size ** 2 - 10));
}
/* The rows of a code for a text, each module true if it is dark; null if the text is too long. */
function qrOf(text) {
  const bytes = new TextEncoder().encode(text);
  for (let version = 1; version <= QR_BYTES.length; version++) {
    const data = dataOf(bytes, version);
    if (data === null) continue;
    const patterns = patternsOf(version), all = woven(data, version);
    const codes = QR_MASKS.map((_, mask) => filledWith(patterns, all, mask));
    const penalties = codes.map(penaltyOf);
    return codes[penalties.indexOf(Math.min(...penalties))];
  }
  return null;
}
