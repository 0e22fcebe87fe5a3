// @ts-check
// Reads the parts of a ZIP, such as a spreadsheet's own file, by the browser's DecompressionStream (APPNOTE.TXT 4.3).
"use strict";

// The most bytes of a part when it is unpacked. A part that is larger than LEAST_BOMB and
// shrank more than MOST_RATIO times has no list. The most bytes of the end of a ZIP with its comment.
const MOST_PART = 64000000, LEAST_BOMB = 10000000, MOST_RATIO = 200, MOST_END = 65557;

const END_MARK = 0x06054b50, END_MARK_64 = 0x06064b50, ENTRY_MARK = 0x02014b50, FILE_MARK = 0x04034b50;

/** @typedef {{ flags: number, method: number, check: number, packed: number, size: number, at: number }} Part */

const damaged = () => new Faults(faultAt(1, "sheetDamaged"));

/**
 * The parts of a ZIP by their names. Throws a Faults if it is damaged.
 * @param {Uint8Array} bytes
 * @returns {Map<string, Part>}
 */
function partsOf(bytes) {
  const view = viewOf(bytes), { count, first } = directoryOf(view);
  /** @type {Map<string, Part>} */
  const parts = new Map();
  for (let at = first, i = 0; i < count; i++) {
    if (view.getUint32(at, true) !== ENTRY_MARK) throw damaged();
    const name = view.getUint16(at + 28, true), extra = view.getUint16(at + 30, true);
    parts.set(new TextDecoder().decode(bytes.subarray(at + 46, at + 46 + name)),
      partAt(view, at, at + 46 + name, extra));
    at += 46 + name + extra + view.getUint16(at + 32, true);
  }
  return parts;
}

/** @param {Uint8Array} bytes */
const viewOf = (bytes) => new DataView(bytes.buffer, bytes.byteOffset, bytes.byteLength);

/**
 * The number of entries of the directory, and where the first is.
 * @param {DataView} view
 */
function directoryOf(view) {
  let end = view.byteLength - 22;
  while (end >= 0 && view.byteLength - end <= MOST_END && view.getUint32(end, true) !== END_MARK) end--;
  if (end < 0 || view.byteLength - end > MOST_END) throw damaged();
  const count = view.getUint16(end + 10, true), first = view.getUint32(end + 16, true);
  if (count !== 0xffff && first !== 0xffffffff) return { count, first };
  const long = Number(view.getBigUint64(end - 12, true));
  if (view.getUint32(long, true) !== END_MARK_64) throw damaged();
  return { count: Number(view.getBigUint64(long + 32, true)), first: Number(view.getBigUint64(long + 48, true)) };
}

/**
 * An entry of the directory. Sizes that are too long for it stand in its extra field 1.
 * @param {DataView} view
 * @param {number} at
 * @param {number} extra
 * @param {number} length
 * @returns {Part}
 */
function partAt(view, at, extra, length) {
  let next = extra;
  const end = extra + length;
  while (next < end && view.getUint16(next, true) !== 1) next += 4 + view.getUint16(next + 2, true);
  next += 4;
  const long = (/** @type {number} */ value) => {
    if (value !== 0xffffffff) return value;
    next += 8;
    return Number(view.getBigUint64(next - 8, true));
  };
  const size = long(view.getUint32(at + 24, true)), packed = long(view.getUint32(at + 20, true));
  const flags = view.getUint16(at + 8, true), method = view.getUint16(at + 10, true);
  return { flags, method, check: view.getUint32(at + 16, true), packed, size, at: long(view.getUint32(at + 42, true)) };
}

/**
 * The bytes of a part, unpacked. Throws a Faults if it is too large, locked by a password or damaged.
 * @param {Uint8Array} bytes
 * @param {Part | undefined} part
 */
async function unpacked(bytes, part) {
  if (!part) throw damaged();
  if (part.flags & 1) throw new Faults(faultAt(1, "sheetEncrypted"));
  const isBomb = part.size > LEAST_BOMB && part.size > MOST_RATIO * part.packed;
  if (part.size > MOST_PART || isBomb) throw new Faults(faultAt(1, "sheetLarge"));
  const view = viewOf(bytes);
  if (view.getUint32(part.at, true) !== FILE_MARK || ![0, 8].includes(part.method)) throw damaged();
  const start = part.at + 30 + view.getUint16(part.at + 26, true) + view.getUint16(part.at + 28, true);
  const packed = bytes.subarray(start, start + part.packed);
  const data = part.method ? await inflated(packed, part.size) : packed;
  if (data.length !== part.size || crc32(data) !== part.check) throw damaged();
  return data;
}

/**
 * The bytes that were deflated, if they are at most this many.
 * @param {Uint8Array} packed
 * @param {number} size
 */
async function inflated(packed, size) {
  const reader = new Blob([packed]).stream().pipeThrough(new DecompressionStream("deflate-raw")).getReader();
  const data = new Uint8Array(size);
  for (let at = 0; ;) {
    const { done, value } = await reader.read();
    if (done) return data.subarray(0, at);
    if (at + value.length > size) {
      await reader.cancel();
      throw damaged();
    }
    data.set(value, at);
    at += value.length;
  }
}
