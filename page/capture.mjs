// A capture: bytes, where its values end, and states of the scanner from which any place is read again.
import { AGGREGATES, CAUSES, KINDS, Scanner, STREAMED, TEXTS } from './library.mjs';

// A state of the scanner is kept after so many bytes.
const STRIDE = 65536;

/** What a byte is. */
export const BYTE = { unread: 0, type: 1, head: 2, content: 3, end: 4, begun: 5, refused: 6, after: 7 };

/** Numbers in a typed array that grows. */
class Numbers {
  constructor() {
    this.items = new Float64Array(1024);
    this.length = 0;
  }

  push(number) {
    if (this.length === this.items.length) {
      const larger = new Float64Array(2 * this.length);
      larger.set(this.items);
      this.items = larger;
    }
    this.items[this.length++] = number;
  }

  /** The items, without the room after them. */
  whole() {
    return this.items.slice(0, this.length);
  }
}

/** How many columns a byte takes: one for a printable byte, two for \r and \n, three for two hexadecimal digits. */
export const columns = (byte) => (byte === 13 || byte === 10 ? 2 : byte >= 32 && byte < 127 ? 1 : 3);

/** Where the rows of the picture begin: after each LF, and after `width` bytes. */
export function rowsOf(bytes, width) {
  const { length } = bytes;
  let starts = new Float64Array(4096);
  let count = 0;
  for (let start = 0, at = 0; start < length; start = at) {
    if (count === starts.length) {
      const larger = new Float64Array(2 * count);
      larger.set(starts);
      starts = larger;
    }
    starts[count++] = start;
    for (let used = columns(bytes[at]); at < length && used <= width; used += columns(bytes[at])) if (bytes[at++] === 10) break;
  }
  return starts.slice(0, count);
}

/**
 * Reads all bytes once. Returns the ends of the values, the states, and how the bytes end. `report`
 * is called with the number of bytes read so far.
 */
export function index(library, bytes, { version, limits }, report = () => {}) {
  const scanner = new Scanner(library, version, limits);
  const ends = new Numbers();
  const states = [];
  let cause = 0, last = 0;
  const visit = (words, at, place) => {
    if (words[at] === 9) ends.push((last = place + words[at + 6]));
  };
  for (let at = 0; at <= bytes.length && !cause; at += STRIDE) {
    states.push({ at, begun: last, values: ends.length, state: scanner.save() });
    const to = Math.min(at + STRIDE, bytes.length);
    cause = scanner.scan(bytes, visit, at, to);
    report(to);
  }
  const taken = scanner.taken;
  const refused = cause ? { cause: CAUSES[cause] ?? String(cause), at: last + taken, taken } : null;
  const truncated = !cause && scanner.finish() !== 0;
  return { length: bytes.length, ends: ends.whole(), states, refused, truncated, begun: last, version, limits };
}

/** Answers questions about an indexed capture. */
export class Capture {
  constructor(library, bytes, indexed) {
    this.bytes = bytes;
    Object.assign(this, indexed);
    this.scanner = new Scanner(library, indexed.version, indexed.limits);
    this.last = null;
  }

  /** The number of values that begin in the capture, an incomplete one included. */
  get count() {
    return this.ends.length + (this.begun < this.length ? 1 : 0);
  }

  /** The first byte of a value, and the byte after it. */
  bounds(value) {
    const from = value ? this.ends[value - 1] : 0;
    return { from, to: value < this.ends.length ? this.ends[value] : this.length };
  }

  /** The value that the byte belongs to. */
  valueAt(byte) {
    let low = 0, high = this.ends.length;
    while (low < high) {
      const middle = (low + high) >> 1;
      if (this.ends[middle] <= byte) low = middle + 1;
      else high = middle;
    }
    return low;
  }

  /** The last state that was kept before a byte. */
  stateBefore(byte) {
    return this.states[Math.min(Math.floor(byte / STRIDE), this.states.length - 1)];
  }

  /** Reads again up to `to`, from the last state that was kept before `from`. */
  reread(from, to, visit) {
    const kept = this.stateBefore(from);
    this.scanner.restore(kept.state);
    return this.scanner.scan(this.bytes, visit, kept.at, Math.max(kept.at, Math.min(to, this.length)));
  }

  /** What each byte from `from` to `to` is if the bytes before `cut` have arrived: an array of BYTE. */
  kinds(from, to, cut = this.length) {
    const kinds = new Uint8Array(Math.max(0, to - from)).fill(BYTE.unread);
    const end = Math.min(cut, this.length);
    let read = this.stateBefore(from).at;
    // Bytes beyond `to` may complete the event that `to` cuts.
    this.reread(from, Math.min(to + 64, end), (words, at, place) => {
      const used = words[at + 6];
      mark(kinds, from, this.bytes, place, used, words[at], words[at + 8]);
      read = place + used;
    });
    const wrong = this.refused && this.refused.at < end ? this.refused.at : null;
    kinds.fill(BYTE.begun, clamp(read - from, kinds), clamp((wrong ?? end) - from, kinds));
    if (wrong !== null && from <= wrong && wrong < to) kinds[wrong - from] = BYTE.refused;
    kinds.fill(BYTE.after, clamp(end - from, kinds));
    return kinds;
  }

  /** What a parser that has received the bytes before `cut` knows. */
  known(cut) {
    const kept = this.stateBefore(cut);
    this.scanner.restore(kept.state);
    let values = kept.values, read = kept.at;
    const cause = this.scanner.scan(this.bytes, (words, at, place) => {
      read = place + words[at + 6];
      if (words[at] === 9) values++;
    }, kept.at, Math.max(kept.at, cut));
    const { taken, depth } = this.scanner;
    return { values, taken, depth, read, needed: cause ? null : this.scanner.needed, cause: CAUSES[cause] ?? null };
  }

  /** The bytes that a valid value may have after the bytes before `at`, in ascending order. */
  valid(at) {
    if (this.refused && this.refused.at < at) return [];
    this.reread(at, at, () => true);
    const state = this.scanner.save();
    const found = [];
    for (let byte = 0; byte < 256; byte++) {
      this.scanner.restore(state);
      if (this.scanner.scan(Uint8Array.of(byte), () => true) === 0) found.push(byte);
    }
    return found;
  }

  /** The tree of a value, of at most `most` nodes. */
  tree(value, most = 100000) {
    if (this.last?.value === value) return this.last.root;
    const { from, to } = this.bounds(value);
    const builder = new TreeBuilder(this.bytes, from, most, value - this.stateBefore(from).values);
    this.reread(from, to, (words, at, place) => builder.take(words, at, place));
    const root = builder.end(this.refused && this.refused.at < to ? this.refused.at : to);
    this.last = { value, root };
    return root;
  }
}

const clamp = (at, array) => Math.min(Math.max(0, at), array.length);

// Marks the bytes of one event.
function mark(kinds, from, bytes, place, used, kind, part) {
  const content = kind === 5 ? [place + used - part, place + used] : kind === 10 ? [place + used - part - 2, place + used - 2] : null;
  let first = true;
  for (let byte = place; byte < place + used; byte++) {
    let is;
    if (content && content[0] <= byte && byte < content[1]) is = BYTE.content;
    else if (bytes[byte] === 13 || bytes[byte] === 10) is = BYTE.end;
    else is = first ? BYTE.type : BYTE.head;
    if (is === BYTE.type) first = false;
    if (byte >= from && byte - from < kinds.length) kinds[byte - from] = is;
  }
}

/** Builds a tree from the events of one value, which come after those of `skipped` other values. */
class TreeBuilder {
  constructor(bytes, from, most, skipped) {
    this.bytes = bytes;
    this.from = from;
    this.most = most;
    this.skipped = skipped;
    this.nodes = 0;
    this.open = [];
    this.root = null;
    this.text = null;
  }

  take(words, at, place) {
    const kind = words[at], to = place + words[at + 6];
    if (this.skipped > 0) {
      if (KINDS[kind] === 'done') this.skipped--;
      return true;
    }
    if (this.nodes >= this.most) return false;
    const { buffer } = words;
    const view = new DataView(buffer, 4 * at, 48);
    switch (KINDS[kind]) {
      case 'null': this.add({ type: 'null', from: place, to }); break;
      case 'boolean': this.add({ type: 'boolean', boolean: view.getBigInt64(8, true) === 1n, from: place, to }); break;
      case 'integer': this.add({ type: 'integer', number: view.getBigInt64(8, true), from: place, to }); break;
      case 'text': this.begin(view, place, to); break;
      case 'part': this.text.parts.push(view.getUint32(24, true) ? [to - words[at + 8], to] : view.getUint8(43)); break;
      case 'text end': this.text.to = to; this.text.whole = true; this.add(this.text); this.text = null; break;
      case 'whole': this.add({ type: TEXTS[words[at + 1]], parts: [[to - words[at + 8] - 2, to - 2]], from: place, to, whole: true }); break;
      case 'open': this.openAggregate(view, words[at + 1], place, to); break;
      case 'close': this.close(to); break;
      default: return false;
    }
    return true;
  }

  begin(view, from, to) {
    const form = view.getUint32(4, true);
    this.text = { type: TEXTS[form], parts: [], from, to, whole: false };
    if (form === 5) this.text.format = String.fromCharCode(view.getUint8(40), view.getUint8(41), view.getUint8(42));
    if (form === 6) this.text.negative = view.getBigInt64(8, true) === 1n;
  }

  openAggregate(view, form, from, to) {
    const count = view.getBigUint64(16, true);
    const node = { type: AGGREGATES[form], count: count === STREAMED ? null : count, members: [], from, to, whole: false };
    this.add(node);
    this.open.push(node);
  }

  close(to) {
    const node = this.open.pop();
    node.to = to;
    node.whole = true;
  }

  add(node) {
    this.nodes++;
    const parent = this.open.at(-1);
    if (parent) parent.members.push(node);
    else this.root = node;
    for (const outer of this.open) outer.to = Math.max(outer.to, node.to);
  }

  /** The tree, of which a part may be missing. */
  end(to) {
    if (this.text) {
      this.text.to = to;
      this.add(this.text);
    }
    for (const node of this.open) node.to = to;
    return this.root ?? { type: 'begun', from: this.from, to, whole: false };
  }
}

/** The innermost node that has the byte. */
export function nodeAt(node, byte) {
  const inner = node.members?.find((member) => member.from <= byte && byte < member.to);
  return inner ? nodeAt(inner, byte) : node;
}

/** The bytes of a text. */
export function contentOf(bytes, node) {
  const pieces = node.parts.map((part) => (typeof part === 'number' ? Uint8Array.of(part) : bytes.subarray(...part)));
  const content = new Uint8Array(pieces.reduce((sum, piece) => sum + piece.length, 0));
  let at = 0;
  for (const piece of pieces) {
    content.set(piece, at);
    at += piece.length;
  }
  return content;
}
