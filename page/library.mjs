// The proved library, compiled to WebAssembly: scanners and the pairing of replies.
//
// Addresses and sizes of a 64-bit memory are BigInts at the boundary. Inside this file they are
// numbers, since no memory is larger than 2^53 bytes.

export const KINDS = ['more', 'null', 'boolean', 'integer', 'text', 'part', 'text end', 'open', 'close', 'done', 'whole'];
export const TEXTS = ['simple string', 'error', 'double', 'bulk string', 'bulk error', 'verbatim string', 'big number'];
export const AGGREGATES = ['array', 'set', 'map', 'attribute', 'push'];

// The names of the errors, by their numbers.
export const CAUSES = {
  1: 'Syntax', 2: 'Double', 3: 'Version', 4: 'NestedPush', 5: 'Range', 6: 'Depth', 7: 'Length', 8: 'Total',
  9: 'Truncated', 12: 'Streamed', 13: 'Items', 20: 'Unasked', 24: 'TooMany', 62: 'Busy', 63: 'BadLimits',
  64: 'BadVersion', 65: 'NoRoom', 67: 'HelloWaits', 68: 'Unpaired', 69: 'PushesWait',
  70: 'NotPlain',
};

export const STREAMED = 0xffffffffffffffffn;
const EVENT_BYTES = 48;
const EVENTS = 1024;
const PIECE_BYTES = 65536;
const PAGE_BYTES = 65536;
const PAIRING_BYTES = 64;
// The kind of a command depends on the first bytes of its first two words.
const WORD_BYTES = 64;

/** An error that the library reports, with the name that docs/errors.md explains. */
export class RespError extends Error {
  constructor(cause) {
    super(CAUSES[cause] ?? `error ${cause}`);
    this.name = 'RespError';
    this.cause_number = cause;
  }
}

// The smallest module with 64-bit memory.
const SMALLEST = Uint8Array.of(0, 0x61, 0x73, 0x6d, 1, 0, 0, 0, 5, 3, 1, 4, 0);

/** Returns whether this engine has 64-bit memory for WebAssembly, which the library needs. */
export const hasMemory64 = () => typeof WebAssembly === 'object' && WebAssembly.validate(SMALLEST);

/** Loads the library from the bytes of its module. */
export async function load(module) {
  const { instance } = await WebAssembly.instantiate(module, {});
  return new Library(instance.exports);
}

/** The calls of the module, and its memory. One library serves any number of scanners. */
export class Library {
  constructor(calls) {
    this.calls = calls;
    this.top = Number(calls.__heap_base.value);
    // Memory that was given back, by its size.
    this.unused = new Map();
    // For each scan that is running inside another one: memory for a piece and its events.
    this.areas = [];
    this.running = 0;
    this.number = this.reserve(8);
    this.limits = this.reserve(48);
    this.refresh();
  }

  /** Reserves memory that is never freed. */
  reserve(size, alignment = 16) {
    const at = Math.ceil(this.top / alignment) * alignment;
    this.top = at + size;
    const missing = this.top - this.calls.memory.buffer.byteLength;
    if (missing > 0) this.grow(Math.ceil(missing / PAGE_BYTES));
    return at;
  }

  /** Returns memory of this size, which `give` returns for another call. */
  take(size, alignment) {
    return this.unused.get(size)?.pop() ?? this.reserve(size, alignment);
  }

  give(at, size) {
    if (!this.unused.has(size)) this.unused.set(size, []);
    this.unused.get(size).push(at);
  }

  /** Returns the memory for a scan, until `leave` is called. */
  enter() {
    const level = this.running++;
    this.areas[level] ??= { piece: this.reserve(PIECE_BYTES), events: this.reserve(EVENTS * EVENT_BYTES), scanned: this.reserve(16) };
    return this.areas[level];
  }

  leave() {
    this.running--;
  }

  // Some engines take the number of pages as a number, others as a BigInt.
  grow(pages) {
    try {
      this.calls.memory.grow(BigInt(pages));
    } catch (error) {
      if (!(error instanceof TypeError)) throw error;
      this.calls.memory.grow(pages);
    }
    this.refresh();
  }

  // A memory that has grown has a new buffer.
  refresh() {
    const { buffer } = this.calls.memory;
    if (this.bytes?.buffer === buffer) return;
    this.bytes = new Uint8Array(buffer);
    this.words = new Uint32Array(buffer, 0, buffer.byteLength >> 2);
    this.view = new DataView(buffer);
  }
}

/** The limits that the page offers, with their standard values. */
export const STANDARD = { depth: 32, length: 536870912, total: 1073741824, items: 1099511627776, streamed: true, doubles: true };

/** Reads values of one version within limits. Throws a RespError if a limit is outside its range. */
export class Scanner {
  constructor(library, version = 3, limits = {}) {
    this.library = library;
    this.size = Number(library.calls.resp_scanner_size());
    this.memory = library.take(this.size, Number(library.calls.resp_scanner_align()));
    this.handle = library.take(8);
    library.view.setBigUint64(this.handle, BigInt(this.memory), true);
    this.begin(version, limits);
  }

  /** Gives its memory back. The scanner is not used any more. */
  end() {
    this.library.give(this.memory, this.size);
    this.library.give(this.handle, 8);
  }

  /** Begins anew, as a new scanner. */
  begin(version, limits = {}) {
    const { library } = this;
    const { depth, length, total, items, streamed, doubles } = { ...STANDARD, ...limits };
    [depth, length, total, items].forEach((limit, index) =>
      library.view.setBigUint64(library.limits + 8 * index, BigInt(limit), true));
    library.bytes[library.limits + 32] = streamed ? 1 : 0;
    library.bytes[library.limits + 33] = doubles ? 1 : 0;
    const cause = library.calls.resp_scanner_init(BigInt(this.handle), version, BigInt(library.limits));
    if (cause) throw new RespError(cause);
  }

  /**
   * Reads bytes, and calls `visit(words, index, at)` for each event: its 12 words begin at `index`
   * of `words`, and the bytes that it used begin at `at` of `bytes`. Returns the number of the
   * error, or 0. Stops when `visit` returns false.
   */
  scan(bytes, visit, from = 0, to = bytes.length) {
    const area = this.library.enter();
    try {
      let at = from;
      do {
        const end = Math.min(at + PIECE_BYTES, to);
        const cause = this.scanPiece(area, bytes.subarray(at, end), visit, at);
        if (cause !== 0) return Math.max(cause, 0);
        at = end;
      } while (at < to);
      return 0;
    } finally {
      this.library.leave();
    }
  }

  // Reads a piece that begins at `from` of the bytes. Returns the number of the error, -1 if `visit` stopped, or 0. A
  // visit may reserve memory, so the words are looked up anew after it.
  scanPiece(area, piece, visit, from) {
    const { library } = this;
    library.bytes.set(piece, area.piece);
    let offset = 0, count = EVENTS;
    while (count === EVENTS) {
      const cause = library.calls.resp_scanner_scan(BigInt(this.handle), BigInt(area.piece + offset), BigInt(piece.length - offset),
        BigInt(area.events), BigInt(EVENTS), BigInt(area.scanned));
      count = library.words[area.scanned >> 2];
      let index = area.events >> 2;
      for (let event = 0; event < count; event++, index += 12) {
        if (visit(library.words, index, from + offset) === false) return -1;
        offset += library.words[index + 6];
      }
      if (cause) return cause;
    }
    return 0;
  }

  /** The state of the scanner, to which `restore` returns. */
  save() {
    return this.library.bytes.slice(this.memory, this.memory + this.size);
  }

  restore(state) {
    this.library.bytes.set(state, this.memory);
  }

  /** The number of bytes read of the current value. */
  get taken() {
    return Number(this.library.calls.resp_scanner_taken(BigInt(this.handle)));
  }

  /** The least number of bytes that can complete the current value. */
  get needed() {
    return Number(this.library.calls.resp_scanner_needed(BigInt(this.handle)));
  }

  /** The number of open aggregates. */
  get depth() {
    return Number(this.library.calls.resp_scanner_depth(BigInt(this.handle)));
  }

  /** Returns the number of the error if the input ends here, or 0. */
  finish() {
    return this.library.calls.resp_scanner_finish(BigInt(this.handle));
  }
}

/** How a command is answered, by its number (enum resp_command), if not by exactly one reply. */
export const UNPAIRED = { 16: 'answered by a reply or a push for each channel', 17: 'not answered by exactly one reply' };

/** Pairs the replies of a connection with its commands, and knows the version of each reply. */
export class Pairing {
  constructor(library) {
    this.library = library;
    this.at = library.take(PAIRING_BYTES);
    this.version = library.take(8);
    this.words = library.take(2 * WORD_BYTES);
    library.calls.resp_pairing_init(BigInt(this.at));
  }

  /** Gives its memory back. The pairing is not used any more. */
  end() {
    this.library.give(this.at, PAIRING_BYTES);
    this.library.give(this.version, 8);
    this.library.give(this.words, 2 * WORD_BYTES);
  }

  /** Returns how a command of these words is answered: 0 by one reply, 2 or 3 for a HELLO, or a key of UNPAIRED. */
  kind(words) {
    const { calls, bytes } = this.library;
    const given = words.slice(0, 2).map((word, index) => {
      bytes.set(word.subarray(0, WORD_BYTES), this.words + index * WORD_BYTES);
      return Math.min(word.length, WORD_BYTES);
    });
    const second = this.words + WORD_BYTES;
    return calls.resp_command_kind(BigInt(words.length), BigInt(this.words), BigInt(given[0] ?? 0), BigInt(second), BigInt(given[1] ?? 0));
  }

  /** Counts a command of these words, and returns its number. Throws a RespError if its replies cannot be paired. */
  queue(words) {
    const { calls, number, view } = this.library;
    const cause = calls.resp_pairing_queue(BigInt(this.at), this.kind(words), BigInt(number));
    if (cause) throw new RespError(cause);
    return Number(view.getBigUint64(number, true));
  }

  /** Returns the version of the value that this byte begins. Throws a RespError if nobody asked for it. */
  first(byte) {
    const cause = this.library.calls.resp_pairing_first(BigInt(this.at), byte, BigInt(this.version));
    if (cause) throw new RespError(cause);
    return this.library.view.getUint32(this.version, true);
  }

  /** Returns the number of the reply to which an event at this address belongs, or 0 for a push. */
  take(event) {
    const { calls, number, view } = this.library;
    calls.resp_pairing_take(BigInt(this.at), BigInt(event), BigInt(number));
    return Number(view.getBigUint64(number, true));
  }
}

/** Writes commands. */
export class Writer {
  constructor(library) {
    this.library = library;
    this.size = 0;
  }

  /** Returns the bytes of a command of these words. */
  command(words) {
    const { library } = this;
    const { calls } = library;
    const most = words.reduce((sum, word) => sum + word.length + 32, 32);
    if (most > this.size) {
      this.size = 2 * most;
      this.room = library.reserve(this.size);
      this.word = library.reserve(this.size);
    }
    let at = this.room + this.written(calls.resp_write_head(BigInt(this.room), BigInt(most), 0, BigInt(words.length), BigInt(library.number)));
    for (const word of words) {
      library.bytes.set(word, this.word);
      at += this.written(calls.resp_write_bulk(BigInt(at), BigInt(this.room + most - at), BigInt(this.word), BigInt(word.length), BigInt(library.number)));
    }
    return library.bytes.slice(this.room, at);
  }

  written(cause) {
    if (cause) throw new RespError(cause);
    return Number(this.library.view.getBigUint64(this.library.number, true));
  }
}
