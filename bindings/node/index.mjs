// RESP2 and RESP3 for Node: a reader of replies, commands, and the pairing of replies with commands.
import { readFileSync } from 'node:fs';
import { AGGREGATES, hasMemory64, KINDS, Library, Pairing as LibraryPairing, RespError, Scanner, TEXTS, Writer } from './library.mjs';

export { RespError };

const [NULL, BOOLEAN, INTEGER, TEXT, PART, TEXT_END, OPEN, CLOSE, DONE, WHOLE] =
  ['null', 'boolean', 'integer', 'text', 'part', 'text end', 'open', 'close', 'done', 'whole'].map((name) => KINDS.indexOf(name));
const [ERROR, DOUBLE, BULK_ERROR, VERBATIM, BIG] =
  ['error', 'double', 'bulk error', 'verbatim string', 'big number'].map((name) => TEXTS.indexOf(name));
const [SET, MAP, ATTRIBUTE, PUSH] = ['set', 'map', 'attribute', 'push'].map((name) => AGGREGATES.indexOf(name));

/** An error that the server replied. */
export class ErrorReply extends Error {
  constructor(message) {
    super(message);
    this.name = 'ErrorReply';
  }
}

/** A push, which answers no command. */
export class Push extends Array {}

/** The pairs of a map with keys that are equal in JavaScript, as 0 and -0 are. */
export class Pairs extends Array {}

/** A verbatim string with its format, such as "txt". */
export class Verbatim {
  constructor(format, text) {
    this.format = format;
    this.text = text;
  }
}

const MISSING = `resp needs WebAssembly with 64-bit memory, which this Node (${process.version}) does not have. Node 24 and later have it;`
  + ' start Node 20, 22 or 23 with --experimental-wasm-memory64.';

/** Loads the library. All readers, connections and commands use it. */
function load() {
  if (!hasMemory64()) throw new Error(MISSING);
  return new Library(new WebAssembly.Instance(new WebAssembly.Module(readFileSync(new URL('resp.wasm', import.meta.url))), {}).exports);
}

const library = load();

// Gives memory of the library back when its reader or connection is gone.
const registry = new FinalizationRegistry((part) => part.end());

/**
 * Reads replies from pieces of any size. Options: `version` 2 or 3 (3), `encoding` of texts ("utf8", or null for
 * Buffers), and the limits `depth`, `length`, `total`, `items`, `streamed` and `doubles`.
 */
export class Reader {
  constructor({ version = 3, encoding = 'utf8', ...limits } = {}) {
    this.scanner = new Scanner(library, version, limits);
    registry.register(this, this.scanner);
    this.version = version;
    this.limits = limits;
    this.encoding = encoding;
    this.clear();
  }

  clear() {
    this.open = [];
    this.text = null;
    this.replies = [];
    // The number of replies that were returned.
    this.returned = 0;
    this.failure = null;
  }

  /** Begins anew, for another connection. */
  reset() {
    this.scanner.begin(this.version, this.limits);
    this.clear();
  }

  /** Reads a piece. The replies that are complete wait for `get`. */
  feed(piece) {
    if (this.failure) return;
    const buffer = bufferOf(piece);
    const cause = this.scanner.scan(buffer, (words, at, place) => {
      this.take(words, at, buffer, place + words[at + 6]);
    });
    if (cause && !this.failure) this.failure = new RespError(cause);
  }

  /**
   * Returns the next complete reply, or undefined. Throws a RespError at the first byte that no reply can contain, once
   * the replies before it were returned, and then again at each call.
   */
  get() {
    if (this.returned < this.replies.length) return this.replies[this.returned++];
    this.replies.length = this.returned = 0;
    if (this.failure) throw this.failure;
    return undefined;
  }

  // Takes an event, which ends at `to` in the piece. Its 12 words begin at `at` of `words`.
  take(words, at, piece, to) {
    if (this.failure) return undefined;
    switch (words[at]) {
      case WHOLE: return this.add(this.valueOf(words[at + 1], piece, to - words[at + 8] - 2, to - 2));
      case INTEGER: return this.add(this.integer(words[at + 2], words[at + 3]));
      case OPEN: return this.openAggregate(words[at + 1]);
      case CLOSE: return this.close();
      case NULL: return this.add(null);
      case BOOLEAN: return this.add(words[at + 2] === 1);
      case TEXT: return this.beginText(words, at);
      case PART: return this.takePart(words, at, piece, to);
      case TEXT_END: return this.endText();
      default: return undefined;
    }
  }

  // The last words have the format of a verbatim string, and the digit of a part that uses no byte.
  beginText(words, at) {
    this.text = { form: words[at + 1], isNegative: words[at + 2] === 1, format: words[at + 10], parts: [] };
  }

  takePart(words, at, piece, to) {
    const length = words[at + 8];
    this.text.parts.push(words[at + 6] ? Buffer.from(piece.subarray(to - length, to)) : Buffer.of(words[at + 10] >>> 24));
  }

  endText() {
    const { form, isNegative, format, parts } = this.text;
    const content = Buffer.concat(parts);
    this.text = null;
    if (form === VERBATIM) {
      const name = String.fromCharCode(format & 255, (format >> 8) & 255, (format >> 16) & 255);
      this.add(new Verbatim(name, this.decode(content, 0, content.length)));
    } else if (form === BIG) this.add(BigInt(`${content}` || '0') * (isNegative ? -1n : 1n));
    else this.add(this.valueOf(form, content, 0, content.length));
  }

  // The value of a simple string, an error, a double or a bulk string.
  valueOf(form, buffer, from, to) {
    if (form === ERROR || form === BULK_ERROR) return this.error(buffer.utf8Slice(from, to));
    if (form === DOUBLE) return this.double(buffer.latin1Slice(from, to));
    return this.decode(buffer, from, to);
  }

  error(message) {
    return new ErrorReply(message);
  }

  integer(low, high) {
    return integerOf(low, high);
  }

  // The scanner accepts only texts of the published grammar, and `-nan`, whose number is NaN too.
  double(text) {
    return { inf: Infinity, '-inf': -Infinity }[text] ?? Number(text);
  }

  decode(buffer, from, to) {
    if (this.encoding === 'utf8') return buffer.utf8Slice(from, to);
    return this.encoding ? buffer.toString(this.encoding, from, to) : Buffer.from(buffer.subarray(from, to));
  }

  openAggregate(form) {
    this.open.push({ form, members: [] });
  }

  close() {
    const { form, members } = this.open.pop();
    if (form === SET) this.add(setOf(members));
    else if (form === MAP) this.add(mapOf(members));
    // The value that an attribute annotates is the reply; the attribute itself is dropped.
    else if (form === ATTRIBUTE) this.add(members.at(-1));
    else this.add(form === PUSH ? Push.from(members) : members);
  }

  add(value) {
    if (this.failure) return;
    const { open } = this;
    if (open.length > 0) open[open.length - 1].members.push(value);
    else this.deliver(value);
  }

  deliver(reply) {
    this.replies.push(reply);
  }
}

// The integer of these two halves: a number, or a BigInt if it is no safe integer.
function integerOf(low, high) {
  const number = (high | 0) * 4294967296 + low;
  return Number.isSafeInteger(number) ? number : BigInt.asIntN(64, (BigInt(high) << 32n) | BigInt(low));
}

// A set, or an array if two members are equal in JavaScript, as 0 and -0 are: nothing is lost.
function setOf(members) {
  const set = new Set(members);
  return set.size === members.length ? set : members;
}

// A map, or its pairs if two keys are equal in JavaScript.
function mapOf(members) {
  const map = new Map(pairs(members));
  return map.size === members.length / 2 ? map : Pairs.from(pairs(members));
}

function* pairs(members) {
  for (let at = 0; at + 1 < members.length; at += 2) yield [members[at], members[at + 1]];
}

const writer = new Writer(library);

/** Returns the bytes of a command. A word is a Buffer, a Uint8Array, a string or a number. */
export function pack(...words) {
  return Buffer.from(writer.command(words.map(bytesOf)));
}

/**
 * Reads the replies of a connection and gives each the number of its command. It changes the version when the reply to
 * HELLO arrives. The options are those of Reader.
 */
export class Connection {
  constructor({ encoding = 'utf8', ...limits } = {}) {
    this.reader = new Reader({ version: 2, encoding, ...limits });
    this.limits = limits;
    this.pairing = new LibraryPairing(library);
    registry.register(this, this.pairing);
    this.number = 0;
    this.numbers = [];
    this.isBetween = true;
  }

  /**
   * Returns the bytes of a command to send, and its number. Throws a RespError, "Unpaired", for a command that is not
   * answered by exactly one reply, such as SUBSCRIBE.
   */
  command(...words) {
    const given = words.map(bytesOf);
    const number = this.pairing.queue(given);
    return { number, bytes: Buffer.from(writer.command(given)) };
  }

  /** Reads a piece. The replies that are complete wait for `get`. */
  feed(piece) {
    const { reader } = this;
    const buffer = bufferOf(piece);
    let at = 0;
    while (at < buffer.length && !reader.failure) {
      let done = false;
      // The scanner has also read what follows a value, perhaps in the wrong version, so it begins anew.
      if (this.isBetween && !this.begin(buffer[at])) return;
      const cause = reader.scanner.scan(buffer, (events, index, place) => {
        this.number = this.pairing.take(4 * index) || this.number;
        at = place + events[index + 6];
        reader.take(events, index, buffer, at);
        done = events[index] === DONE;
        return !done;
      }, at);
      this.isBetween = done;
      if (!done) {
        if (cause) reader.failure = new RespError(cause);
        return;
      }
      this.numbers.push(this.number);
      this.number = 0;
    }
  }

  // Chooses the version of the value that a byte begins. Returns false if nobody asked for it.
  begin(byte) {
    try {
      this.reader.scanner.begin(this.pairing.first(byte), this.limits);
      return true;
    } catch (error) {
      this.reader.failure = error;
      return false;
    }
  }

  /** Returns `{ number, reply }` of the next complete reply, number 0 for a push, or undefined. Throws as Reader.get. */
  get() {
    const reply = this.reader.get();
    return reply === undefined ? undefined : { number: this.numbers.shift(), reply };
  }
}

const bufferOf = (piece) => (Buffer.isBuffer(piece) ? piece : Buffer.from(piece.buffer, piece.byteOffset, piece.byteLength));

function bytesOf(word) {
  if (word instanceof Uint8Array) return word;
  if (typeof word === 'string') return Buffer.from(word, 'utf8');
  if (typeof word === 'bigint' || Number.isFinite(word)) return Buffer.from(String(word), 'latin1');
  throw new TypeError(`a word of a command is a buffer, a string or a number, not ${word}`);
}
