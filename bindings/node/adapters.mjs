// Puts the proved scanner under clients of Redis: node-redis 4, and clients over redis-parser 3, such as ioredis.
import { readFileSync } from 'node:fs';
import { createRequire } from 'node:module';
import { dirname } from 'node:path';
import { Reader } from './index.mjs';
import { KINDS } from './library.mjs';

const DONE = KINDS.indexOf('done');

// Reads replies of RESP2 and delivers each as soon as it is complete. `options` has the functions `isBuffers`, `error`,
// `number` and `reply`. A reply has the type of text that `isBuffers` returns when the reply begins.
class Delivery extends Reader {
  constructor(options) {
    super({ version: 2 });
    this.options = options;
  }

  clear() {
    super.clear();
    this.isInside = false;
  }

  take(words, at, piece, to) {
    if (!this.isInside && words[at] !== DONE) this.encoding = this.options.isBuffers() ? null : 'utf8';
    this.isInside = words[at] !== DONE;
    super.take(words, at, piece, to);
  }

  deliver(reply) {
    this.options.reply(reply);
  }

  error(message) {
    return this.options.error(message);
  }

  integer(low, high) {
    return this.options.number(super.integer(low, high));
  }

  // Reads a piece. Throws at the first byte that no reply can contain there.
  write(piece) {
    this.feed(piece);
    if (this.failure) throw this.failure;
  }
}

/** Returns a class like the decoder of node-redis 4, for its class of errors. */
export function decoderFor(ErrorReply) {
  return class {
    constructor({ returnStringsAsBuffers, onReply }) {
      const error = (message) => new ErrorReply(message);
      this.delivery = new Delivery({ isBuffers: returnStringsAsBuffers, error, number: Number, reply: onReply });
    }

    write(piece) {
      this.delivery.write(piece);
    }

    reset() {
      this.delivery.reset();
    }
  };
}

/** Replaces the methods of the class of redis-parser 3, for its classes of errors. Parsers that exist already go on. */
export function replaceMethods(Parser, { ReplyError, ParserError }) {
  const deliveries = new WeakMap();
  const settings = new WeakMap();
  const set = (parser, setting) => settings.set(parser, { ...settings.get(parser), ...setting });
  const begin = (parser) => new Delivery({
    isBuffers: () => Boolean(settings.get(parser)?.buffers),
    error: (message) => new ReplyError(message),
    number: (number) => (settings.get(parser)?.strings ? String(number) : Number(number)),
    reply: (reply) => (reply instanceof ReplyError ? parser.returnError(reply) : parser.returnReply(reply)),
  });
  Object.assign(Parser.prototype, {
    setReturnBuffers(buffers) { set(this, { buffers }); },
    setStringNumbers(strings) { set(this, { strings }); },
    reset() { deliveries.delete(this); },
    execute(piece) {
      if (!deliveries.has(this)) deliveries.set(this, begin(this));
      try {
        deliveries.get(this).write(piece);
      } catch (error) {
        this.reset();
        this.returnFatalError(new ParserError(`Protocol error, ${error.message}`, JSON.stringify(piece), 0));
      }
    },
  });
}

// Resolves a package from a file of the application, or from a package that depends on it.
function resolve(require, name, above) {
  for (const from of [() => require, () => createRequire(require.resolve(above))]) {
    try {
      return from().resolve(name);
    } catch (error) {
      if (error.code !== 'MODULE_NOT_FOUND' && error.code !== 'ERR_PACKAGE_PATH_NOT_EXPORTED') throw error;
    }
  }
  return null;
}

// Throws unless the package has this major version. Its main file is at `main`.
function demand(main, name, major) {
  let folder = dirname(main);
  while (!folder.endsWith(name)) folder = dirname(folder);
  const { version } = JSON.parse(readFileSync(`${folder}/package.json`));
  if (!version.startsWith(`${major}.`)) throw new Error(`resp has no adapter for ${name} ${version}, only for version ${major}`);
}

function replaceDecoder(require) {
  const main = resolve(require, '@redis/client', 'redis');
  if (!main) return null;
  demand(main, '@redis/client', 1);
  const { ErrorReply } = require(main);
  require(`${dirname(main)}/lib/client/RESP2/decoder`).default = decoderFor(ErrorReply);
  return '@redis/client';
}

function replaceParser(require) {
  const main = resolve(require, 'redis-parser', 'ioredis');
  if (!main) return null;
  demand(main, 'redis-parser', 3);
  replaceMethods(require(main), createRequire(main)('redis-errors'));
  return 'redis-parser';
}

/**
 * Replaces the parsers of the clients that are installed for an application. `from` is a file of it, as import.meta.url.
 * Call this before the first client is made. Returns the names of the packages whose parsers were replaced. Throws if
 * there is none, or if a package has another version than those above.
 */
export function replaceParsers(from) {
  const require = createRequire(from);
  const replaced = [replaceDecoder(require), replaceParser(require)].filter(Boolean);
  if (replaced.length === 0) throw new Error(`resp: neither node-redis nor redis-parser is installed for ${from}`);
  return replaced;
}
