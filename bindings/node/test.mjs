// Tests of the package for Node: node --expose-gc test.mjs FOLDER, where FOLDER has the package that ./build page made.
import assert from 'node:assert/strict';
import { spawnSync } from 'node:child_process';
import { setImmediate } from 'node:timers/promises';
import { pathToFileURL } from 'node:url';
import { resolve } from 'node:path';

// The instances of modules that the package makes.
const instances = [];
const { Instance } = WebAssembly;
WebAssembly.Instance = class extends Instance {
  constructor(...given) {
    super(...given);
    instances.push(this);
  }
};

const place = (name) => pathToFileURL(resolve(process.argv[2], name));
const { Connection, ErrorReply, pack, Pairs, Push, Reader, RespError, Verbatim } = await import(place('index.mjs'));
const { decoderFor, replaceMethods, replaceParsers } = await import(place('adapters.mjs'));

const STREAM = '%2\r\n+a\r\n:1\r\n$1\r\nb\r\n*2\r\n_\r\n#t\r\n~2\r\n:1\r\n:2\r\n,1.5\r\n(-12345678901234567890\r\n=6\r\ntxt:hi\r\n>1\r\n+note\r\n'
  + '-ERR no\r\n|1\r\n+ttl\r\n:9\r\n$5\r\nhello\r\n:9223372036854775807\r\n$?\r\n;2\r\nab\r\n;1\r\nc\r\n;0\r\n*?\r\n:1\r\n.\r\n';
const VALUES = [
  new Map([['a', 1], ['b', [null, true]]]), new Set([1, 2]), 1.5, -12345678901234567890n, new Verbatim('txt', 'hi'), Push.from(['note']),
  new ErrorReply('ERR no'), 'hello', 9223372036854775807n, 'abc', [1],
];

// A class with the calls of redis-parser 3, for the test of their replacements.
class Parser {
  constructor({ returnBuffers = false, stringNumbers = false, ...calls }) {
    this.setReturnBuffers(returnBuffers);
    this.setStringNumbers(stringNumbers);
    Object.assign(this, calls);
    this.reset();
  }
}
class ReplyError extends Error {}
class ParserError extends Error {}

const tests = {
  'replies come whole and cut at each byte'() {
    const bytes = Buffer.from(STREAM);
    for (let cut = 0; cut <= bytes.length; cut++) {
      const reader = new Reader(), found = [];
      for (const piece of [bytes.subarray(0, cut), bytes.subarray(cut)]) {
        reader.feed(piece);
        for (let reply = reader.get(); reply !== undefined; reply = reader.get()) found.push(reply);
      }
      assert.deepEqual(found, VALUES, `cut at ${cut}`);
    }
  },
  'a refused byte comes after the replies before it, and again'() {
    const reader = new Reader({ version: 2 });
    reader.feed(Buffer.from('+OK\r\n_\r\n'));
    assert.equal(reader.get(), 'OK');
    for (let time = 0; time < 2; time++) assert.throws(() => reader.get(), (error) => error instanceof RespError && error.message === 'Version');
  },
  'texts are Buffers without an encoding'() {
    const reader = new Reader({ encoding: null });
    reader.feed(Buffer.from('$2\r\n\xff\x00\r\n', 'latin1'));
    assert.deepEqual(reader.get(), Buffer.of(255, 0));
  },
  'doubles outside the published grammar are refused'() {
    const read = (text) => {
      const reader = new Reader();
      reader.feed(Buffer.from(`:1\r\n*2\r\n,${text}\r\n:2\r\n:3\r\n`, 'latin1'));
      assert.equal(reader.get(), 1);
      return reader;
    };
    for (const text of ['', 'abc', '.5', '1.', '-', '0x10', '1e', '1e+', 'Infinity', 'NaN', '+inf', 'nan(1)', ' 1', '1 ', '1_0', '1\0']) {
      const reader = read(text);
      for (let time = 0; time < 2; time++) assert.throws(() => reader.get(), { message: 'Syntax' }, text);
    }
    for (const text of ['0', '+1.5', '-1.50', '1e3', '1E+3', '-1.7976931348623157e+308']) assert.equal(read(text).get()[0], Number(text));
    for (const [text, number] of [['inf', Infinity], ['-inf', -Infinity], ['nan', NaN], ['-nan', NaN]]) assert.deepEqual(read(text).get(), [number, 2]);
  },
  'keys and members that are equal in JavaScript are kept'() {
    const rows = [
      ['~3\r\n:0\r\n#f\r\n,0\r\n', [0, false, 0]],
      ['~2\r\n:0\r\n#f\r\n', new Set([0, false])],
      ['%2\r\n+a\r\n:1\r\n+a\r\n:2\r\n', Pairs.from([['a', 1], ['a', 2]])],
      ['%2\r\n:1\r\n+a\r\n#t\r\n+b\r\n', new Map([[1, 'a'], [true, 'b']])],
    ];
    for (const [text, wanted] of rows) {
      const reader = new Reader();
      reader.feed(Buffer.from(text));
      assert.deepEqual(reader.get(), wanted, text);
    }
  },
  'limits outside their range are refused'() {
    assert.throws(() => new Reader({ depth: 1 }), { message: 'BadLimits' });
  },
  'commands are packed'() {
    assert.equal(String(pack('SET', 'k', Buffer.from('xy'), 12, 1n)), '*5\r\n$3\r\nSET\r\n$1\r\nk\r\n$2\r\nxy\r\n$2\r\n12\r\n$1\r\n1\r\n');
    assert.equal(pack('SET', 'k', Buffer.alloc(1_000_000)).length, 1_000_032);
    for (const word of [true, null, undefined, [], {}, NaN]) assert.throws(() => pack('GET', word), TypeError);
  },
  'each reply has the number of its command, over HELLO'() {
    const bytes = Buffer.from('%1\r\n+proto\r\n:3\r\n>1\r\n:0\r\n,2.5\r\n+OK\r\n');
    for (let cut = 0; cut <= bytes.length; cut++) {
      const connection = new Connection();
      assert.equal(connection.command('HELLO', '3').number, 1);
      assert.equal(String(connection.command('GET', 'a').bytes), '*2\r\n$3\r\nGET\r\n$1\r\na\r\n');
      assert.equal(connection.command('PING').number, 3);
      const found = [];
      for (const piece of [bytes.subarray(0, cut), bytes.subarray(cut)]) {
        connection.feed(piece);
        for (let got = connection.get(); got; got = connection.get()) found.push([got.number, got.reply]);
      }
      assert.deepEqual(found, [[1, new Map([['proto', 3]])], [0, Push.from([0])], [2, 2.5], [3, 'OK']], `cut at ${cut}`);
    }
  },
  'one library serves all readers and connections'() {
    for (let made = 0; made < 20; made++) [new Reader(), new Connection()].forEach((it) => assert.equal(it.get(), undefined));
    pack('PING');
    assert.equal(instances.length, 1);
  },
  async 'the memory of readers that are gone is used again'() {
    const { memory } = instances[0].exports;
    for (let round = 0; round < 40; round++) {
      for (let made = 0; made < 500; made++) new Reader().feed(Buffer.from('*1\r\n'));
      for (let turn = 0; turn < 3; turn++) {
        globalThis.gc();
        await setImmediate();
      }
    }
    // 20,000 readers need 80 MB at least.
    assert.ok(memory.buffer.byteLength < 40_000_000, `${memory.buffer.byteLength} bytes`);
  },
  'a reader begins anew'() {
    const reader = new Reader({ version: 2 });
    reader.feed(Buffer.from('*2\r\n$5\r\nhel'));
    reader.reset();
    reader.feed(Buffer.from(':1\r\n_'));
    assert.equal(reader.get(), 1);
    assert.throws(() => reader.get(), { message: 'Version' });
    reader.reset();
    reader.feed(Buffer.from('+OK\r\n'));
    assert.equal(reader.get(), 'OK');
  },
  'without 64-bit memory the package says what is missing'() {
    const words = ['--input-type=module', '-e', `await import(${JSON.stringify(place('index.mjs').href)})`];
    const { status, stderr } = spawnSync(process.execPath, words, { encoding: 'utf8', env: { ...process.env, NODE_OPTIONS: '' } });
    const has = spawnSync(process.execPath, ['-e', 'process.exit(WebAssembly.validate(Uint8Array.of(0,97,115,109,1,0,0,0,5,3,1,4,0)) ? 0 : 1)']);
    if (has.status === 0) assert.equal(status, 0);
    else assert.match(stderr, /64-bit memory, which this Node \(v\d.*start Node 20, 22 or 23 with --experimental-wasm-memory64/);
  },
  'a decoder delivers each reply at once, in the type that is wanted then'() {
    const bytes = Buffer.from('+a\r\n$2\r\nbc\r\n*3\r\n:9007199254740993\r\n-ERR no\r\n$-1\r\n$0\r\n\r\n');
    for (let cut = 0; cut <= bytes.length; cut++) {
      const found = [];
      const Decoder = decoderFor(ReplyError);
      const decoder = new Decoder({ returnStringsAsBuffers: () => found.length === 1, onReply: (reply) => found.push(reply) });
      decoder.write(bytes.subarray(0, cut));
      decoder.write(bytes.subarray(cut));
      const wanted = ['a', Buffer.from('bc'), [9007199254740992, new ReplyError('ERR no'), null], ''];
      assert.deepEqual(found, wanted, `cut at ${cut}`);
    }
  },
  'a decoder that is called while another one delivers reads its own bytes'() {
    const found = [];
    const Decoder = decoderFor(ReplyError);
    const inner = new Decoder({ returnStringsAsBuffers: () => false, onReply: (reply) => found.push(reply) });
    const outer = new Decoder({
      returnStringsAsBuffers: () => false,
      onReply: (reply) => {
        found.push(reply);
        inner.write(Buffer.from(`+in ${reply}\r\n`));
      },
    });
    outer.write(Buffer.from('+one\r\n+two\r\n'));
    assert.deepEqual(found, ['one', 'in one', 'two', 'in two']);
  },
  'a decoder throws at a wrong byte, and begins anew'() {
    const found = [];
    const Decoder = decoderFor(ReplyError);
    const decoder = new Decoder({ returnStringsAsBuffers: () => false, onReply: (reply) => found.push(reply) });
    assert.throws(() => decoder.write(Buffer.from('+a\r\n%1\r\n')), { message: 'Version' });
    decoder.reset();
    decoder.write(Buffer.from('+b\r\n'));
    assert.deepEqual(found, ['a', 'b']);
  },
  'the methods of redis-parser are replaced'() {
    replaceMethods(Parser, { ReplyError, ParserError });
    const found = [];
    const calls = { returnReply: (it) => found.push(it), returnError: (it) => found.push(['error', it]), returnFatalError: (it) => found.push(['fatal', it]) };
    const parser = new Parser(calls);
    parser.execute(Buffer.from('*2\r\n:1\r\n-ERR in\r\n-ERR out\r\n$2\r\na'));
    parser.execute(Buffer.from('b\r\n'));
    parser.setReturnBuffers(true);
    parser.setStringNumbers(true);
    parser.execute(Buffer.from('+c\r\n:9223372036854775807\r\n*'));
    parser.reset();
    parser.execute(Buffer.from(':1\r\n:x'));
    parser.execute(Buffer.from(':2\r\n'));
    assert.deepEqual(found, [
      [1, new ReplyError('ERR in')], ['error', new ReplyError('ERR out')], 'ab', Buffer.from('c'), '9223372036854775807', '1',
      ['fatal', new ParserError('Protocol error, Syntax')], '2',
    ]);
  },
  'without a client there is nothing to replace'() {
    assert.throws(() => replaceParsers('/nowhere/app.mjs'), /neither node-redis nor redis-parser is installed/);
  },
  'a reply that nobody asked for, and a command that is not paired, are refused'() {
    const connection = new Connection();
    assert.throws(() => connection.command('SUBSCRIBE', 'c'), { message: 'Unpaired' });
    connection.feed(Buffer.from('+OK\r\n'));
    assert.throws(() => connection.get(), { message: 'Unasked' });
  },
};
let failed = 0;
for (const [name, test] of Object.entries(tests)) {
  try {
    await test();
  } catch (error) {
    failed++;
    console.log(`node: ${name}: ${error.message}`);
  }
}
console.log(`node: ${Object.keys(tests).length - failed} passed, ${failed} failed`);
process.exit(failed ? 1 : 0);
