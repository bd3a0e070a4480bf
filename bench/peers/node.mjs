// Reads the same replies with our package for Node and with node-redis' decoder, in turn, and prints the median time of each.
import { createRequire } from 'node:module';
import { resolve } from 'node:path';
import { pathToFileURL } from 'node:url';

const [ours, theirs] = process.argv.slice(2);
const { Reader } = await import(pathToFileURL(resolve(ours, 'index.mjs')));
const { default: Decoder } = createRequire(import.meta.url)(theirs);
const ROUNDS = 7;
const BYTES = 8_000_000;

const bulk = (size) => `$${size}\r\n${'x'.repeat(size)}\r\n`;
const TEXTS = {
  '+OK': '+OK\r\n',
  integer: ':1234\r\n',
  'bulk string of 16 bytes': bulk(16),
  'bulk string of 1,000 bytes': bulk(1000),
  'bulk string of 100,000 bytes': bulk(100_000),
  'array of 100 bulk strings': `*100\r\n${bulk(16).repeat(100)}`,
  'array of 100 integers': `*100\r\n${':1234\r\n'.repeat(100)}`,
};

/** Nanoseconds for a reply, if pieces of 64 KiB arrive. */
function time(bytes, replies, feed) {
  const since = process.hrtime.bigint();
  const count = feed(bytes);
  if (count !== replies) throw new Error(`${count} replies of ${replies}`);
  return Number(process.hrtime.bigint() - since) / replies;
}

function pieces(bytes) {
  const found = [];
  for (let at = 0; at < bytes.length; at += 65536) found.push(bytes.subarray(at, at + 65536));
  return found;
}

function read_ours(bytes) {
  const reader = new Reader({ version: 2 });
  let count = 0;
  for (const piece of pieces(bytes)) {
    reader.feed(piece);
    while (reader.get() !== undefined) count++;
  }
  return count;
}

function read_theirs(bytes) {
  let count = 0;
  const decoder = new Decoder({ returnStringsAsBuffers: () => false, onReply: () => count++ });
  for (const piece of pieces(bytes)) decoder.write(piece);
  return count;
}

const median = (numbers) => numbers.sort((a, b) => a - b)[numbers.length >> 1];

console.log('nanoseconds a reply                 ours  node-redis');
for (const [name, text] of Object.entries(TEXTS)) {
  const replies = Math.max(1, Math.floor(BYTES / text.length));
  const bytes = Buffer.from(text.repeat(replies));
  const times = { ours: [], theirs: [] };
  for (let round = 0; round < ROUNDS; round++) {
    times.ours.push(time(bytes, replies, read_ours));
    times.theirs.push(time(bytes, replies, read_theirs));
  }
  const [a, b] = [median(times.ours), median(times.theirs)];
  console.log(`${name.padEnd(32)} ${a.toFixed(0).padStart(8)} ${b.toFixed(0).padStart(10)}`);
}
