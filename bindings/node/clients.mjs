// Tests node-redis over the proved scanner: node clients.mjs FOLDER PORT, where FOLDER has the package that ./build page
// made, and a redis-server listens at the port.
import assert from 'node:assert/strict';
import { createRequire } from 'node:module';
import { resolve } from 'node:path';
import { setTimeout } from 'node:timers/promises';
import { pathToFileURL } from 'node:url';

const { replaceParsers } = await import(pathToFileURL(resolve(process.argv[2], 'adapters.mjs')));
const from = '/usr/share/nodejs/app.js';
assert.deepEqual(replaceParsers(from), ['@redis/client']);
const require = createRequire(from);
const { default: Decoder } = require('@redis/client/dist/lib/client/RESP2/decoder');
assert.equal(Decoder.prototype.parseType, undefined);
const { commandOptions, createClient, ErrorReply } = require('@redis/client');

async function connected() {
  for (let tries = 0; ; tries++) {
    const client = createClient({ socket: { host: '127.0.0.1', port: Number(process.argv[3]), reconnectStrategy: false } });
    client.on('error', () => {});
    try {
      await client.connect();
      return client;
    } catch (error) {
      if (tries === 100) throw error;
      await setTimeout(50);
    }
  }
}

const client = await connected();
const long = 'é'.repeat(300_000);
assert.equal(await client.set('long', long), 'OK');
assert.equal(await client.get('long'), long);
assert.deepEqual(await client.get(commandOptions({ returnBuffers: true }), 'long'), Buffer.from(long));
assert.equal(await client.get('none'), null);
assert.deepEqual(await Promise.all(Array.from({ length: 2000 }, (_, at) => client.echo(`${at}`))), Array.from({ length: 2000 }, (_, at) => `${at}`));
const mixed = await Promise.all([client.echo('a'), client.echo(commandOptions({ returnBuffers: true }), 'b'), client.echo('c')]);
assert.deepEqual(mixed, ['a', Buffer.from('b'), 'c']);
await assert.rejects(client.incr('long'), ErrorReply);
assert.deepEqual(await client.multi().set('n', '1').incr('n').exec(), ['OK', 2]);
assert.deepEqual(await client.sendCommand(['EVAL', 'return {1, {2, "x"}, {}, false}', '0']), [1, [2, 'x'], [], null]);
await client.hSet('hash', { field: 'value' });
assert.deepEqual({ ...(await client.hGetAll('hash')) }, { field: 'value' });
const subscriber = await connected();
const heard = new Promise((done) => subscriber.subscribe('channel', (message, channel) => done([channel, message])));
while ((await client.publish('channel', 'hello')) === 0) await setTimeout(10);
assert.deepEqual(await heard, ['channel', 'hello']);
await subscriber.quit();
await client.quit();
