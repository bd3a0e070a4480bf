// Tests `resp serve --test-server` with node-redis: node_redis.cjs PORT. Four clients in two databases send pipelines at the
// same time. The server must have no key.
const assert = require("assert");
const { createClient } = require("redis");

const port = Number(process.argv[2]);

async function work(number) {
    const client = createClient({ socket: { host: "127.0.0.1", port }, database: number % 2, name: `node:${number}` });
    await client.connect();
    assert.strictEqual(await client.clientGetName(), `node:${number}`);
    const keys = Array.from({ length: 300 }, (_, part) => `node:${number}:${part}`);
    const values = keys.map((key) => `value of ${key}`);
    const set = await Promise.all(keys.map((key, part) => client.set(key, values[part])));
    assert.deepStrictEqual(set, keys.map(() => "OK"));
    assert.deepStrictEqual(await Promise.all(keys.map((key) => client.get(key))), values);
    assert.strictEqual(await client.exists([keys[0], keys[0], "none"]), 2);
    assert.strictEqual(await client.get("none"), null);
    await assert.rejects(client.sendCommand(["SELECT", "16"]), /DB index is out of range/);
    await client.quit();
}

async function empty() {
    const client = createClient({ socket: { host: "127.0.0.1", port }, database: 1 });
    await client.connect();
    assert.strictEqual(await client.dbSize(), 600);
    await client.flushDb();
    assert.strictEqual(await client.dbSize(), 0);
    await client.select(0);
    assert.strictEqual(await client.dbSize(), 600);
    assert.strictEqual(await client.flushAll(), "OK");
    assert.strictEqual(await client.dbSize(), 0);
    await client.quit();
}

Promise.all(Array.from({ length: 4 }, (_, number) => work(number))).then(empty).then(
    () => process.exit(0),
    (error) => {
        console.error(error);
        process.exit(1);
    },
);
