// Tests `resp proxy` in front of redis-server with node-redis: node_redis.cjs PORT. Ten clients send pipelines at the same
// time, and each reply is compared with its command.
const assert = require("assert");
const { createClient } = require("redis");

const port = Number(process.argv[2]);

async function work(number) {
    const client = createClient({ socket: { host: "127.0.0.1", port } });
    await client.connect();
    const keys = Array.from({ length: 300 }, (_, part) => `node:${number}:${part}`);
    const values = keys.map((key) => `value of ${key}`);
    for (let turn = 0; turn < 5; turn++) {
        const set = await Promise.all(keys.map((key, part) => client.set(key, values[part])));
        assert.deepStrictEqual(set, keys.map(() => "OK"));
        assert.deepStrictEqual(await Promise.all(keys.map((key) => client.get(key))), values);
    }
    assert.deepStrictEqual(await client.mGet([keys[0], "no such key"]), [values[0], null]);
    await client.del(`hash:${number}`);
    assert.strictEqual(await client.hSet(`hash:${number}`, { a: "1", b: "2" }), 2);
    assert.deepStrictEqual({ ...(await client.hGetAll(`hash:${number}`)) }, { a: "1", b: "2" });
    await assert.rejects(client.sendCommand(["CONFIG", "SET", "save", ""]), /'CONFIG SET'/);
    assert.strictEqual(await client.echo(`${number}`), `${number}`);
    // Clients in another database, and of a user, share a connection too.
    const other = createClient({ socket: { host: "127.0.0.1", port }, database: 4 + (number % 2), username: "bea", password: "secret" });
    await other.connect();
    assert.strictEqual(await other.set(`node:${number}`, "elsewhere"), "OK");
    assert.strictEqual(await other.get(`node:${number}`), "elsewhere");
    assert.strictEqual(await other.sendCommand(["ACL", "WHOAMI"]), "bea");
    assert.strictEqual(await client.get(`node:${number}`), null);
    await other.quit();
    // From here on the client has a connection of its own.
    await client.del([`counted:${number}`, `waiting:${number}`]);
    assert.deepStrictEqual(await client.multi().incr(`counted:${number}`).incr(`counted:${number}`).exec(), [1, 2]);
    await client.rPush(`waiting:${number}`, "value");
    assert.deepStrictEqual({ ...(await client.blPop(`waiting:${number}`, 0)) }, { key: `waiting:${number}`, element: "value" });
    const subscriber = client.duplicate();
    await subscriber.connect();
    const heard = new Promise((resolve) => subscriber.subscribe(`channel:${number}`, resolve).then(
        () => client.publish(`channel:${number}`, `for ${number}`)));
    assert.strictEqual(await heard, `for ${number}`);
    await subscriber.quit();
    await client.quit();
}

Promise.all(Array.from({ length: 10 }, (_, number) => work(number))).then(
    () => process.exit(0),
    (error) => {
        console.error(error);
        process.exit(1);
    },
);
