/* node-redis 4.5 (node-redis): its client.
 * needs: node /usr/share/nodejs/@redis/client/dist/index.js
 * run: env NODE_PATH=/usr/share/nodejs node {FILE} */
'use strict';
const { createClient } = require('/usr/share/nodejs/@redis/client');

async function main() {
    const client = createClient({ socket: { host: '127.0.0.1', port: Number(process.argv[2]) } });
    client.on('error', () => {});
    await client.connect();
    for (const word of ['GET', 'PING']) {
        const late = new Promise(done => setTimeout(done, 3000, 'no reply'));
        const told = client.sendCommand([word]).then(
            value => `value ${typeof value === 'string' ? value : JSON.stringify(value)}`, error => `error ${error.message}`);
        console.log(await Promise.race([told, late]));
    }
    process.exit(0);
}

main();
