/* node-redis 4.5 (node-redis): its decoder.
 * needs: node /usr/share/nodejs/@redis/client/dist/lib/client/RESP2/decoder.js
 * run: node {FILE} */
'use strict';
const RESP2Decoder = require('/usr/share/nodejs/@redis/client/dist/lib/client/RESP2/decoder.js').default;

if (process.argv[2] === '--about') {
    console.log(JSON.stringify({ parser: 'node-redis 4.5.1', profiles: ['resp2'],
        same: [['null', 'nullbulk', 'nullarray'], ['bulk', 'simple']] }));
    process.exit(0);
}

function told(value) {
    if (value === null) return ['null'];
    if (value instanceof Error) return ['error', Buffer.from(value.message).toString('latin1')];
    if (Array.isArray(value)) return ['array', value.map(told)];
    if (typeof value === 'number') return ['integer', Object.is(value, -0) ? '0' : String(BigInt(Math.trunc(value)))];
    return ['bulk', value.toString('latin1')];
}

function judged(pieces, values) {
    // A caller that wants Buffers gets the bytes as they are.
    const decoder = new RESP2Decoder({
        returnStringsAsBuffers: () => true,
        onReply: reply => values.push(told(reply)),
    });
    for (const piece of pieces) {
        try {
            decoder.write(piece === 'end' ? Buffer.alloc(0) : Buffer.from(piece, 'hex'));
        } catch (error) {
            return 'error';
        }
    }
    return 'more';
}

require('readline').createInterface({ input: process.stdin }).on('line', line => {
    const [id, , pieces] = line.split(' ');
    const values = [];
    const end = judged((pieces || '').split(','), values);
    process.stdout.write(JSON.stringify({ id, values, end }) + '\n');
});
