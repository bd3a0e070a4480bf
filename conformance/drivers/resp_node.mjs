/* This project's package for Node.
 * ours
 * needs: node {NODE}/index.mjs
 * run: node --experimental-wasm-memory64 {FILE} {NODE}/index.mjs */
import { createInterface } from 'node:readline';
import { pathToFileURL } from 'node:url';

if (process.argv[3] === '--about') {
    console.log(JSON.stringify({ parser: 'resp, Node', profiles: ['resp2', 'resp3', 'streamed'], feeds: ['whole', 'joined', 'bytes'],
        drops: ['attribute'], errors: 'utf-8',
        same: [['null', 'nullbulk', 'nullarray'], ['bulk', 'simple'], ['array', 'set'], ['integer', 'big', 'double'], ['error', 'bulkerror']] }));
    process.exit(0);
}
const { ErrorReply, Pairs, Push, Reader, Verbatim } = await import(pathToFileURL(process.argv[2]));

function told(value) {
    if (value === null) return ['null'];
    if (typeof value === 'boolean') return ['boolean', value];
    if (typeof value === 'bigint') return ['integer', String(value)];
    if (typeof value === 'number') return Number.isSafeInteger(value) && !Object.is(value, -0) ? ['integer', String(value)] : ['double', String(value).replace('Infinity', 'inf')];
    if (value instanceof ErrorReply) return ['error', Buffer.from(value.message).toString('latin1')];
    if (value instanceof Verbatim) return ['verbatim', String(value.format), String(value.text)];
    if (value instanceof Push) return ['push', [...value].map(told)];
    if (value instanceof Pairs) return ['map', value.map(pair => pair.map(told))];
    if (value instanceof Map) return ['map', [...value].map(([key, item]) => [told(key), told(item)])];
    if (value instanceof Set) return ['set', [...value].map(told)];
    return Array.isArray(value) ? ['array', value.map(told)] : ['bulk', value];
}

function judged(version, pieces, values) {
    const reader = new Reader({ version, encoding: 'latin1' });
    try {
        for (const piece of pieces) {
            if (piece !== 'end') reader.feed(Buffer.from(piece, 'hex'));
            for (let value; (value = reader.get()) !== undefined;) values.push(told(value));
        }
    } catch (error) {
        return 'error';
    }
    return 'more';
}

createInterface({ input: process.stdin }).on('line', line => {
    const [id, version, pieces] = line.split(' ');
    const values = [];
    const end = judged(Number(version), (pieces || '').split(','), values);
    process.stdout.write(JSON.stringify({ id, values, end }) + '\n');
});
