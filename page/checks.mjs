// Runs inside the inspector, in a browser: compares it with the cases that tests/page has put into the document.

/** The lines that `resp show` prints for a node. */
function shown(bytes, node, level = 0) {
  const pad = '  '.repeat(level);
  const text = (name, format = '') => `${pad}${name} ${format}${inQuotes(contentOf(bytes, node))} ${contentOf(bytes, node).length}`;
  switch (node.type) {
    case 'null': return [`${pad}null`];
    case 'boolean': return [`${pad}${node.boolean}`];
    case 'integer': return [`${pad}int ${node.number}`];
    case 'big number': return [`${pad}big ${node.negative ? '-' : ''}${String.fromCharCode(...contentOf(bytes, node)) || '0'}`];
    case 'simple string': return [text('simple')];
    case 'error': return [text('error')];
    case 'double': return [text('double')];
    case 'bulk string': return [text('bulk')];
    case 'bulk error': return [text('bulkerror')];
    case 'verbatim string': return [text('verbatim', `"${[...node.format].map((it) => escape(it.charCodeAt(0))).join('')}" `)];
    default: return aggregate(bytes, node, level, pad);
  }
}

function aggregate(bytes, node, level, pad) {
  const { type, members } = node;
  const lines = (some) => some.flatMap((member) => shown(bytes, member, level + 1));
  if (type === 'attribute') {
    return [`${pad}attr`, ...lines(members.slice(0, -1)), `${pad}of`, ...lines(members.slice(-1)), `${pad}end ${(members.length - 1) / 2}`];
  }
  return [`${pad}${type}`, ...lines(members), `${pad}end ${type === 'map' ? members.length / 2 : members.length}`];
}

function escape(byte) {
  const special = { 34: '\\"', 92: '\\\\', 13: '\\r', 10: '\\n', 9: '\\t' };
  if (byte in special) return special[byte];
  return byte >= 32 && byte <= 126 ? String.fromCharCode(byte) : `\\x${byte.toString(16).padStart(2, '0')}`;
}

const inQuotes = (bytes) => `"${Array.from(bytes, escape).join('')}"`;

/** What the page finds in the input of a case. */
function found(library, { bytes, version, limits }) {
  const input = fromBase64(bytes);
  const capture = new Capture(library, input, index(library, input, { version, limits }));
  const lines = Array.from(capture.ends, (_, value) => shown(input, capture.tree(value))).flat();
  const known = capture.known(input.length);
  const kinds = Array.from(capture.kinds(0, input.length));
  const { refused, truncated, ends } = capture;
  const end = refused ? `${refused.cause} at ${refused.taken}` : truncated ? `Truncated at ${known.taken}` : 'whole';
  const marked = refused ? kinds.indexOf(BYTE.refused) === refused.at : !kinds.includes(BYTE.refused);
  return { lines, end, values: ends.length, taken: known.taken, needed: known.needed, depth: known.depth, marked, steady: isSteady(capture) && isFollowed(capture) };
}

/** Whether the next byte is valid at a cut in the middle, and not at the refused byte. */
function isFollowed(capture) {
  const { bytes, refused } = capture;
  const end = refused ? refused.at : bytes.length;
  const middle = end >> 1;
  if (middle < end && !capture.valid(middle).includes(bytes[middle])) return false;
  return refused === null || !capture.valid(refused.at).includes(bytes[refused.at]);
}

/** Whether every cut of a short input knows a front of what the whole input shows. */
function isSteady(capture) {
  if (capture.length > 200) return true;
  for (let cut = 0; cut <= capture.length; cut++) {
    const { values, taken, cause } = capture.known(cut);
    const begun = values ? capture.ends[values - 1] : 0;
    const isRefused = capture.refused !== null && capture.refused.at < cut;
    if (Boolean(cause) !== isRefused || (!cause && begun + taken !== cut)) return false;
  }
  return true;
}

// Compiled at once, since the time of a browser without a window does not wait for other threads.
const library = new Library(new WebAssembly.Instance(new WebAssembly.Module(module_bytes), {}).exports);
const results = JSON.parse(document.getElementById('cases').textContent).map((it) => {
  try {
    return found(library, it);
  } catch (error) {
    return { end: `${error.name}: ${error.message}`, lines: [] };
  }
});
const talks = JSON.parse(document.getElementById('talks').textContent).map(({ sent, received }) => {
  try {
    const { rows } = converse(library, fromBase64(sent), fromBase64(received), {});
    return rows.map(({ number = '', command, reply, note = '' }) => [String(number), command, reply, note]);
  } catch (error) {
    return [['', '', '', `${error.name}: ${error.message}`]];
  }
});
document.getElementById('results').textContent = JSON.stringify({ results, talks }, (_, value) => (typeof value === 'bigint' ? String(value) : value));
