// Text for people: input as it is typed, bytes as they are shown, and errors in plain words.
import { contentOf } from './capture.mjs';

const ESCAPES = { r: 13, n: 10, t: 9, 0: 0, '\\': 92, '"': 34 };
const encoder = new TextEncoder();
const decoder = new TextDecoder('utf-8', { fatal: true });

/** The bytes of a text with the escapes \r, \n, \t, \0, \\, \" and \xNN. Line ends of the field itself are ignored. */
export function fromEscapes(text) {
  const out = [];
  for (let at = 0; at < text.length; at++) {
    const character = text[at];
    if (character === '\n') continue;
    if (character !== '\\') {
      const point = text.codePointAt(at);
      if (point > 0xffff) at++;
      out.push(...encoder.encode(String.fromCodePoint(point)));
      continue;
    }
    const next = text[++at];
    const hex = next === 'x' && /^[0-9a-fA-F]{2}$/.test(text.slice(at + 1, at + 3)) ? text.slice(at + 1, at + 3) : null;
    if (hex) {
      out.push(parseInt(hex, 16));
      at += 2;
    } else if (next in ESCAPES) out.push(ESCAPES[next]);
    else throw new Error(`The escape \\${next ?? ''} is unknown. Use \\r, \\n, \\t, \\0, \\\\, \\" or \\xNN.`);
  }
  return Uint8Array.from(out);
}

/** The bytes of pairs of hexadecimal digits, which spaces may separate. */
export function fromHex(text) {
  const digits = text.replace(/0x|[\s,:]/g, '');
  if (!/^([0-9a-fA-F]{2})*$/.test(digits)) throw new Error('Hex needs two digits (0-9, a-f) for each byte.');
  return Uint8Array.from(digits.match(/../g) ?? [], (pair) => parseInt(pair, 16));
}

/** The bytes of a text in base64, with + and / or with - and _. */
export function fromBase64(text) {
  const plain = text.replace(/\s/g, '').replace(/-/g, '+').replace(/_/g, '/');
  try {
    return Uint8Array.from(atob(plain), (character) => character.charCodeAt(0));
  } catch {
    throw new Error('This is not base64.');
  }
}

/** The bytes in base64 for an address. */
export function toBase64(bytes) {
  let text = '';
  for (let at = 0; at < bytes.length; at += 8192) text += String.fromCharCode(...bytes.subarray(at, at + 8192));
  return btoa(text).replace(/\+/g, '-').replace(/\//g, '_').replace(/=+$/, '');
}

/** One byte as the picture shows it. */
export function glyph(byte) {
  if (byte === 13) return '\\r';
  if (byte === 10) return '\\n';
  if (byte >= 32 && byte < 127) return String.fromCharCode(byte);
  return `\\x${byte.toString(16).padStart(2, '0')}`;
}

/** What the cell of a byte shows: its glyph, or its two hexadecimal digits. */
export function cell(byte) {
  const text = glyph(byte);
  return text.length > 2 ? { text: text.slice(2), isHex: true } : { text, isHex: false };
}

/** Bytes as text with escapes, which `fromEscapes` reads. */
export function toEscapes(bytes) {
  return Array.from(bytes, (byte) => (byte === 92 ? '\\\\' : glyph(byte)) + (byte === 10 ? '\n' : '')).join('').trimEnd();
}

/** Bytes as a quoted text: as UTF-8 if they are, otherwise with escapes. */
export function quoted(bytes, most = 200) {
  const shown = bytes.subarray(0, most);
  const more = bytes.length > most ? ` .. ${bytes.length.toLocaleString('en')} bytes` : '';
  try {
    return JSON.stringify(decoder.decode(shown)) + more;
  } catch {
    return `"${Array.from(shown, glyph).join('')}"${more}`;
  }
}

/** Some bytes, given in ascending order: "any byte", or names and ranges. */
export function named(bytes) {
  if (bytes.length === 256) return 'any byte';
  if (bytes.length > 128) return `any byte except ${named(Array.from({ length: 256 }, (_, byte) => byte).filter((byte) => !bytes.includes(byte)))}`;
  const name = (byte) => ({ 10: 'LF', 13: 'CR', 32: 'space' })[byte] ?? glyph(byte);
  const isAlike = (byte, next) => next === byte + 1 && (/[0-9A-Za-z]/.test(glyph(byte)) ? /[0-9A-Za-z]/.test(glyph(next)) : byte > 126 || next < 10);
  const parts = [];
  for (let at = 0; at < bytes.length; ) {
    let last = at;
    while (last + 1 < bytes.length && isAlike(bytes[last], bytes[last + 1])) last++;
    if (last - at > 1) parts.push(`${name(bytes[at])} to ${name(bytes[last])}`);
    else for (let one = at; one <= last; one++) parts.push(name(bytes[one]));
    at = last + 1;
  }
  return parts.join('  ') || 'no byte';
}

/** The key of a pair in front of its value. */
export const keyText = (bytes, key) => (key.type.endsWith(' string') && !key.format ? quoted(contentOf(bytes, key)) : summary(bytes, key));

/** A node of a tree in one line. */
export function summary(bytes, node) {
  if (node.members) return `${node.type} of ${node.count ?? 'unknown number'}${pairs(node)}`;
  switch (node.type) {
    case 'null': return 'null';
    case 'boolean': return String(node.boolean);
    case 'integer': return `integer ${node.number}`;
    case 'begun': return 'a value begins';
    case 'big number': return `big number ${node.negative ? '-' : ''}${ascii(contentOf(bytes, node)) || '0'}`;
    case 'double': return `double ${ascii(contentOf(bytes, node))}`;
    default: return `${node.type} ${node.format ? `${node.format} ` : ''}${quoted(contentOf(bytes, node))}`;
  }
}

const pairs = (node) => (node.type === 'map' || node.type === 'attribute' ? (node.count === 1n ? ' pair' : ' pairs') : '');
const ascii = (bytes) => String.fromCharCode(...bytes.subarray(0, 400));

/** A node as JSON. Texts that are not UTF-8 are {"base64": ".."}. */
export function toJson(bytes, node) {
  const content = () => {
    const text = contentOf(bytes, node);
    try {
      return decoder.decode(text);
    } catch {
      return { base64: toBase64(text) };
    }
  };
  switch (node.type) {
    case 'null': return null;
    case 'boolean': return node.boolean;
    case 'integer': return Number.isSafeInteger(Number(node.number)) ? Number(node.number) : { integer: String(node.number) };
    case 'simple string': case 'bulk string': return content();
    case 'error': case 'bulk error': return { error: content() };
    case 'double': return { double: content() };
    case 'big number': return { 'big number': (node.negative ? '-' : '') + (content() || '0') };
    case 'verbatim string': return { verbatim: node.format, text: content() };
    case 'array': return node.members.map((member) => toJson(bytes, member));
    case 'map': return { map: inPairs(bytes, node.members) };
    case 'attribute': return { attribute: inPairs(bytes, node.members.slice(0, -1)), value: toJson(bytes, node.members.at(-1)) };
    default: return { [node.type]: (node.members ?? []).map((member) => toJson(bytes, member)) };
  }
}

function inPairs(bytes, members) {
  const found = [];
  for (let at = 0; at + 1 < members.length; at += 2) found.push([toJson(bytes, members[at]), toJson(bytes, members[at + 1])]);
  return found;
}

const TYPES = { 42: '*', 36: '$', 43: '+', 45: '-', 58: ':' };

/** Says in plain words why a byte was refused, from the bytes before it and after it. */
export function explain(bytes, refused, capture) {
  const { cause, at } = refused;
  const byte = bytes[at];
  const shown = byte === undefined ? 'the end' : `"${glyph(byte)}"`;
  switch (cause) {
    case 'Syntax': return syntax(bytes, at, shown, capture);
    case 'Version': return 'This type exists only in RESP3, and the input is read as RESP2. Choose version 3.';
    case 'Double': return 'This is a double, and the limits do not allow doubles. Switch doubles on.';
    case 'NestedPush': return 'A push stands inside another value. Pushes are allowed only between values.';
    case 'Range': return 'This integer does not fit into signed 64 bits.';
    case 'Depth': return 'Aggregates are nested deeper than the limit of depth.';
    case 'Length': return 'This text is longer than the limit of length.';
    case 'Items': return 'This aggregate has more members than the limit of items.';
    case 'Total': return 'This value cannot end within the limit of total bytes.';
    case 'Streamed': return 'This string or aggregate is streamed, and the limits do not allow streamed forms.';
    default: return `The cause is ${cause}.`;
  }
}

function syntax(bytes, at, shown, capture) {
  const before = bytes.subarray(Math.max(0, at - 24), at);
  const head = String.fromCharCode(...bytes.subarray(capture.begun, Math.min(capture.begun + 8, bytes.length)));
  if (at === capture.begun) {
    if (/^[A-Za-z]{2,}/.test(head)) return `A value cannot begin with ${shown}. This looks like an inline command, or like another protocol. A command is an array of bulk strings, such as *1\\r\\n$4\\r\\nPING\\r\\n.`;
    if (bytes[at] === 0x16 && bytes[at + 1] === 3) return 'These bytes begin a TLS connection. The server expects RESP without TLS.';
    return `A value cannot begin with ${shown}. It begins with one of + - : $ * and, in version 3, _ # , ( ! = % ~ | >.`;
  }
  if (bytes[at - 1] === 13) return `A CR must be followed by LF, and here is ${shown}.`;
  if (bytes[at] === 10) return 'This LF has no CR before it. Each line ends with CR LF.';
  const length = lengthBefore(bytes, at);
  if (length !== null) return `The content should end here: its head gives ${length} bytes. CR LF was expected, and here is ${shown}.`;
  if (/[$*%~|>!=;][0-9]*$/.test(String.fromCharCode(...before))) return `A digit or CR was expected in this length, and here is ${shown}.`;
  if (/[:][+-]?[0-9]*$/.test(String.fromCharCode(...before))) return `A digit or CR was expected in this number, and here is ${shown}.`;
  if (TYPES[bytes[at - 1]] === undefined && bytes[at - 1] === 10) return `A value was expected here, and ${shown} begins no value.`;
  return `No valid value has ${shown} here.`;
}

// The length of a bulk string whose content ends just before `at`.
function lengthBefore(bytes, at) {
  const text = String.fromCharCode(...bytes.subarray(Math.max(0, at - 4096), at));
  const heads = [...text.matchAll(/[$!=]([0-9]+)\r\n/g)];
  for (const head of heads.reverse()) {
    if (text.length - (head.index + head[0].length) === Number(head[1])) return Number(head[1]);
  }
  return null;
}
