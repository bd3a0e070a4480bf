// Commands and replies of one connection, each reply beside its command by the proved pairing.
import { CAUSES, Pairing, RespError, Scanner, UNPAIRED } from './library.mjs';
import { Capture, contentOf, index } from './capture.mjs';
import { quoted, summary } from './text.mjs';

/** The words of a command: an array of bulk strings. */
function wordsOf(bytes, node) {
  if (node.type !== 'array' || node.members.length === 0) return null;
  if (node.members.some((member) => member.type !== 'bulk string')) return null;
  return node.members.map((member) => contentOf(bytes, member));
}

/**
 * Reads both directions from the beginning of a connection. Returns rows of a command, its reply, or
 * both; a push and a reply that nobody asked for have no command.
 */
export function converse(library, sent, received, limits) {
  const commands = new Capture(library, sent, index(library, sent, { version: 2, limits }));
  const pairing = new Pairing(library);
  const rows = [], byNumber = new Map();
  for (let value = 0; value < commands.ends.length; value++) {
    const words = wordsOf(sent, commands.tree(value));
    const row = { number: '', command: words ? words.map((word) => quoted(word, 60)).join(' ') : 'no command', reply: '' };
    rows.push(row);
    if (!words) row.note = 'no array of bulk strings';
    else queue(pairing, words, row, byNumber);
  }
  return { rows: [...rows, ...readReplies(library, pairing, received, limits, byNumber)], refused: commands.refused };
}

// Counts a command, or notes why its reply cannot be paired.
function queue(pairing, words, row, byNumber) {
  try {
    row.number = pairing.queue(words);
    byNumber.set(row.number, row);
  } catch (error) {
    if (!(error instanceof RespError)) throw error;
    row.note = UNPAIRED[pairing.kind(words)] ?? error.message;
  }
}

// The version of the value that a byte begins, or null if nobody asked for it.
function versionOf(pairing, byte) {
  try {
    return pairing.first(byte);
  } catch (error) {
    if (!(error instanceof RespError)) throw error;
    return null;
  }
}

// Reads the replies, fills the rows of their commands, and returns the rows that have no command.
function readReplies(library, pairing, received, limits, byNumber) {
  const alone = [];
  const scanner = new Scanner(library, 2, limits);
  let at = 0;
  while (at < received.length) {
    const version = versionOf(pairing, received[at]);
    if (version === null) {
      alone.push({ command: '', reply: summaryAt(library, received, at, 3, limits).text, note: 'nobody asked for this reply' });
      at = summaryAt(library, received, at, 3, limits).to;
      continue;
    }
    scanner.begin(version, limits);
    let number = 0, to = at, whole = false;
    const cause = scanner.scan(received, (words, event, place) => {
      number = pairing.take(4 * event) || number;
      to = place + words[event + 6];
      whole = words[event] === 9;
      return !whole;
    }, at);
    const { text } = summaryAt(library, received, at, version, limits);
    const row = number && byNumber.get(number);
    if (row) row.reply = text;
    else alone.push({ command: '', reply: text, note: 'push' });
    if (cause || !whole) {
      (row || alone.at(-1)).note = cause ? `refused: ${CAUSES[cause]}` : 'the input ends inside this reply';
      break;
    }
    at = to;
  }
  return alone;
}

function summaryAt(library, bytes, at, version, limits) {
  const rest = bytes.subarray(at);
  const capture = new Capture(library, rest, index(library, rest, { version, limits }));
  return { text: describe(rest, capture.tree(0)), to: at + capture.bounds(0).to };
}

// A node with its members in one line.
function describe(bytes, node) {
  if (!node.members) return summary(bytes, node);
  const shown = node.members.slice(0, 8).map((member) => describe(bytes, member)).join(', ');
  return `${summary(bytes, node)}: ${shown}${node.members.length > 8 ? ', ..' : ''}`;
}
