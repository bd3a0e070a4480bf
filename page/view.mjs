// The page: fields, the picture of the bytes, the tree, the cut and the conversation.
import { hasMemory64, load, STANDARD } from './library.mjs';
import { BYTE, Capture, index, nodeAt, rowsOf } from './capture.mjs';
import { cell, explain, fromBase64, fromEscapes, fromHex, keyText, named, summary, toBase64, toEscapes, toJson } from './text.mjs';
import { converse } from './conversation.mjs';
import { Rows } from './rows.mjs';
import { EXAMPLES, TALK } from './examples.mjs';

const FORMS = { escapes: fromEscapes, hex: fromHex, base64: fromBase64 };
const CLASSES = Object.fromEntries(Object.entries(BYTE).map(([name, number]) => [number, name]));
// Larger captures are read by a worker, and are not shown in the field.
const SMALL = 1_000_000;
const MOST_IN_LINK = 16_384;
const MOST_LINES = 50_000;
// The room for a scroll bar, in pixels.
const SCROLL_BAR = 20;
// The values of a shorter input are open at first.
const MOST_OPEN = 4096;

const $ = (id) => document.getElementById(id);

/** Makes an element with a class and children. */
function element(name, className, ...children) {
  const made = document.createElement(name);
  made.className = className;
  made.append(...children);
  return made;
}

const plural = (count, word) => `${count.toLocaleString('en')} ${word}${count === 1 ? '' : 's'}`;

class Page {
  constructor(module, library) {
    this.module = module;
    this.library = library;
    this.bytes = new Uint8Array();
    this.form = 'escapes';
    this.cut = 0;
    this.here = 0;
    this.lit = null;
    this.opened = new Map();
    this.picture = new Rows($('bytes'), (row) => this.drawBytes(row));
    this.picture.drawing = (first, last) => this.readKinds(first, last);
    this.tree = new Rows($('tree'), (row) => this.drawNode(row));
    this.listen();
  }

  get settings() {
    const limits = { doubles: $('doubles').checked, streamed: $('streamed').checked };
    for (const name of ['depth', 'length', 'total', 'items']) limits[name] = Math.floor(Number($(name).value)) || 0;
    return { version: Number($('version').value), limits };
  }

  // How many columns a row of the picture has: as many as fit, from 16 to 64.
  get width() {
    const row = $('bytes').appendChild(element('div', 'row', element('span', 'place'), element('span', 'byte', '0'.repeat(10))));
    const [place, ten] = Array.from(row.children, (it) => it.getBoundingClientRect().width);
    row.remove();
    return Math.min(64, Math.max(16, Math.floor((10 * ($('bytes').clientWidth - place - SCROLL_BAR)) / ten)));
  }

  listen() {
    $('example').append(new Option('Choose one', ''), ...EXAMPLES.map(({ name }, at) => new Option(name, at)));
    $('example').onchange = () => $('example').value && this.take(fromEscapes(escaped(EXAMPLES[$('example').value].text)));
    $('text').oninput = () => this.readField();
    for (const id of ['version', 'doubles', 'streamed', 'depth', 'length', 'total', 'items']) $(id).onchange = () => this.read();
    for (const tab of document.querySelectorAll('[data-form]')) tab.onclick = () => this.choose(tab.dataset.form);
    $('file').onchange = () => $('file').files[0] && this.open($('file').files[0]);
    $('link').onclick = () => this.copyLink();
    $('theme').onclick = () => this.setTheme(document.documentElement.dataset.theme === 'dark' ? 'light' : 'dark');
    $('cut').oninput = () => this.setCut(Number($('cut').value));
    $('json').onclick = () => this.copyJson();
    for (const id of ['sent', 'received']) $(id).oninput = () => this.talk();
    this.listenToPanes();
    document.ondragover = (event) => { event.preventDefault(); document.body.classList.add('dropping'); };
    document.ondragleave = () => document.body.classList.remove('dropping');
    document.ondrop = (event) => {
      event.preventDefault();
      document.body.classList.remove('dropping');
      if (event.dataTransfer.files[0]) this.open(event.dataTransfer.files[0]);
    };
  }

  listenToPanes() {
    $('bytes').onmousemove = ({ target }) => target.dataset.byte && this.light(this.nodeAt(Number(target.dataset.byte)));
    $('bytes').onclick = ({ target }) => target.dataset.byte && this.goTo(Number(target.dataset.byte), true);
    $('bytes').onkeydown = (event) => this.moveInBytes(event);
    $('tree').onmousemove = ({ target }) => this.light(this.lineOf(target)?.node);
    $('tree').onclick = ({ target }) => this.chooseLine(this.lineOf(target), target.classList.contains('twist'));
    $('tree').onkeydown = (event) => this.moveInTree(event);
  }

  setTheme(theme) {
    document.documentElement.dataset.theme = theme;
  }

  // Input.

  choose(form) {
    this.form = form;
    for (const tab of document.querySelectorAll('[data-form]')) tab.setAttribute('aria-selected', String(tab.dataset.form === form));
    this.fillField();
  }

  fillField() {
    const large = this.bytes.length > SMALL / 10;
    $('text').classList.toggle('hidden', large);
    $('file-name').classList.toggle('hidden', !large);
    $('file-name').textContent = `${this.name ?? 'The input'} has ${plural(this.bytes.length, 'byte')}.`;
    if (large) return;
    const hex = Array.from(this.bytes, (byte) => byte.toString(16).padStart(2, '0')).join(' ');
    $('text').value = { escapes: () => toEscapes(this.bytes), hex: () => hex, base64: () => btoa(String.fromCharCode(...this.bytes)) }[this.form]();
  }

  readField() {
    try {
      this.bytes = FORMS[this.form]($('text').value);
    } catch (error) {
      return this.say(error.message, true);
    }
    this.name = null;
    return this.read();
  }

  take(bytes, name = null) {
    this.bytes = bytes;
    this.name = name;
    this.fillField();
    return this.read();
  }

  async open(file) {
    await this.take(new Uint8Array(await file.arrayBuffer()), file.name);
  }

  // Reading.

  async read() {
    const { bytes, settings, width } = this;
    this.worker?.terminate();
    try {
      const found = bytes.length > SMALL
        ? await this.readBeside(bytes, settings, width)
        : { indexed: index(this.library, bytes, settings), rows: rowsOf(bytes, width) };
      this.capture = new Capture(this.library, bytes, found.indexed);
      this.starts = found.rows;
    } catch (error) {
      return this.say(error.message === 'BadLimits' ? 'A limit is outside its range.' : `The input was not read: ${error.message}`, true);
    }
    this.opened.clear();
    this.chosen = null;
    this.lit = null;
    this.here = this.capture.refused?.at ?? 0;
    this.cut = bytes.length;
    $('cut').max = bytes.length;
    this.picture.set(this.starts.length);
    this.tree.set(this.capture.count);
    this.judge();
    this.setCut(bytes.length);
    if (bytes.length <= MOST_OPEN) for (let value = 0; value < this.capture.count; value++) this.toggle(value);
    if (this.capture.refused) this.goTo(this.capture.refused.at, false);
    document.body.dataset.ready = String(Number(document.body.dataset.ready ?? 0) + 1);
    return undefined;
  }

  // Reads a large capture in a worker, with a bar for its progress.
  readBeside(bytes, settings, width) {
    const source = new Blob([$('worker').textContent], { type: 'text/javascript' });
    this.worker = new Worker(URL.createObjectURL(source));
    $('progress').classList.remove('hidden');
    this.say(`Reading ${plural(bytes.length, 'byte')}.`);
    return new Promise((resolve, reject) => {
      this.worker.onmessage = ({ data }) => {
        if (data.read !== undefined) $('progress').value = data.read / bytes.length;
        else if (data.error) reject(new Error(data.error));
        else resolve(data);
      };
      this.worker.onerror = (event) => reject(new Error(event.message || 'the worker did not start'));
      this.worker.postMessage({ module: this.module, bytes, settings, width });
    }).finally(() => {
      $('progress').classList.add('hidden');
      this.worker.terminate();
    });
  }

  // Says how the input ends.
  judge() {
    const { refused, truncated, ends, begun, length } = this.capture;
    const values = plural(ends.length, 'complete value');
    if (refused) {
      const where = `Byte ${refused.at.toLocaleString('en')} is refused: ${refused.cause}.`;
      const valid = `Valid here: ${named(this.capture.valid(refused.at))}.`;
      this.say(`${where} ${explain(this.bytes, refused, this.capture)} ${valid} Before it: ${values}.`, true);
    } else if (truncated) {
      const { needed } = this.capture.known(length);
      this.say(`${values}. The input ends inside a value that begins at byte ${begun.toLocaleString('en')}. At least ${plural(needed, 'more byte')} ${needed === 1 ? 'is' : 'are'} needed.`);
    } else this.say(`${values} in ${plural(length, 'byte')}.`);
  }

  say(text, bad = false) {
    $('verdict').className = bad ? 'verdict bad' : 'verdict';
    $('verdict').replaceChildren(element('p', '', text));
  }

  // The cut.

  setCut(cut) {
    this.cut = cut;
    const known = this.capture.known(cut);
    $('cut').value = cut;
    $('cut-place').textContent = `${cut.toLocaleString('en')} of ${plural(this.bytes.length, 'byte')} have arrived`;
    const facts = known.cause
      ? [['Complete values', known.values], ['Refused', known.cause]]
      : [['Complete values', known.values], ['Bytes of the next value', known.taken], ['Open aggregates', known.depth], ['At least missing', known.needed], ['Valid next', named(this.capture.valid(cut))]];
    $('known').replaceChildren(...facts.map(([name, fact]) =>
      element('div', '', element('dt', '', name), element('dd', '', fact.toLocaleString('en')))));
    this.picture.now();
  }

  // The picture of the bytes.

  readKinds(first, last) {
    this.kindsFrom = this.starts[first] ?? 0;
    this.kinds = this.capture.kinds(this.kindsFrom, this.starts[last] ?? this.bytes.length, this.cut);
    this.valueHere = this.capture.valueAt(this.kindsFrom);
  }

  drawBytes(row) {
    const from = this.starts[row], to = this.starts[row + 1] ?? this.bytes.length;
    const drawn = element('div', 'row', element('span', 'place', from.toLocaleString('en')));
    if (this.capture.valueAt(from) % 2) drawn.classList.add('other');
    for (let byte = from; byte < to; byte++) {
      const kind = CLASSES[this.kinds[byte - this.kindsFrom]];
      const { text, isHex } = cell(this.bytes[byte]);
      const span = element('span', `byte ${kind}${isHex ? ' hex' : ''}`, text);
      span.dataset.byte = byte;
      span.title = `byte ${byte}: ${this.bytes[byte]}, 0x${this.bytes[byte].toString(16).padStart(2, '0')}`;
      if (this.lit && this.lit.from <= byte && byte < this.lit.to) span.classList.add('lit');
      if (byte === this.here) span.classList.add('here');
      drawn.append(span);
    }
    return drawn;
  }

  rowOf(byte) {
    let low = 0, high = this.starts.length;
    while (high - low > 1) {
      const middle = (low + high) >> 1;
      if (this.starts[middle] <= byte) low = middle;
      else high = middle;
    }
    return low;
  }

  goTo(byte, alsoInTree) {
    this.here = Math.min(Math.max(0, byte), Math.max(0, this.bytes.length - 1));
    if (alsoInTree) this.showInTree(this.nodeAt(this.here), this.capture.valueAt(this.here));
    this.picture.show(this.rowOf(this.here));
    this.picture.now();
  }

  moveInBytes(event) {
    const row = this.rowOf(this.here), offset = this.here - this.starts[row];
    const vertical = (by) => Math.min((this.starts[row + by] ?? this.here) + offset, (this.starts[row + by + 1] ?? this.bytes.length) - 1);
    const moves = {
      ArrowLeft: () => this.here - 1, ArrowRight: () => this.here + 1, ArrowUp: () => vertical(-1), ArrowDown: () => vertical(1),
      Home: () => 0, End: () => this.bytes.length - 1,
    };
    if (event.key === 'Enter') this.goTo(this.here, true);
    else if (moves[event.key]) {
      this.goTo(moves[event.key](), false);
      this.light(this.nodeAt(this.here));
    } else return;
    event.preventDefault();
  }

  nodeAt(byte) {
    const value = this.capture.valueAt(byte);
    if (value >= this.capture.count) return null;
    return nodeAt(this.opened.get(value)?.root ?? this.capture.tree(value), byte);
  }

  light(node) {
    if (!node || (this.lit?.from === node.from && this.lit?.to === node.to)) return;
    this.lit = node;
    this.picture.now();
    this.tree.now();
  }

  // The tree.

  // The value and the line within it that a row of the tree shows.
  placeOf(row) {
    let before = 0;
    for (const value of [...this.opened.keys()].sort((a, b) => a - b)) {
      const { lines } = this.opened.get(value);
      const at = value + before;
      if (row < at) break;
      if (row < at + lines.length) return { value, line: row - at };
      before += lines.length - 1;
    }
    return { value: row - before, line: 0 };
  }

  // The row of a line of a value.
  rowOfLine(value, line) {
    let row = value + line;
    for (const [other, { lines }] of this.opened) if (other < value) row += lines.length - 1;
    return row;
  }

  lineAt(row) {
    const { value, line } = this.placeOf(row);
    const opened = this.opened.get(value);
    if (opened) return { value, row, ...opened.lines[line] };
    return { value, row, depth: 0, node: this.capture.tree(value, 2000), closed: true };
  }

  lineOf(target) {
    const row = target.closest?.('.node')?.dataset.row;
    return row === undefined ? null : this.lineAt(Number(row));
  }

  drawNode(row) {
    const { value, depth, node, key, closed } = this.lineAt(row);
    const opens = node.members?.length > 0;
    const isCut = closed ? value >= this.capture.ends.length : node.whole === false;
    const twist = element('span', 'twist', opens ? (closed || node.isClosed ? '▸' : '▾') : '');
    const text = `${key ? `${keyText(this.bytes, key)} → ` : ''}${summary(this.bytes, node)}${isCut ? ' (incomplete)' : ''}`;
    const drawn = element('div', 'node', twist, element('span', 'what', text));
    const { to } = closed ? this.capture.bounds(value) : node;
    drawn.append(element('span', 'where', `${node.from.toLocaleString('en')}, ${plural(to - node.from, 'byte')}`));
    drawn.style.paddingLeft = `${2 * depth}ch`;
    drawn.dataset.row = row;
    drawn.setAttribute('role', 'treeitem');
    drawn.setAttribute('aria-level', depth + 1);
    if (opens) drawn.setAttribute('aria-expanded', String(!(closed || node.isClosed)));
    if (isSame(this.lit, key) || (this.lit?.from === node.from && (this.lit.to === node.to || closed))) drawn.classList.add('lit');
    if (isSame(this.chosen, node) || isSame(this.chosen, key)) drawn.classList.add('here');
    return drawn;
  }

  // Flattens the open nodes of a value into lines.
  linesOf(root) {
    const lines = [];
    const add = ({ node, key }, depth) => {
      if (lines.length >= MOST_LINES) return;
      lines.push({ node, key, depth });
      if (node.members && !node.isClosed) for (const line of linesOfMembers(node)) add(line, depth + 1);
    };
    add({ node: root }, 0);
    return lines;
  }

  toggle(value, node = null) {
    const opened = this.opened.get(value);
    if (!opened) {
      const root = this.capture.tree(value);
      if (root.members?.length) this.opened.set(value, { root, lines: this.linesOf(root) });
    } else if (!node || node === opened.root) this.opened.delete(value);
    else {
      node.isClosed = !node.isClosed;
      opened.lines = this.linesOf(opened.root);
    }
    let more = 0;
    for (const { lines } of this.opened.values()) more += lines.length - 1;
    this.tree.set(this.capture.count + more);
  }

  chooseLine(line, twists) {
    if (!line) return;
    if (twists) this.toggle(line.value, line.closed ? null : line.node);
    this.chosen = line.node;
    this.light(line.node);
    this.here = line.node.from;
    this.picture.show(this.rowOf(this.here));
    this.picture.now();
    this.tree.now();
  }

  moveInTree(event) {
    const row = this.chosenRow ?? -1;
    const moves = { ArrowDown: 1, ArrowUp: -1, PageDown: 20, PageUp: -20 };
    if (moves[event.key]) this.chooseRow(row + moves[event.key]);
    else if (event.key === 'ArrowRight' || event.key === 'ArrowLeft') {
      const line = this.lineAt(Math.max(0, row));
      const isClosed = Boolean(line.closed || line.node.isClosed);
      if (line.node.members && isClosed === (event.key === 'ArrowRight')) this.toggle(line.value, line.closed ? null : line.node);
    } else return;
    event.preventDefault();
  }

  chooseRow(row) {
    this.chosenRow = Math.min(Math.max(0, row), this.tree.count - 1);
    this.tree.show(this.chosenRow);
    this.chooseLine(this.lineAt(this.chosenRow), false);
  }

  showInTree(node, value) {
    if (!node) return;
    if (!this.opened.has(value)) this.toggle(value);
    const opened = this.opened.get(value);
    const line = opened ? Math.max(0, opened.lines.findIndex((it) => isSame(node, it.node) || isSame(node, it.key))) : 0;
    const found = opened?.lines[line];
    this.chosen = isSame(node, found?.key) ? found.key : found?.node ?? node;
    this.chosenRow = this.rowOfLine(value, line);
    this.lit = this.chosen;
    this.tree.show(this.chosenRow);
    this.tree.now();
  }

  // Copies.

  // Copies a text. For a moment the button says whether that worked.
  async copy(text, button) {
    let isCopied = true;
    try {
      await navigator.clipboard.writeText(text);
    } catch {
      const field = document.body.appendChild(element('textarea', ''));
      field.value = text;
      field.select();
      isCopied = document.execCommand('copy');
      field.remove();
    }
    button.dataset.name ??= button.textContent;
    button.textContent = isCopied ? 'Copied' : 'Not copied';
    setTimeout(() => { button.textContent = button.dataset.name; }, 1500);
  }

  copyJson() {
    const node = this.chosen ?? (this.capture.count ? this.capture.tree(0) : null);
    if (node) this.copy(JSON.stringify(toJson(this.bytes, node), null, 2), $('json'));
  }

  copyLink() {
    if (this.bytes.length > MOST_IN_LINK) return this.say(`A link holds at most ${plural(MOST_IN_LINK, 'byte')}.`, true);
    const { version, limits } = this.settings;
    const words = [`b=${toBase64(this.bytes)}`];
    if (version !== 3) words.push(`version=${version}`);
    for (const [name, limit] of Object.entries(limits)) if (limit !== STANDARD[name]) words.push(`${name}=${limit}`);
    history.replaceState(null, '', `#${words.join('&')}`);
    return this.copy(location.href, $('link'));
  }

  /** Takes the bytes and the settings of the address. Returns false if it has none. */
  fromAddress() {
    const words = new URLSearchParams(location.hash.slice(1));
    if (!words.has('b')) return false;
    if (words.has('version')) $('version').value = words.get('version');
    for (const name of ['doubles', 'streamed']) if (words.has(name)) $(name).checked = words.get(name) === 'true';
    for (const name of ['depth', 'length', 'total', 'items']) if (words.has(name)) $(name).value = words.get(name);
    this.take(fromBase64(words.get('b')));
    return true;
  }

  // The conversation.

  talk() {
    let rows;
    try {
      const { limits } = this.settings;
      ({ rows } = converse(this.library, fromEscapes($('sent').value), fromEscapes($('received').value), limits));
    } catch (error) {
      rows = [{ command: '', reply: '', note: error.message }];
    }
    $('rows').replaceChildren(...rows.map(({ number = '', command, reply, note = '' }) => {
      const row = element('tr', command || note === 'push' ? '' : 'alone');
      row.append(...[number, command, reply, note].map((text) => element('td', '', String(text))));
      return row;
    }));
  }
}

const isSame = (node, other) => Boolean(node && other) && node.from === other.from && node.type === other.type;

// The lines of the members of a node, without those inside of them. A pair has one line, unless its key has members.
function linesOfMembers({ type, members }) {
  if (type !== 'map' && type !== 'attribute') return members.map((node) => ({ node }));
  const lines = [];
  for (let at = 0; at < members.length; at += 2) {
    const [key, node] = [members[at], members[at + 1]];
    if (!node || key.members?.length) lines.push({ node: key }, ...(node ? [{ node }] : []));
    else lines.push({ node, key });
  }
  return lines;
}

const escaped = (text) => text.replace(/\r/g, '\\r').replace(/\n/g, '\\n');

const NO_MEMORY = 'This browser has no 64-bit memory for WebAssembly, which the inspector needs. Chromium and Edge from version 133 on'
  + ' and Firefox from version 134 on have it.';

/** Starts the page with the module that `unpack` returns, or says why it does not start. */
export async function begin(unpack) {
  const asked = new URLSearchParams(location.hash.slice(1)).get('theme');
  document.documentElement.dataset.theme = asked ?? (matchMedia('(prefers-color-scheme: dark)').matches ? 'dark' : 'light');
  try {
    if (!hasMemory64()) throw new Error(NO_MEMORY);
    await start(await unpack());
  } catch (error) {
    const isOld = error.message === NO_MEMORY;
    const text = isOld ? NO_MEMORY : `The module was not loaded: ${error.message}. Get the page again, or make it with ./build page.`;
    $('verdict').className = 'verdict bad';
    $('verdict').replaceChildren(element('p', '', text));
  }
}

async function start(module) {
  const page = new Page(module, await load(module));
  $('sent').value = TALK.sent;
  $('received').value = TALK.received;
  if (!page.fromAddress()) await page.take(fromEscapes(escaped(EXAMPLES[0].text)));
  page.talk();
  window.page = page;
}
