// A list of which only the visible rows are in the document.

const HEIGHT = 20;
// The element is as high as its rows, between these heights.
const LOWEST = 160;
const HIGHEST = 440;
// Browsers limit the height of an element, so beyond this height the scroll bar moves in larger steps.
const MOST = 8_000_000;

/** Draws rows of 20 pixels into an element that scrolls. `draw(row)` returns the element of a row. */
export class Rows {
  constructor(element, draw) {
    this.element = element;
    this.draw = draw;
    this.count = 0;
    this.sizer = element.appendChild(document.createElement('div'));
    this.sizer.className = 'sizer';
    this.rows = element.appendChild(document.createElement('div'));
    this.rows.className = 'rows';
    this.waits = false;
    element.addEventListener('scroll', () => this.later());
    new ResizeObserver(() => this.later()).observe(element);
  }

  set(count) {
    this.count = count;
    this.height = Math.min(count * HEIGHT, MOST);
    this.sizer.style.height = `${this.height}px`;
    this.element.style.height = `${Math.min(HIGHEST, Math.max(LOWEST, this.height + 4))}px`;
    this.now();
  }

  get visible() {
    return Math.ceil(this.element.clientHeight / HEIGHT) + 1;
  }

  /** The first visible row. */
  get first() {
    const most = Math.max(1, this.height - this.element.clientHeight);
    const share = Math.min(1, this.element.scrollTop / most);
    return Math.max(0, Math.floor(share * Math.max(0, this.count - this.visible + 2)));
  }

  /** Scrolls until the row is visible. */
  show(row) {
    if (row >= this.first && row < this.first + this.visible - 2) return;
    const most = Math.max(0, this.height - this.element.clientHeight);
    const last = Math.max(1, this.count - this.visible + 2);
    this.element.scrollTop = (Math.max(0, row - 3) / last) * most;
    this.now();
  }

  later() {
    if (this.waits) return;
    this.waits = true;
    requestAnimationFrame(() => {
      this.waits = false;
      this.now();
    });
  }

  now() {
    const { first } = this;
    const drawn = document.createDocumentFragment();
    const last = Math.min(this.count, first + this.visible);
    this.drawing?.(first, last);
    for (let row = first; row < last; row++) drawn.append(this.draw(row));
    this.rows.style.top = `${this.element.scrollTop}px`;
    this.rows.replaceChildren(drawn);
  }
}
