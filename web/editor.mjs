// The script with its line numbers, and bands behind lines that are told of: the fault, the caret, how far it is played.

const LINE_HEIGHT = 20; // pixels, as page.css has it

/** The script as the user writes it. Lines count from 1. */
export class Editor {
  constructor(text, gutter, bands) {
    this.text = text;
    this.gutter = gutter;
    this.bands = bands;
    this.marks = { fault: null, here: null, end: null };
    this.height = 0; // of the text as it was drawn last
    text.addEventListener("scroll", () => this.draw());
    new ResizeObserver(() => this.resized()).observe(text);
  }

  get value() {
    return this.text.value;
  }

  set value(script) {
    this.text.value = script;
    this.text.setSelectionRange(0, 0);
    this.text.scrollTo(0, 0);
    this.counted = null;
    this.draw();
  }

  /** How many lines there are: the last is empty where the script ends with a line feed. */
  count() {
    if (this.counted?.of !== this.text.value) this.counted = { of: this.text.value, lines: lineOf(this.text.value, Infinity) };
    return this.counted.lines;
  }

  /** The line of the caret. */
  line() {
    return lineOf(this.text.value, this.text.selectionStart);
  }

  /** Marks lines: `fault` with its words, `here` and `end`. */
  mark(marks) {
    Object.assign(this.marks, marks);
    this.draw();
  }

  /** Brings a line into view, with the caret at its beginning. */
  show(line, isToFocus) {
    const begin = beginOf(this.text.value, line);
    const found = this.text.value.indexOf("\n", begin);
    if (isToFocus) this.text.focus({ preventScroll: true });
    this.text.setSelectionRange(begin, found < 0 ? this.text.value.length : found);
    const top = (line - 1) * LINE_HEIGHT;
    const { scrollTop, clientHeight } = this.text;
    if (top < scrollTop || top + 2 * LINE_HEIGHT > scrollTop + clientHeight) {
      this.text.scrollTo(0, Math.max(0, top - clientHeight / 3));
    }
    this.draw();
  }

  /** The line that is being written stays in view as the verdict below takes more room. */
  resized() {
    if (document.activeElement === this.text) {
      const bottom = this.line() * LINE_HEIGHT;
      const { scrollTop, clientHeight } = this.text;
      const isCovered = bottom > scrollTop + clientHeight && bottom <= scrollTop + this.height;
      if (isCovered) this.text.scrollTo(this.text.scrollLeft, bottom - clientHeight);
    }
    this.height = this.text.clientHeight;
    this.draw();
  }

  /** Puts another text in place of some, so that the browser can take it back. */
  replace(begin, end, words) {
    this.text.focus({ preventScroll: true });
    this.text.setSelectionRange(begin, end);
    if (!document.execCommand("insertText", false, words)) {
      this.text.setRangeText(words, begin, end, "end");
      this.text.dispatchEvent(new Event("input"));
    }
  }

  /** The line at a height of the gutter. */
  lineAt(y) {
    return Math.min(this.count(), Math.floor((y + this.text.scrollTop) / LINE_HEIGHT) + 1);
  }

  draw() {
    const top = this.text.scrollTop;
    const first = Math.floor(top / LINE_HEIGHT) + 1;
    const last = Math.min(this.count(), first + Math.ceil(this.text.clientHeight / LINE_HEIGHT));
    const numbers = [];
    for (let line = first; line <= last; line += 1) {
      const it = document.createElement("span");
      it.textContent = String(line);
      it.style.top = `${(line - 1) * LINE_HEIGHT - top}px`;
      it.classList.toggle("is-faulty", this.marks.fault?.line === line);
      it.classList.toggle("is-here", this.marks.here === line);
      it.classList.toggle("is-beyond", this.marks.end !== null && line > this.marks.end);
      numbers.push(it);
    }
    this.gutter.replaceChildren(...numbers);
    const { fault, here, end } = this.marks;
    const bands = [];
    if (here) bands.push(this.band("here", here, ""));
    if (end) bands.push(this.band("end", end, ""));
    if (fault?.line) bands.push(this.band("fault", fault.line, fault.words));
    this.bands.replaceChildren(...bands);
  }

  band(name, line, words) {
    const it = document.createElement("div");
    it.className = `band ${name}`;
    it.style.top = `${(line - 1) * LINE_HEIGHT - this.text.scrollTop}px`;
    it.textContent = words;
    return it;
  }
}

/** The number of the line at a place of a text. */
export function lineOf(text, place) {
  let line = 1;
  for (let at = text.indexOf("\n"); at >= 0 && at < place; at = text.indexOf("\n", at + 1)) line += 1;
  return line;
}

/** Where a line of a text begins; the text's end where it has no such line. */
export function beginOf(text, line) {
  let begin = 0;
  for (let at = 1; at < line; at += 1) {
    const found = text.indexOf("\n", begin);
    if (found < 0) return text.length;
    begin = found + 1;
  }
  return begin;
}
