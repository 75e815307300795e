// Long lists of rows that lead to lines of the script: drawn in portions, so that the page stays awake, and gone through
// by the keyboard.

const PORTION = 400; // rows that are drawn at a time
const MOST = 5000; // rows that are drawn unasked
const USUAL_HEIGHT = 34; // pixels of a row that is out of sight

/** An element with a class and a text. No text becomes markup. */
export function element(name, className, words = "") {
  const it = document.createElement(name);
  it.className = className;
  if (words) it.textContent = words;
  return it;
}

/** A list of rows in a place of the page. */
export class Rows {
  constructor(place, label, drawn, onChosen) {
    this.place = place;
    this.label = label;
    this.drawn = drawn; // draws a row
    this.onChosen = onChosen;
    this.rows = [];
    this.shown = 0;
    this.most = MOST;
    place.setAttribute("role", "listbox");
    place.setAttribute("aria-label", label);
    place.addEventListener("click", ({ target }) => this.choose(target.closest("[data-line]")));
    place.addEventListener("keydown", (event) => this.pressed(event));
  }

  add(rows) {
    for (const row of rows) this.rows.push(row);
    this.go();
  }

  /** Draws what is left, portion by portion. */
  go() {
    if (this.pending || this.isOver) return;
    this.pending = requestAnimationFrame(() => {
      this.pending = 0;
      this.portion();
      if (this.shown < Math.min(this.rows.length, this.most)) this.go();
      else this.whenDrawn?.();
    });
  }

  portion() {
    const end = Math.min(this.rows.length, this.shown + PORTION, this.most);
    if (end > this.shown) {
      const block = element("div", "block");
      block.setAttribute("role", "presentation");
      for (; this.shown < end; this.shown += 1) block.append(this.item(this.rows[this.shown]));
      block.style.containIntrinsicSize = `auto ${USUAL_HEIGHT * block.childElementCount}px`;
      this.place.append(block);
      if (!this.place.querySelector('[tabindex="0"]')) this.place.querySelector("[data-line]")?.setAttribute("tabindex", "0");
    }
    this.more?.remove();
    if (this.shown === this.most && this.rows.length > this.most) this.offer();
  }

  /** A button for the rows that are not drawn unasked. */
  offer() {
    this.more = element("button", "more", `${this.shown} of ${this.rows.length} rows: show more`);
    this.more.type = "button";
    this.more.addEventListener("click", () => {
      this.most += MOST;
      this.go();
    });
    this.place.append(this.more);
  }

  item(row) {
    const it = this.drawn(row);
    it.setAttribute("role", "option");
    it.setAttribute("aria-selected", "false");
    it.dataset.line = row.line;
    it.tabIndex = -1;
    return it;
  }

  choose(item) {
    if (!item) return;
    for (const it of this.place.querySelectorAll('[tabindex="0"]')) it.tabIndex = -1;
    item.tabIndex = 0;
    this.onChosen(Number(item.dataset.line));
  }

  pressed(event) {
    const item = event.target.closest("[data-line]");
    if (!item) return;
    const items = [...this.place.querySelectorAll("[data-line]")];
    const at = items.indexOf(item);
    const to = items[{ ArrowDown: at + 1, ArrowUp: at - 1, Home: 0, End: items.length - 1 }[event.key]];
    if (!to && !["Enter", " "].includes(event.key)) return;
    event.preventDefault();
    if (!to) {
      this.choose(item);
      return;
    }
    item.tabIndex = -1;
    to.tabIndex = 0;
    to.focus();
  }

  /** Marks the rows that a line of the script caused. Returns the first of them. */
  mark(line) {
    for (const it of this.place.querySelectorAll(".is-here")) {
      it.classList.remove("is-here");
      it.setAttribute("aria-selected", "false");
    }
    const found = this.place.querySelectorAll(`[data-line="${Number(line)}"]`);
    for (const it of found) {
      it.classList.add("is-here");
      it.setAttribute("aria-selected", "true");
    }
    return found[0];
  }

  end() {
    this.isOver = true;
    cancelAnimationFrame(this.pending);
  }
}
