// The card line as fields.

import { element } from "./lists.mjs";

// tools/names: card_line
// name, least, greatest, what it is; the last may be left out
const NUMBERS = [
  ["lines", 1, 64, "lines of the card"],
  ["terminals", 1, 8, "TEIs on each line"],
  ["K", 1, 127, "the window of call control (clause 5.9.5)"],
  ["queue", 1, 127, "contents that wait on each link, sent or unsent: at least K and K16"],
  ["unit queue", 1, 16, "unit data that wait on each line"],
  ["control", 2, 16, "control frames on each link"],
  ["slots", 1, 8192, "contents on the whole card"],
  ["N201", 8, 260, "octets of an information field at most (clause 5.9.3)"],
  ["N200", 0, 10, "how often a command is repeated (clause 5.9.2)"],
  ["K16", 1, 127, "the window of the second service; if it is left out, it is K"],
];
// numbers that stand after a word: the word, and the same
const AFTER = [
  ["sapi", "SAPI", 1, 62, "the SAPI of the second service; if it is left out, it is 16"],
];
// words that may stand after the numbers, and how many words may follow each
const ENDINGS = [
  ["user", [0, 1]],
  ["sapi", [1]],
  ["annex-b", [0]],
];
const SIDE = "user";
const READING = "annex-b";
// tools/names: end
const KINDS = [
  ["card", "octets"],
  ["frames", "whole frames"],
];
const TERMINAL = "terminal";
const SIDES = [
  ["", "the network's"],
  [SIDE, "the user's: a trunk's end"],
  [TERMINAL, "the user's: a terminal"],
];
const READINGS = [
  ["", "the profile's"],
  [READING, "annex B's"],
];
export const USUAL = "card 1 8 7 8 4 4 64 260 3";

/** The numbers of a card line's words, and what follows each ending that is there. It is read from its end. */
function takenApart(words) {
  const found = {};
  let numbers = words;
  for (const [word, counts] of [...ENDINGS].reverse()) {
    const count = counts.find((it) => numbers.at(-1 - it) === word);
    if (count === undefined) continue;
    found[word] = numbers.slice(numbers.length - count);
    numbers = numbers.slice(0, numbers.length - count - 1);
  }
  return { numbers, found };
}

/** The card line of a script: its number and words; null where its first line is none. */
export function cardLineIn(script) {
  let number = 1;
  for (let begin = 0; begin < script.length; number += 1) {
    const found = script.indexOf("\n", begin);
    const end = found < 0 ? script.length : found;
    const text = script.slice(begin, end);
    if (text !== "" && !text.startsWith("#")) {
      const words = text.split(" ");
      const isCard = ["card", "frames"].includes(words[0]) && text.length < 200;
      return isCard ? { number, begin, end, words } : null;
    }
    begin = end + 1;
  }
  return null;
}

function numberField(name, least, most) {
  const it = document.createElement("input");
  Object.assign(it, { type: "number", min: least, max: most, name, inputMode: "numeric" });
  return it;
}

/** Shows a number in its field, except while somebody writes there. */
function showIn(input, word = "") {
  if (document.activeElement !== input) input.value = /^[0-9]+$/.test(word) ? String(Number(word)) : "";
}

function choice(name, options) {
  const it = document.createElement("select");
  it.name = name;
  for (const [value, words] of options) it.append(new Option(words, value));
  return it;
}

/** A form for the card line. What is changed in it is told as the line's new text. */
export class Card {
  constructor(form, summary, onChanged) {
    this.form = form;
    this.summary = summary;
    this.kind = choice("kind", KINDS);
    this.side = choice("side", SIDES);
    this.numbers = NUMBERS.map(([name, least, most]) => numberField(name, least, most));
    this.after = AFTER.map(([, name, least, most]) => numberField(name, least, most));
    this.seed = numberField("seed", 0, 65535);
    this.field("between card and lines", "whether octets or whole frames go", this.kind);
    this.field("side", "whose side of its lines the card is", this.side);
    this.field("seed", "a terminal's first reference number: 0 to 65535 (clause 5.3.2)", this.seed);
    NUMBERS.forEach(([name, least, most, words], at) => this.field(name, `${words}: ${least} to ${most}`, this.numbers[at]));
    AFTER.forEach(([, name, least, most, words], at) => this.field(name, `${words}: ${least} to ${most}`, this.after[at]));
    this.reading = choice("rows", READINGS);
    this.field("rows", "which rows of the tables hold where readers of the standard differ", this.reading);
    form.addEventListener("change", () => onChanged(this.text()));
    form.addEventListener("submit", (event) => event.preventDefault());
  }

  field(name, words, input) {
    const label = element("label", input.tagName === "SELECT" ? "is-wide" : "", name);
    label.title = words;
    input.title = words;
    label.append(input);
    this.form.append(label);
  }

  text() {
    const numbers = this.numbers.map((it) => it.value || "0");
    if (!this.numbers.at(-1).value) numbers.pop();
    const side = this.side.value === TERMINAL ? `user ${this.seed.value || "0"}` : this.side.value;
    const after = this.after.map((it, at) => (it.value ? `${AFTER[at][0]} ${it.value}` : ""));
    return [this.kind.value, ...numbers, side, ...after, this.reading.value].filter((it) => it !== "").join(" ");
  }

  /** Shows the card line of a script. */
  show(found) {
    this.form.classList.toggle("is-none", !found);
    const [kind, ...words] = found ? found.words : USUAL.split(" ");
    const { numbers, found: ended } = takenApart(words);
    this.kind.value = kind;
    this.reading.value = READING in ended ? READING : "";
    this.after.forEach((it, at) => showIn(it, ended[AFTER[at][0]]?.[0]));
    const isUser = SIDE in ended;
    const [seed] = isUser ? ended[SIDE] : [];
    showIn(this.seed, seed);
    this.side.value = seed === undefined ? (isUser ? SIDE : "") : TERMINAL;
    this.seed.parentElement.hidden = seed === undefined;
    this.numbers.forEach((it, at) => showIn(it, numbers[at]));
    const what = kind === "card" ? "octets" : "whole frames";
    const who = seed === undefined ? `the ${isUser ? "user" : "network"}'s side` : "a terminal";
    this.summary.textContent = found ? `for ${what}, ${who}` : "the script has no card line yet";
  }
}
