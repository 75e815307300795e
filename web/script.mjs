// Scripts, as docs/FORMAT.md has them. The program judges a line; this reads those that it can take apart, as
// tools/vithrynel/script.py does.

const LONGEST_LINE = 4096;
const LONGEST_WAIT = 3600000;
const LINE_FEED = 10;
export const USUAL_SAPI = "16"; // of the second service
const OCTETS = /^(rx|in) ([0-9]+) (-|(?:[0-9A-Fa-f]{2})*)$/;
const WAIT = /^wait ([0-9]+)$/;
const TIMERS = /^timers 0*([1-9][0-9]*) 0*([1-9][0-9]*) 0*([1-9][0-9]*)(?: 0*([1-9][0-9]*))?$/;
// tools/names: card_wide
const CARD_WIDE = ["card", "frames", "wait", "timers", "stored", "losses", "save", "restore"];
// tools/names: end

/** The octets of digits. */
export function octetsIn(digits) {
  const octets = new Uint8Array(digits.length >> 1);
  for (let at = 0; at < octets.length; at += 1) octets[at] = parseInt(digits.slice(2 * at, 2 * at + 2), 16);
  return octets;
}

/** A line of a script. `text` has a sign for each octet. */
export class Line {
  constructor(number, octets) {
    this.number = number;
    this.octets = octets;
    this.text = "";
    for (let at = 0; at < octets.length; at += 8192) this.text += String.fromCharCode(...octets.subarray(at, at + 8192));
  }

  words() {
    return this.text.split(" ");
  }

  word() {
    return this.words()[0];
  }

  isComment() {
    return this.text.startsWith("#");
  }

  isSkipped() {
    return this.text === "" || this.isComment();
  }

  /** The line of the card that it is about; null where it is about none. */
  about() {
    const words = this.words();
    const isCardWide = this.isSkipped() || CARD_WIDE.includes(words[0]);
    return isCardWide || words.length < 2 || !/^[0-9]+$/.test(words[1]) ? null : Number(words[1]);
  }

  /** Of `rx` and `in` the word, the line of the card and the octets. */
  brings() {
    const found = this.text.length <= LONGEST_LINE ? OCTETS.exec(this.text) : null;
    return found && { word: found[1], about: Number(found[2]), octets: octetsIn(found[3] === "-" ? "" : found[3]) };
  }

  /** Of `timers` the three or four lengths, in milliseconds. */
  lengths() {
    const found = this.text.length <= LONGEST_LINE ? TIMERS.exec(this.text) : null;
    return found ? found.slice(1).filter((it) => it !== undefined).map(Number) : [];
  }

  /** Whether it is a card line whose card is the user's side. */
  isOfUser() {
    return this.isCard() && this.words().includes("user");
  }

  /** Whether it is one whose card is a terminal: the seed stands after `user`. */
  isOfTerminal() {
    const words = this.words();
    return this.isOfUser() && /^[0-9]+$/.test(words[words.indexOf("user") + 1] ?? "");
  }

  /** The SAPI of the second service that a card line has. */
  sapi() {
    const words = this.words();
    const found = this.isCard() && words.includes("sapi") ? words[words.indexOf("sapi") + 1] : "";
    return /^[0-9]+$/.test(found ?? "") ? found.replace(/^0+(?=.)/, "") : USUAL_SAPI;
  }

  isCard() {
    return ["card", "frames"].includes(this.word());
  }

  /** Of `wait` the milliseconds; else null. */
  waits() {
    const found = this.text.length <= LONGEST_LINE ? WAIT.exec(this.text) : null;
    return found && Number(found[1]) <= LONGEST_WAIT ? Number(found[1]) : null;
  }
}

/** The lines of a script, each ended by a line feed, which the last may lack; of the first so many. */
export function linesOf(script, most = Infinity) {
  const lines = [];
  for (let begin = 0; begin < script.length && lines.length < most; ) {
    const found = script.indexOf(LINE_FEED, begin);
    const end = found < 0 ? script.length : found;
    lines.push(new Line(lines.length + 1, script.subarray(begin, end)));
    begin = end + 1;
  }
  return lines;
}
