// A ladder in the page: the rows of story.mjs, drawn as tools/ladder draws them.

import { BESIDE, COMMENT, CUT, DOWN, FAULT, FROM_THE_LEFT, IN, OUT, PAUSE, REST, UP } from "./story.mjs";
import { element } from "./lists.mjs";

const NAME = /^(.*(?:command|response) )(\w+)( .*)$/; // of a frame in words
const INKS = { [IN]: "blue", [OUT]: "green", [CUT]: "red", [REST]: "soft", [UP]: "violet", [DOWN]: "amber" };
const MOST_DIGITS = 120; // of information that is shown whole

/** Digits, of which the last tell how many octets they are where not all are shown. */
function shortened(digits) {
  return digits.length <= MOST_DIGITS ? digits : `${digits.slice(0, MOST_DIGITS - 20)}… (${digits.length / 2} octets)`;
}

/** The words on an arrow; the name of a frame stands out. */
function wordsOf(row) {
  const it = element("span", "words");
  const found = NAME.exec(row.head);
  if (found) it.append(found[1], element("b", "", found[2]), found[3]);
  else it.append(row.head);
  if (row.info) it.append(" ", element("span", "info", shortened(row.info)));
  return it;
}

/** From whom to whom a row's arrow goes, for who hears the page. */
function wayOf(row, names) {
  const [left, right] = [UP, DOWN].includes(row.kind) ? names.slice(1) : names;
  return FROM_THE_LEFT.includes(row.kind) ? `${left} to ${right}` : `${right} to ${left}`;
}

function arrowOf(row) {
  const ink = row.head.startsWith("refused ") ? "red" : INKS[row.kind];
  const side = FROM_THE_LEFT.includes(row.kind) ? "rightwards" : "leftwards";
  const it = element("span", `arrow ${side} ink-${ink} is-${row.kind}`);
  it.append(wordsOf(row), element("span", "shaft"));
  if (row.meaning) it.append(element("span", "meaning", row.meaning));
  return it;
}

/** Words beside the card: what was lost, given up or dropped, and why, stands out. */
function besideOf(words) {
  return element("span", /^(lost|given-up|dropped)/.test(words) ? "beside ink-red" : "beside", words);
}

/** What a row shows between the other side and the card, and between the card and layer 3. */
function fill(row, link, top) {
  if (row.kind === PAUSE) link.append(element("span", "pass", `${row.head} pass`));
  else if (row.kind === BESIDE) top.append(besideOf(row.head));
  else if ([UP, DOWN].includes(row.kind)) top.append(arrowOf(row));
  else link.append(arrowOf(row));
  if (row.beside) top.append(besideOf(row.beside));
}

/** What draws the rows of a ladder, one after the other; the time stands there where it is another than the latest. */
export function rowDrawer(names) {
  let shown = -1; // the latest time that was shown
  return (row) => {
    const it = element("div", `row kind-${row.kind}`);
    if (row.kind === COMMENT || row.kind === FAULT) {
      it.append(element("span", row.kind, row.head));
      return it;
    }
    const time = element("span", "time", row.kind === PAUSE || row.at === shown ? "" : String(row.at));
    if (row.kind !== PAUSE) shown = row.at;
    const link = element("span", "link");
    const top = element("span", "top");
    fill(row, link, top);
    if (row.kind in INKS) {
      const words = [row.head, row.info, row.meaning, row.beside].filter(Boolean).join(" ");
      it.setAttribute("aria-label", `${wayOf(row, names)}: ${words}`);
    }
    it.append(time, link, top);
    return it;
  };
}

/** The head of a ladder: whose bars these are. */
export function headDrawn(line, names, capture) {
  const it = element("div", "names");
  const title = element("div", "title");
  title.append(element("h2", "", `line ${line}`), capture);
  const bars = element("div", "row bars");
  bars.append(element("span", "time", "ms"));
  const link = element("span", "link");
  link.append(element("b", "", names[0]), element("b", "", names[1]));
  const top = element("span", "top");
  top.append(element("b", "", names[2]));
  bars.append(link, top);
  it.append(title, bars);
  return it;
}
