// What passes on a line of the card, between the other side, the card and layer 3, as rows that a ladder draws: those of
// tools/vithrynel/story.py, each with the number of the script's line that caused it.

import { isDrop } from "./bits.mjs";
import { digits, headOf, meaningOf, read } from "./frames.mjs";
import { USUAL_SAPI } from "./script.mjs";

// How a row is drawn: the arrow between two of the three, or words beside the card.
export const IN = "in"; // between the other side and the card
export const CUT = "cut";
export const REST = "rest";
export const OUT = "out";
export const UP = "up"; // between the card and layer 3
export const DOWN = "down";
export const BESIDE = "beside";
const OF_CARD = ["stored", "image"]; // what lines of a transcript begin with that are about the whole card
export const COMMENT = "comment";
export const PAUSE = "pause";
export const FAULT = "fault";
export const FROM_THE_LEFT = [IN, CUT, REST, UP];
// The three, from left to right, if the card is the network's side, a trunk's end, or a terminal.
export const NETWORK_SIDE = ["terminal", "exchange", "layer 3"];
export const USER_SIDE = ["exchange", "user", "layer 3"];
export const TERMINAL_SIDE = ["exchange", "terminal", "layer 3"];

const FLAG_OCTET = 0x7e;
const ONES_OCTET = 0xff;
const NO_SIGN = /[^\t\x20-\x7e\xa0-\ud7ff\ue000-\ufffd\u{10000}-\u{10ffff}]/gu; // what no text should have
const AROUND = /^[\s\x1c-\x1f\x85]+|[\s\x1c-\x1f\x85]+$/g;

const rowOf = (line, at, kind, head, more = {}) => ({ line, at, kind, head, info: "", meaning: "", beside: "", ...more });

/** A frame in words; where it can't be read, its octets and why. */
function ofFrame(step, kind, octets) {
  const words = read(octets, step.isOfNetwork);
  if (typeof words === "string") {
    return rowOf(step.line.number, step.at, kind, "octets", { info: digits(octets), meaning: `no frame: ${words}` });
  }
  const head = headOf(words);
  const more = { meaning: meaningOf(words) };
  if (!words.info.length) return rowOf(step.line.number, step.at, kind, head, more);
  return rowOf(step.line.number, step.at, kind, `${head} info`, { info: digits(words.info), ...more });
}

/** What was no frame, as it stood on the line. */
function ofDrop(step, kind, drop) {
  const row = (head, more) => rowOf(step.line.number, step.at, kind, head, more);
  if (!drop.bits) return row("no frame");
  const bits = drop.bits > 1 ? `${drop.bits} bits` : "1 bit";
  if (drop.cause === "abort") return row(`${bits}, then seven 1s`, { info: digits(drop.octets) });
  if (drop.cause === "ragged") return row(bits, { info: digits(drop.octets) });
  return row("octets, with their check", { info: digits(drop.octets) });
}

const ofHeard = (step, kind, heard) =>
  isDrop(heard) ? ofDrop(step, kind, heard) : ofFrame(step, kind, heard.octets);

/** Octets from the other side that end nothing. */
function ofRest(step) {
  const { octets } = step;
  if (octets.every((it) => it === FLAG_OCTET)) return [];
  if (octets.every((it) => it === ONES_OCTET)) return [rowOf(step.line.number, step.at, REST, `${8 * octets.length} ones`)];
  return [rowOf(step.line.number, step.at, REST, "octets that end no frame", { info: digits(octets) })];
}

/** What a line of a transcript tells, after the number of its line; nothing of what a line takes. */
function ofAnswer(step, said, sapi) {
  const row = (kind, head, more) => [withSapi(rowOf(step.line.number, step.at, kind, head, more), "-16", sapi)];
  const [word, ...words] = said.split(" ");
  if (["tx", "frame", "nothing"].includes(word)) return [];
  if (["dropped", "lost", "counter"].includes(word)) return row(BESIDE, said);
  if (["given-up", "given-up-16"].includes(word)) {
    return row(BESIDE, said).map((it) => ({ ...it, head: [it.head, it.meaning].filter(Boolean).join(" "), meaning: "" }));
  }
  if (["data", "unit"].includes(word.split("-")[0])) return row(UP, `${word} ${words[0]}`, { info: words[1] });
  return row(UP, said);
}

/** A row about a packet link, whose first word ends so: if its SAPI is another than the usual one, that stands below the arrow
 * in place of the ending. */
function withSapi(row, ending, sapi) {
  const [word, ...rest] = row.head.split(" ");
  if (sapi === USUAL_SAPI || !word.endsWith(ending)) return row;
  return { ...row, head: [word.slice(0, -ending.length), ...rest].join(" "), meaning: `sapi ${sapi}` };
}

function ofRequest(step, sapi) {
  const [word, , tei, contents] = step.line.words();
  const info = contents === undefined ? "" : contents.toUpperCase() || "-";
  const row = rowOf(step.line.number, step.at, DOWN, tei === undefined ? word : `${word} ${Number(tei)}`, { info });
  return withSapi(row, "16", sapi);
}

/** What ended in the octets of a step. Frames are cut where the card says that it dropped more than the drops. */
function ofTraffic(step) {
  const dropped = step.answer.filter((it) => it.split(" ")[1] === "dropped").length;
  const more = dropped - step.heard.filter(isDrop).length;
  return step.heard.map((heard, at) =>
    ofHeard(step, isDrop(heard) || step.heard.length - at <= more ? CUT : IN, heard),
  );
}

/** What a step shows on a line of the card, whose packet links have this SAPI. */
function ofStep(step, about, sapi) {
  const rows = [];
  const word = step.line.word();
  if (step.line.about() === about) {
    if (["pull", "next"].includes(word)) {
      rows.push(...step.heard.map((it) => ofHeard(step, OUT, it)));
    } else if (["rx", "in", "failed"].includes(word)) {
      rows.push(...ofTraffic(step), ...(step.heard.length ? [] : ofRest(step)));
    } else if (!["counters", "messages"].includes(word)) {
      rows.push(ofRequest(step, sapi));
    }
  }
  for (const said of step.answer) {
    const [line] = said.split(" ", 1);
    if (OF_CARD.includes(line)) rows.push(rowOf(step.line.number, step.at, BESIDE, said));
    else if (line === String(about)) rows.push(...ofAnswer(step, said.slice(line.length + 1), sapi));
  }
  return rows;
}

/** Each step, and the line of the card that it is about; of a comment that of the next line which isn't skipped. */
function followed(steps) {
  const told = [];
  let waiting = [];
  for (const step of steps) {
    if (step.line.isSkipped()) {
      if (step.line.isComment()) waiting.push(step);
      continue;
    }
    const about = step.line.about();
    for (const it of waiting) told.push({ about, step: it });
    waiting = [];
    told.push({ about, step });
  }
  for (const it of waiting) told.push({ about: null, step: it });
  return told;
}

function ofComment(step) {
  const words = new TextDecoder("utf-8", { ignoreBOM: true }).decode(step.line.octets.subarray(1));
  return rowOf(step.line.number, step.at, COMMENT, words.replace(AROUND, "").replace(NO_SIGN, "\ufffd"));
}

/** The rows, where the cause of a drop stands after what was dropped. */
function joined(rows) {
  const out = [];
  for (const row of rows) {
    const last = out.at(-1);
    if (row.kind === BESIDE && row.head.startsWith("dropped ") && last && last.kind === CUT && !last.beside) {
      last.beside = row.head;
    } else {
      out.push(row);
    }
  }
  return out;
}

/** The rows with one for the time that passes between two of them, which the latest `wait` before caused. */
function paused(rows, waits) {
  const out = [];
  let at = 0;
  for (const row of rows) {
    const last = out.at(-1);
    if (last && row.at > last.at) {
      while (at < waits.length && waits[at] <= row.line) at += 1;
      out.push(rowOf(waits[at - 1], row.at, PAUSE, `${row.at - last.at} ms`));
    }
    out.push(row);
  }
  return out;
}

/** The rows of each line of the card of which the script speaks, by the line's number. */
export function stories(steps) {
  const told = followed(steps);
  const sapi = told.find((it) => it.step.line.isCard())?.step.line.sapi() ?? USUAL_SAPI;
  const lines = new Set(told.map((it) => it.about).filter((it) => it !== null));
  for (const { step } of told) {
    for (const it of step.answer) {
      const [line] = it.split(" ", 1);
      if (!OF_CARD.includes(line)) lines.add(Number(line));
    }
  }
  const waits = steps.filter((it) => it.line.word() === "wait").map((it) => it.line.number);
  const numbers = lines.size ? [...lines].sort((a, b) => a - b) : [0];
  const found = new Map(numbers.map((it) => [it, []]));
  for (const { about, step } of told) {
    const those = about === null ? numbers : [about];
    for (const line of those) {
      const rows = step.line.isSkipped() ? [ofComment(step)] : ofStep(step, line, sapi);
      for (const row of rows) found.get(line).push(row);
    }
  }
  return new Map([...found].map(([line, rows]) => [line, paused(joined(rows), waits)]));
}
