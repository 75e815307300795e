// Plays a script on the program, and tells step by step what came of it, as tools/vithrynel/play.py does: `rx` in pieces,
// up to and with each octet that ends something, and `wait` up to each moment at which a timer can fall due.
//
// The program answers a whole script at a time, so the pieces are written down first, with `stored` after each, which
// ends its answer. A `wait` is cut only where it has an answer, and in more than one round.

import { Deframer, Terminal } from "./bits.mjs";
import { linesOf, octetsIn } from "./script.mjs";
import { digits } from "./frames.mjs";

const SECOND = 1000; // timers run for whole seconds where no line says otherwise, so each falls due so many after some line
const MOST_MOMENTS = 5000; // a `wait` with more moments than these is handed over whole
const PARTS = 64; // into which a `wait` is cut at a time
const STORED = "stored";
const NEWS = 1000; // lines from one news to the next

function greatestDivisor(a, b) {
  while (b) [a, b] = [b, a % b];
  return a;
}

/** What a frame that comes to a card of frames is heard as. */
function whole(octets) {
  const least = octets.length > 2 && (octets[2] & 3) === 3 ? 3 : 4;
  return octets.length >= least ? { octets } : { cause: "short", octets, bits: 8 * octets.length };
}

/** What a controller told in place of a frame. */
function failed(line) {
  const words = line.words();
  return words[0] === "failed" && words.length === 3 ? [{ cause: words[2], octets: new Uint8Array(), bits: 0 }] : [];
}

/** The frame that a `next` took, if any. */
function taken(answer) {
  const said = answer.length ? answer[0].split(" ") : [];
  const octets = octetsIn(said[1] === "frame" ? said[2] : "");
  return { octets, heard: octets.length ? [{ octets }] : [] };
}

/** What stands on a line of the card: who sends the frames of `in`, and listeners to both ways. */
class Side {
  constructor() {
    this.terminal = new Terminal();
    this.received = new Deframer();
    this.sent = new Deframer();
  }
}

/** Lines in pieces: of each its line, its text, the clock after it, the octets that it brings and what ends in them. */
class Cutter {
  constructor() {
    this.clock = 0;
    this.isForFrames = false;
    this.isUser = false; // the card is the user's side
    this.isTerminal = false; // and a terminal
    this.step = SECOND; // what the lengths of all timers are multiples of
    this.moments = new Set(); // those of lines of the script, but for whole steps
    this.sides = new Map();
  }

  side(about) {
    if (!this.sides.has(about)) this.sides.set(about, new Side());
    return this.sides.get(about);
  }

  pieces(line) {
    const ms = line.waits();
    if (ms !== null) return [this.waited(line, ms)];
    const lengths = line.lengths();
    if (lengths.length) {
      this.step = lengths.reduce(greatestDivisor, this.step);
      this.moments = new Set([...this.moments].map((it) => it % this.step));
    }
    this.moments.add(this.clock % this.step);
    this.isForFrames ||= line.word() === "frames";
    this.isUser ||= line.isOfUser();
    this.isTerminal ||= line.isOfTerminal();
    const brings = line.brings();
    if (brings === null) return [this.piece(line, line.text, new Uint8Array(), failed(line))];
    if (this.isForFrames) return [this.piece(line, line.text, brings.octets, [whole(brings.octets)])];
    return brings.word === "in" ? [this.framed(line, brings)] : this.cut(line, brings);
  }

  piece(line, text, octets, heard) {
    return { line, text, at: this.clock, octets, heard };
  }

  waited(line, ms) {
    const begin = this.clock;
    this.clock += ms;
    const moments = [...this.moments];
    const isMany = moments.length * ms > MOST_MOMENTS * this.step + this.step - 1;
    const dues = { moments: isMany ? [] : moments, step: this.step };
    return { ...this.piece(line, `wait ${ms}`, new Uint8Array(), []), begin, dues };
  }

  framed(line, { about, octets }) {
    const side = this.side(about);
    const sent = side.terminal.frame(octets);
    return this.piece(line, line.text, sent, side.received.octets(sent).map((it) => it.heard));
  }

  /** The octets of `rx` up to and with each that ends something. */
  cut(line, { about, octets }) {
    const heard = new Map();
    for (const it of this.side(about).received.octets(octets)) heard.set(it.at, [...(heard.get(it.at) ?? []), it.heard]);
    if (!heard.has(octets.length)) heard.set(octets.length, []);
    let begin = 0;
    return [...heard].map(([end, ended]) => {
      const piece = octets.subarray(begin, end);
      begin = end;
      return this.piece(line, `rx ${about} ${digits(piece)}`, piece, ended);
    });
  }
}

/** The moments up to the end of a `wait` at which a timer can fall due, and the end. */
function stopsOf({ begin, at, dues: { moments, step } }) {
  const first = begin + 1;
  const stops = new Set([at]);
  for (const moment of moments) {
    const offset = (((moment - first) % step) + step) % step;
    for (let due = first + offset; due < at; due += step) stops.add(due);
  }
  return [...stops].sort((a, b) => a - b);
}

/** A `wait` in parts, each up to a moment at which a timer can fall due. */
function partsOf(piece) {
  const stops = piece.stops ?? stopsOf(piece);
  const many = Math.ceil(stops.length / PARTS);
  const parts = [];
  let begin = piece.begin;
  for (let at = 0; at < stops.length; at += many) {
    const some = stops.slice(at, at + many);
    const end = some.at(-1);
    parts.push({ ...piece, text: `wait ${end - begin}`, begin, at: end, stops: some });
    begin = end;
  }
  return parts;
}

/** Whether a piece is a `wait` that has an answer, and can be cut. */
const canBeCut = (piece, answer) =>
  piece.dues !== undefined && answer.length > 0 && (piece.stops ?? piece.dues.moments).length > (piece.stops ? 1 : 0);

/** The answers to pieces, each as lines. */
function answersTo(program, pieces) {
  const asked = pieces.filter((it) => !it.line.isSkipped());
  const text = asked.map((it) => `${it.text}\n${STORED}\n`).join("");
  const said = program.run(new TextEncoder().encode(text)).transcript.split("\n");
  let at = 0;
  return pieces.map((piece) => {
    if (piece.line.isSkipped()) return [];
    const begin = at;
    for (let wanted = piece.text === STORED ? 2 : 1; wanted && at < said.length; at += 1) {
      wanted -= said[at].startsWith(STORED);
    }
    return said.slice(begin, at - 1);
  });
}

/** What is made of each of many, with news of how far that is. */
function each(many, words, progress, made) {
  return many.map((it, at) => {
    if (at % NEWS === 0) progress(words, at / many.length);
    return made(it, at);
  });
}

/** The pieces and their answers, where a `wait` with an answer is cut at each moment at which a timer can fall due. */
function answered(program, pieces, progress) {
  for (;;) {
    progress(`${pieces.length} lines are played`);
    const answers = answersTo(program, pieces);
    const cut = pieces.map((it, at) => canBeCut(it, answers[at]));
    if (!cut.includes(true)) return { pieces, answers };
    pieces = pieces.flatMap((it, at) => (cut[at] ? partsOf(it) : [it]));
  }
}

/** The octets that a piece brings or takes, and what ends in them. */
function traffic(cutter, { line, octets, heard }, answer) {
  if (line.word() === "next") return taken(answer);
  if (line.word() !== "pull") return { octets, heard };
  const pulled = octetsIn(answer.length ? answer[0].split(" ")[2] : "");
  return { octets: pulled, heard: cutter.side(line.about() ?? 0).sent.octets(pulled).map((it) => it.heard) };
}

/**
 * Plays a script, whose octets are given, on a program. Returns how it ended and its transcript, as `lapdsim run` has them,
 * and the steps: of each its line, the clock after it, the octets on the card's line, what ended in them, the answer, and
 * whether that is what the network sent. `progress` hears what is done, and which part of it, where that is known.
 */
export function play(program, script, progress = () => {}) {
  progress("the script is played");
  const ended = program.run(script);
  const cutter = new Cutter();
  const lines = linesOf(script, ended.status ? ended.line : Infinity);
  const faulty = ended.status ? lines.pop() : null;
  const cut = each(lines, "what comes is read", progress, (line) => cutter.pieces(line)).flat();
  const { pieces, answers } = answered(program, cut, progress);
  const steps = each(pieces, "what goes is read", progress, (piece, at) => {
    const answer = answers[at];
    const isSent = ["pull", "next"].includes(piece.line.word());
    const { line, at: clock } = piece;
    return { line, at: clock, ...traffic(cutter, piece, answer), answer, isOfNetwork: isSent !== cutter.isUser };
  });
  const isUser = cutter.isUser || Boolean(faulty?.isOfUser());
  const isTerminal = cutter.isTerminal || Boolean(faulty?.isOfTerminal());
  return { ...ended, clock: cutter.clock, isUser, isTerminal, steps };
}
