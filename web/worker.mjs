// Plays scripts beside the page, so that the page goes on meanwhile, and can end a play that takes long.

import { play } from "./play.mjs";
import { Program } from "./program.mjs";
import { FAULT, stories } from "./story.mjs";
import { packets, written } from "./pcap.mjs";

const MANY = 2000; // rows that are handed over at a time

/** What a play says, in messages: progress, rows and the transcript's lines in portions, and last how it ended. */
function* told(module, script) {
  let waiting = [];
  const played = play(new Program(module), script, (progress, part) => postMessage({ progress, part }));
  const lines = stories(played.steps);
  const { status, fault, transcript, isUser, isTerminal, clock } = played;
  for (const [line, rows] of lines) {
    if (fault) rows.push({ line: played.line, at: clock, kind: FAULT, head: fault, info: "", meaning: "", beside: "" });
    yield { ladder: line, isUser, isTerminal, capture: written(packets(played.steps, line), isUser) };
    for (let at = 0; at < rows.length; at += MANY) yield { more: rows.slice(at, at + MANY) };
  }
  for (const step of played.steps) {
    for (const text of step.answer) waiting.push({ text, line: step.line.number });
    if (waiting.length >= MANY) yield { said: waiting.splice(0) };
  }
  yield { said: waiting };
  yield { ended: { status, fault, line: played.line, transcript, clock } };
}

onmessage = ({ data: { module, script } }) => {
  try {
    for (const message of told(module, script)) postMessage(message);
  } catch (error) {
    postMessage({ failed: error instanceof RangeError ? "out of memory" : error.message });
  }
};
