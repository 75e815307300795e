// Plays scripts in a JavaScript engine as the page's worker plays them: node played.mjs WEB MODULE < PATHS. PATHS is a list
// in JSON; for each path a line in JSON goes out, with how the script ended, its transcript, rows and captures, and the rows
// of some beginnings of the script, each with the number of its last line.
import { readFileSync } from "node:fs";

const [web, wasm] = process.argv.slice(2);
const { play } = await import(`${web}/play.mjs`);
const { Program } = await import(`${web}/program.mjs`);
const { stories } = await import(`${web}/story.mjs`);
const { packets, written } = await import(`${web}/pcap.mjs`);

const PARTS = 4;

const inWords = (rows) => rows.map(({ at, kind, head, info, meaning, beside }) => [at, kind, head, info, meaning, beside]);

/** The rows of each line of the card of a script's first so many lines. */
function beginning(program, script, count) {
  let end = 0;
  for (let line = 0; line < count; line += 1) end = script.indexOf(10, end) + 1;
  const found = [...stories(play(program, script.subarray(0, end)).steps)];
  return { last: count, ladders: found.map(([line, rows]) => ({ line, rows: inWords(rows) })) };
}

const program = new Program(new WebAssembly.Module(readFileSync(wasm)));
for (const path of JSON.parse(readFileSync(0, "utf8"))) {
  const script = new Uint8Array(readFileSync(path));
  const { status, fault, transcript, isUser, isTerminal, clock, steps } = play(program, script);
  const found = [...stories(steps)].map(([line, rows]) => ({
    line,
    rows: inWords(rows),
    causes: rows.map((it) => it.line),
    capture: Buffer.from(written(packets(steps, line), isUser)).toString("base64"),
  }));
  const told = steps.flatMap((it) => it.answer.map((said) => `${said}\n`)).join("");
  const feeds = script.filter((it) => it === 10).length;
  const lasts = [...new Set(Array.from({ length: PARTS }, (_, part) => Math.floor((part * feeds) / PARTS)))];
  const beginnings = lasts.map((count) => beginning(program, script, count));
  console.log(JSON.stringify({ status, fault, transcript, told, isUser, isTerminal, clock, ladders: found, beginnings }));
}
