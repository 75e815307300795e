// limits.mjs: what a program does in an engine whose memory may not grow far: a refused growth is never taken for room. For
// tests alone.
//
//     node limits.mjs PAGE.html    the page's program: the largest card is out of memory, and a small one plays
//     node limits.mjs lapd.wasm    the library: starts are refused memory, and what they took is given back; and with memory
//                                  that grows, thirty-two largest cards start, the last by as many steps as the first. wasm-opt
//                                  has each call of a function and each round of a loop counted: no time is measured
//
// Status 1 where it does anything else.
import { spawnSync } from "node:child_process";
import { mkdtempSync, readFileSync, rmSync } from "node:fs";
import { tmpdir } from "node:os";
import { NoMemory, Program } from "../../web/program.mjs";

const PAGES = 40; // 2.6 MB, less than the largest card takes
const MEMORY = 5; // the section of a module that says how large its memory is
const CONFIG = 32; // places of 16 bits in a configuration, the reserved ones among them
const CARDS = 32;
const MORE = 2; // times as many steps as the first start takes another may take,
const SEARCHES = 2; // except so many: a block smaller than all that found no place is looked for everywhere, once
const LARGEST = "card 64 8 127 127 16 16 8192 260 10 127\n";
const SMALL = "card 1 8 7 8 4 4 64 260 3\nassign 0 64\nstored\n";
const STORED = "stored 0 limit 17470\n";

const fail = (why) => {
  console.error(why);
  process.exit(1);
};

/** A number as WebAssembly writes it, and the place after it. */
function number(octets, at) {
  let value = 0;
  for (let shift = 0; ; shift += 7) {
    const octet = octets[at++];
    value += (octet & 0x7f) * 2 ** shift;
    if (octet < 0x80) return [value, at];
  }
}

/** The same octets with a memory of so many pages at most; fewer than 128. */
function limited(octets, pages) {
  for (let at = 8; at < octets.length; ) {
    const [length, begin] = number(octets, at + 1);
    if (octets[at] === MEMORY) {
      const [least] = number(octets, begin + 2);
      if (octets[begin] !== 1 || least > pages) fail(`a memory of ${least} pages`);
      const section = [MEMORY, 4, 1, 1, least, pages];
      return Uint8Array.from([...octets.subarray(0, at), ...section, ...octets.subarray(begin + length)]);
    }
    at = begin + length;
  }
  return fail("the module has no memory");
}

function inPage(text) {
  const octets = Buffer.from(/"module":"([^"]+)"/.exec(text)[1], "base64");
  const program = new Program(new WebAssembly.Module(limited(octets, PAGES)));
  const encoder = new TextEncoder();
  try {
    fail(`the largest card: status ${program.run(encoder.encode(LARGEST)).status}`);
  } catch (error) {
    if (!(error instanceof NoMemory)) fail(`the largest card: ${error}`);
  }
  const played = program.run(encoder.encode(SMALL));
  if (played.status !== 0 || played.transcript !== STORED) fail(`a small card: ${JSON.stringify(played)}`);
}

/** The library, with places for a configuration and for handles. */
function library(octets, imports = {}) {
  const lapd = new WebAssembly.Instance(new WebAssembly.Module(octets), imports).exports;
  const config = lapd.module_take(BigInt(2 * CONFIG));
  const write = (fields) => new Uint16Array(lapd.memory.buffer, Number(config), CONFIG).fill(0).set(fields);
  const handle = () => lapd.module_take(16n);
  return { lapd, config, write, handle };
}

const MOST = [64, 8, 127, 127, 127, 16, 16, 8192, 260, 10, 0, 0, 0, 0];
const FEW = [1, 8, 7, 7, 8, 4, 4, 64, 260, 3, 0, 0, 0, 0];
const NO_MEMORY = 22;

function inLittle(octets) {
  const { lapd, config, write, handle } = library(limited(octets, PAGES));
  const card = handle();
  for (let round = 0; round < 3; round++) {
    write(MOST);
    const refused = lapd.lapd_card_start(card, config);
    if (refused !== NO_MEMORY) fail(`the largest card: status ${refused}`);
    write(FEW);
    const started = lapd.lapd_card_start(card, config);
    if (started !== 0 || lapd.lapd_card_free(card) !== 0) fail(`a small card: status ${started}`);
  }
  let taken = 0;
  while (lapd.module_take(65536n)) if (++taken > PAGES) fail("more places than pages");
  if (taken < 10) fail(`${taken} places`);
}

/** The library with its steps told, as octets: it calls `env.log_execution` at each. */
function telling(path) {
  const folder = mkdtempSync(`${tmpdir()}/limits-`);
  try {
    const said = spawnSync("wasm-opt", ["-all", "--log-execution", path, "-o", `${folder}/telling.wasm`], { encoding: "utf8" });
    if (said.status !== 0) fail(`wasm-opt: ${said.error ?? said.stderr}`);
    return readFileSync(`${folder}/telling.wasm`);
  } finally {
    rmSync(folder, { recursive: true });
  }
}

function many(path) {
  let steps = 0;
  const { lapd, config, write, handle } = library(telling(path), { env: { log_execution: () => (steps += 1) } });
  write(MOST);
  const took = [];
  while (took.length < CARDS) {
    steps = 0;
    const status = lapd.lapd_card_start(handle(), config);
    if (status !== 0) fail(`one of ${CARDS} largest cards: status ${status}`);
    took.push(steps);
    if (steps === 0) fail(`card ${took.length} starts by no step`);
  }
  const slow = took.filter((it) => it > MORE * took[0]);
  if (slow.length > SEARCHES || slow.includes(took.at(-1))) fail(`starts take ${slow.join(", ")} steps, the first ${took[0]}`);
  console.log(`the largest cards: ${took[0]} steps the first, ${Math.max(...took.slice(1))} at most`);
}

const [path] = process.argv.slice(2);
if (path.endsWith(".html")) {
  inPage(readFileSync(path, "utf8"));
} else {
  inLittle(readFileSync(path));
  many(path);
}
