// The program that is made from the proved one, as a module of WebAssembly: `lapd_page_play` of crates/lapd_page.

const DONE = 0;
const FAULTY = 1;
const FAULT_ROOM = 256; // octets: more than any fault line has
const END_ROOM = 24; // how long the transcript and the fault line are, and the number of the faulty line
const LEAST_ROOM = 1 << 20;

/** Why the program can't do its work, in words. */
export class NoMemory extends Error {
  constructor() {
    super("out of memory");
  }
}

/** The program. It keeps nothing from one script to the next: each is played in a memory of its own. */
export class Program {
  constructor(module) {
    this.module = module;
  }

  /** Plays a script, given as octets: its exit status, transcript and fault line, and the number of the faulty line. */
  run(script) {
    const least = LEAST_ROOM + 8 * script.length;
    const first = this.tried(script, least);
    return first.length <= least ? first : this.tried(script, first.length);
  }

  /** The same with so much room for the transcript; its length may be more. */
  tried(script, room) {
    const { exports } = new WebAssembly.Instance(this.module);
    const [from, to, words, end] = [script.length, room, FAULT_ROOM, END_ROOM].map((octets) => {
      const at = exports.module_take(BigInt(octets));
      if (!at) throw new NoMemory();
      return at;
    });
    new Uint8Array(exports.memory.buffer).set(script, Number(from));
    const [length, whole, most] = [script.length, room, FAULT_ROOM].map(BigInt);
    const status = exports.lapd_page_play(from, length, to, whole, words, most, end);
    if (status !== DONE && status !== FAULTY) throw new NoMemory();
    const memory = new DataView(exports.memory.buffer);
    const [told, fault, line] = [0, 8, 16].map((at) => Number(memory.getBigUint64(Number(end) + at, true)));
    const text = (at, octets) => new TextDecoder().decode(new Uint8Array(memory.buffer, Number(at), octets));
    const isFaulty = status === FAULTY;
    return {
      status,
      length: told,
      transcript: text(to, Math.min(told, room)),
      fault: isFaulty ? text(words, fault).trimEnd() : "",
      line: isFaulty ? line : 0,
    };
  }
}
