// The bits of a line: a second deframer and the framer of a terminal, plainly and bit by bit, as tools/vithrynel/bits.py
// has them. What is heard is a frame, { octets }, without its check; or a drop, { cause, octets, bits }.

const FLAG = [0, 1, 1, 1, 1, 1, 1, 0];
const POLYNOMIAL = 0b10001000000100001; // x^16 + x^12 + x^5 + 1
const NOT_INFORMATION = 0b11; // the two low bits of an unnumbered control octet

/** Whether what was heard is no frame. */
export const isDrop = (heard) => "cause" in heard;

/** The bits of octets in the order of the line: bit 1, the lowest, goes first. */
function bitsOf(octets) {
  const bits = [];
  for (const octet of octets) for (let at = 0; at < 8; at += 1) bits.push((octet >> at) & 1);
  return bits;
}

/** The whole octets that bits make. */
function octetsOf(bits) {
  const octets = new Uint8Array(Math.floor(bits.length / 8));
  for (let at = 0; at < 8 * octets.length; at += 1) octets[at >> 3] |= bits[at] << (at & 7);
  return octets;
}

/** The frame check sequence: what the division leaves, begun with ones, turned over; the highest power goes first. */
function checkOf(bits) {
  let left = 0xffff;
  for (const bit of bits) {
    left = (left << 1) ^ (bit << 16);
    if (left >> 16) left ^= POLYNOMIAL;
  }
  return Array.from({ length: 16 }, (_, at) => 1 - ((left >> (15 - at)) & 1));
}

/** The bits with a 0 after every five contiguous 1s. */
function stuffed(bits) {
  const out = [];
  let ones = 0;
  for (const bit of bits) {
    ones = bit ? ones + 1 : 0;
    out.push(bit);
    if (ones === 5) {
      out.push(0);
      ones = 0;
    }
  }
  return out;
}

/** The bits without each 0 that follows five contiguous 1s; null where the last of these is missing. */
function unstuffed(bits) {
  const out = [];
  let ones = 0;
  for (const bit of bits) {
    if (ones < 5) out.push(bit);
    ones = bit ? ones + 1 : 0;
  }
  return ones === 5 ? null : out;
}

/** What the bits between two flags are: a frame, or the first cause for which they are none. */
function judged(gap) {
  const bits = unstuffed(gap);
  if (bits === null || bits.length % 8) {
    return { cause: "ragged", octets: octetsOf(bits && bits.length ? bits : gap), bits: gap.length };
  }
  const octets = octetsOf(bits);
  const least = octets.length > 2 && (octets[2] & NOT_INFORMATION) === NOT_INFORMATION ? 5 : 6;
  if (octets.length < least) return { cause: "short", octets, bits: gap.length };
  const check = checkOf(bits.slice(0, -16));
  if (bits.slice(-16).some((bit, at) => bit !== check[at])) return { cause: "fcs", octets, bits: gap.length };
  return { octets: octets.subarray(0, -2) };
}

/** Hears the bits of a line: flags, stuffed bits, aborts and frame checks. */
export class Deframer {
  constructor() {
    this.gap = null; // the bits since the latest flag; null before it, and after an abort
    this.ones = 7; // contiguous 1s up to now; a flag wants a 0 before its six
  }

  /** Takes a bit. Returns what it ends, if anything. */
  bit(bit) {
    if (this.gap !== null) this.gap.push(bit);
    if (bit) {
      this.ones += 1;
      return this.ones === 7 ? this.giveUp() : null;
    }
    const endsFlag = this.ones === 6;
    this.ones = 0;
    return endsFlag ? this.flag() : null;
  }

  /** Seven contiguous 1s: an abort, which is told where bits stood before them. */
  giveUp() {
    const gap = this.gap;
    this.gap = null;
    if (gap === null || gap.length === 7) return null;
    return { cause: "abort", octets: octetsOf(unstuffed(gap.slice(0, -7)) ?? []), bits: gap.length - 7 };
  }

  /** The last bit of a flag, whose first may be the last of the flag before. */
  flag() {
    const gap = this.gap;
    this.gap = [];
    return gap !== null && gap.length > 8 ? judged(gap.slice(0, -8)) : null;
  }

  /** Takes octets. Returns what they end, each with the number of octets up to and with the one that ends it. */
  octets(octets) {
    const found = [];
    octets.forEach((octet, at) => {
      for (let bit = 0; bit < 8; bit += 1) {
        const heard = this.bit((octet >> bit) & 1);
        if (heard !== null) found.push({ at: at + 1, heard });
      }
    });
    return found;
  }
}

/** What puts the frames of `in` lines on a line: it begins with a flag, and sends flags on to the end of an octet. */
export class Terminal {
  constructor() {
    this.left = FLAG; // the bits of a flag that go before the next frame
  }

  /** Takes a frame without its check. Returns the octets that are sent for it. */
  frame(octets) {
    const bits = bitsOf(octets);
    const sent = [...this.left, ...stuffed([...bits, ...checkOf(bits)]), ...FLAG];
    const begun = (8 - (sent.length % 8)) % 8;
    this.left = begun ? FLAG.slice(begun) : [];
    return octetsOf([...sent, ...FLAG.slice(0, begun)]);
  }
}
