// Captures in the form that Wireshark opens, as tools/vithrynel/pcap.py writes them: link type 177, LAPD with Linux's
// pseudo-header. Every number is in network order.

import { isDrop } from "./bits.mjs";

const LINK_TYPE = 177;
const RECEIVED = 0; // a packet's type: from the other, to the other
const SENT = 4;
const HARDWARE = 8445; // ARPHRD_LAPD
const PROTOCOL = 0x0030; // ETH_P_LAPD
const LONGEST = 65535;

/** The frames of both ways that were heard on a line of the card, with a good check. */
export function packets(steps, line) {
  const found = [];
  for (const step of steps) {
    if (step.line.about() !== line) continue;
    const kind = ["pull", "next"].includes(step.line.word()) ? SENT : RECEIVED;
    for (const it of step.heard) if (!isDrop(it)) found.push({ at: step.at, kind, octets: it.octets });
  }
  return found;
}

/** A capture of packets at a card of this side. */
export function written(found, isUser) {
  const out = new Uint8Array(24 + found.reduce((sum, it) => sum + 32 + it.octets.length, 0));
  const view = new DataView(out.buffer);
  let at = 0;
  const put16 = (number) => view.setUint16((at += 2) - 2, number);
  const put32 = (number) => view.setUint32((at += 4) - 4, number);
  put32(0xa1b2c3d4);
  [2, 4].forEach(put16);
  [0, 0, LONGEST, LINK_TYPE].forEach(put32);
  for (const packet of found) {
    const length = 16 + packet.octets.length;
    [Math.floor(packet.at / 1000) >>> 0, (packet.at % 1000) * 1000, length, length].forEach(put32);
    [packet.kind, HARDWARE, 1].forEach(put16);
    out[at] = isUser ? 0 : 1; // an address of one octet: whose side the capture is
    at += 8;
    put16(PROTOCOL);
    out.set(packet.octets, at);
    at += packet.octets.length;
  }
  return out;
}
