// Frames in words, as `lapdsim frame` has them, with the messages of TEI management: tools/vithrynel/frames.py.

const SUPERVISORY = { 0x01: "rr", 0x05: "rnr", 0x09: "rej" };
const COMMANDS = { 0x6f: "sabme", 0x43: "disc", 0x03: "ui", 0xaf: "xid" };
const RESPONSES = { 0x63: "ua", 0x0f: "dm", 0x87: "frmr", 0xaf: "xid" };
const ANY_LENGTH = ["i", "ui", "xid"];
const MESSAGES = {
  1: "identity request",
  2: "identity assigned",
  3: "identity denied",
  4: "identity check request",
  5: "identity check response",
  6: "identity remove",
  7: "identity verify",
};

/** Octets as transcripts have them. */
export function digits(octets) {
  let text = "";
  for (const octet of octets) text += octet.toString(16).padStart(2, "0");
  return text.toUpperCase() || "-";
}

/** All of a frame's words but its information. */
export const headOf = (words) =>
  `sapi ${words.sapi} tei ${words.tei} ${words.kind} ${words.name} ${words.fields}`;

/** What the information says, where it is a message of TEI management; else nothing. */
export function meaningOf({ sapi, name, info }) {
  if (sapi !== 63 || name !== "ui" || info.length !== 5 || info[0] !== 0x0f || !(info[4] & 1)) return "";
  const message = MESSAGES[info[3]];
  return message ? `${message}, Ri ${digits(info.subarray(1, 3))}, Ai ${info[4] >> 1}` : "";
}

/** The name and the fields of a control field, and how many octets it has; null where it is not defined. */
function control(octets, isCommand) {
  const first = isCommand ? "p" : "f";
  const last = octets[2];
  if ((last & 1) === 0 && isCommand) {
    return { name: "i", fields: `ns ${last >> 1} nr ${octets[3] >> 1} p ${octets[3] & 1}`, taken: 2 };
  }
  if (last in SUPERVISORY) {
    return { name: SUPERVISORY[last], fields: `nr ${octets[3] >> 1} ${first} ${octets[3] & 1}`, taken: 2 };
  }
  const name = (last & 3) === 3 ? (isCommand ? COMMANDS : RESPONSES)[last & 0xef] : undefined;
  return name ? { name, fields: `${first} ${(last >> 4) & 1}`, taken: 1 } : null;
}

/** A frame without its check in words; or why there are none, as a text: the first fault, as `lapdsim frame` names it. */
export function read(octets, fromNetwork) {
  if (octets.length < 3 || (octets.length === 3 && (octets[2] & 3) !== 3)) return "short";
  if (octets[0] & 1 || !(octets[1] & 1)) return "bad extension";
  const isCommand = Boolean(octets[0] & 2) === fromNetwork;
  const found = control(octets, isCommand);
  if (!found) return "undefined";
  const { name, fields, taken } = found;
  const info = octets.subarray(2 + taken);
  if (!ANY_LENGTH.includes(name) && info.length !== (name === "frmr" ? 5 : 0)) return "wrong size";
  return { sapi: octets[0] >> 2, tei: octets[1] >> 1, kind: isCommand ? "command" : "response", name, fields, info };
}
