"""Frames in words, as `lapdsim frame` has them, with the messages of TEI management."""
from typing import NamedTuple, Union

SUPERVISORY = {0x01: "rr", 0x05: "rnr", 0x09: "rej"}
COMMANDS = {0x6F: "sabme", 0x43: "disc", 0x03: "ui", 0xAF: "xid"}
RESPONSES = {0x63: "ua", 0x0F: "dm", 0x87: "frmr", 0xAF: "xid"}
ANY_LENGTH = "i", "ui", "xid"
MESSAGES = {
    1: "identity request",
    2: "identity assigned",
    3: "identity denied",
    4: "identity check request",
    5: "identity check response",
    6: "identity remove",
    7: "identity verify",
}


class Words(NamedTuple):
    """A frame in words, and its information."""

    sapi: int
    tei: int
    kind: str
    name: str
    fields: str
    info: bytes

    def head(self) -> str:
        """All but the information."""
        return f"sapi {self.sapi} tei {self.tei} {self.kind} {self.name} {self.fields}"

    def meaning(self) -> str:
        """What the information says, where it is a message of TEI management; else nothing."""
        info = self.info
        if (self.sapi, self.name) != (63, "ui") or len(info) != 5 or info[0] != 0x0F or not info[4] & 1:
            return ""
        name = MESSAGES.get(info[3])
        return f"{name}, Ri {info[1:3].hex().upper()}, Ai {info[4] >> 1}" if name else ""


def digits(octets: bytes) -> str:
    """Octets as transcripts have them."""
    return octets.hex().upper() or "-"


def control(octets: bytes, is_command: bool):
    """The name and the fields of a control field, and how many octets it has; nothing where it is not defined."""
    first, last = "pf"[not is_command], octets[2]
    if last & 1 == 0 and is_command:
        return "i", f"ns {last >> 1} nr {octets[3] >> 1} p {octets[3] & 1}", 2
    if last in SUPERVISORY:
        return SUPERVISORY[last], f"nr {octets[3] >> 1} {first} {octets[3] & 1}", 2
    name = (COMMANDS if is_command else RESPONSES).get(last & 0xEF) if last & 3 == 3 else None
    return (name, f"{first} {last >> 4 & 1}", 1) if name else None


def read(octets: bytes, from_network: bool) -> Union[Words, str]:
    """A frame without its check in words, or why there are none: the first fault, as `lapdsim frame` names it."""
    if len(octets) < 3 or (len(octets) == 3 and octets[2] & 3 != 3):
        return "short"
    if octets[0] & 1 or not octets[1] & 1:
        return "bad extension"
    is_command = bool(octets[0] & 2) == from_network
    found = control(octets, is_command)
    if not found:
        return "undefined"
    name, fields, taken = found
    info = octets[2 + taken :]
    if name not in ANY_LENGTH and len(info) != (5 if name == "frmr" else 0):
        return "wrong size"
    return Words(octets[0] >> 2, octets[1] >> 1, "command" if is_command else "response", name, fields, info)
