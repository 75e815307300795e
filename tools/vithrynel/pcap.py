"""Captures in the form that Wireshark opens: link type 177, LAPD with Linux's pseudo-header."""
import struct
from typing import Iterable, Iterator, NamedTuple

from .bits import Frame
from .play import Step

LINK_TYPE = 177
RECEIVED, SENT = 0, 4  # a packet's type: from the other, to the other
HARDWARE = 8445  # ARPHRD_LAPD
USER, NETWORK = bytes(8), bytes([1, 0, 0, 0, 0, 0, 0, 0])  # an address of one octet: whose side the capture is
PROTOCOL = 0x0030  # ETH_P_LAPD
LONGEST = 65535


class Packet(NamedTuple):
    """A frame without its check that passed on a line of the card."""

    at: int  # milliseconds
    kind: int
    octets: bytes


def packets(steps: Iterable[Step], line: int) -> Iterator[Packet]:
    """The frames of both ways that were heard on a line of the card, with a good check."""
    for step in steps:
        if step.line.about() == line:
            kind = SENT if step.line.word() in ("pull", "next") else RECEIVED
            yield from (Packet(step.at, kind, it.octets) for it in step.heard if isinstance(it, Frame))


def written(found: Iterable[Packet], is_user: bool = False) -> bytes:
    """A capture of packets at a card of this side; every number is in network order."""
    out = [struct.pack(">IHHiIII", 0xA1B2C3D4, 2, 4, 0, 0, LONGEST, LINK_TYPE)]
    for packet in found:
        octets = struct.pack(">HHH8sH", packet.kind, HARDWARE, 1, USER if is_user else NETWORK, PROTOCOL) + packet.octets
        seconds, ms = divmod(packet.at, 1000)
        out += [struct.pack(">IIII", seconds & 0xFFFFFFFF, ms * 1000, len(octets), len(octets)), octets]
    return b"".join(out)
