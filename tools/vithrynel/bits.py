"""The bits of a line: a second deframer and the framer of a terminal, plainly and bit by bit.

Both are written from the rules of docs/MACHINE.md ("Bits and frames") and share nothing with the program, whose frames
and drops tests/tools compares with what this deframer hears.
"""
from typing import List, NamedTuple, Optional, Tuple, Union

FLAG = [0, 1, 1, 1, 1, 1, 1, 0]
POLYNOMIAL = 0b1_0001_0000_0010_0001  # x^16 + x^12 + x^5 + 1
NOT_INFORMATION = 0b11  # the two low bits of an unnumbered control octet


class Frame(NamedTuple):
    """A frame that was heard with a good check, which its octets leave out."""

    octets: bytes


class Drop(NamedTuple):
    """What stood between two flags, or before an abort, and is no frame: its whole octets, and how many bits it had."""

    cause: str
    octets: bytes
    bits: int


Heard = Union[Frame, Drop]


def bits_of(octets: bytes) -> List[int]:
    """The bits of octets in the order of the line: bit 1, the lowest, goes first."""
    return [octet >> at & 1 for octet in octets for at in range(8)]


def octets_of(bits: List[int]) -> bytes:
    """The whole octets that bits make."""
    whole = range(0, len(bits) - 7, 8)
    return bytes(sum(bit << at for at, bit in enumerate(bits[begin : begin + 8])) for begin in whole)


def check_of(bits: List[int]) -> List[int]:
    """The frame check sequence: what the division leaves, begun with ones, turned over; the highest power goes first."""
    left = 0xFFFF
    for bit in bits:
        left = left << 1 ^ bit << 16
        left ^= POLYNOMIAL if left >> 16 else 0
    return [1 - (left >> at & 1) for at in reversed(range(16))]


def stuffed(bits: List[int]) -> List[int]:
    """The bits with a 0 after every five contiguous 1s."""
    out, ones = [], 0
    for bit in bits:
        ones = ones + 1 if bit else 0
        out.append(bit)
        if ones == 5:
            out.append(0)
            ones = 0
    return out


def unstuffed(bits: List[int]) -> Optional[List[int]]:
    """The bits without each 0 that follows five contiguous 1s; none where the last of these is missing."""
    out, ones = [], 0
    for bit in bits:
        if ones < 5:
            out.append(bit)
        ones = ones + 1 if bit else 0
    return None if ones == 5 else out


def judged(gap: List[int]) -> Heard:
    """What the bits between two flags are: a frame, or the first cause for which they are none."""
    bits = unstuffed(gap)
    if bits is None or len(bits) % 8:
        return Drop("ragged", octets_of(bits or gap), len(gap))
    octets = octets_of(bits)
    least = 5 if octets[2:3] and octets[2] & NOT_INFORMATION == NOT_INFORMATION else 6
    if len(octets) < least:
        return Drop("short", octets, len(gap))
    if check_of(bits[:-16]) != bits[-16:]:
        return Drop("fcs", octets, len(gap))
    return Frame(octets[:-2])


class Deframer:
    """Hears the bits of a line: flags, stuffed bits, aborts and frame checks."""

    def __init__(self) -> None:
        self.gap: Optional[List[int]] = None  # the bits since the latest flag; none before it, and after an abort
        self.ones = 7  # contiguous 1s up to now; a flag wants a 0 before its six

    def bit(self, bit: int) -> Optional[Heard]:
        """Takes a bit. Returns what it ends, if anything."""
        if self.gap is not None:
            self.gap.append(bit)
        if bit:
            self.ones += 1
            return self.give_up() if self.ones == 7 else None
        ends_flag, self.ones = self.ones == 6, 0
        return self.flag() if ends_flag else None

    def give_up(self) -> Optional[Heard]:
        """Seven contiguous 1s: an abort, which is told where bits stood before them."""
        gap, self.gap = self.gap, None
        if gap is None or len(gap) == 7:
            return None
        return Drop("abort", octets_of(unstuffed(gap[:-7]) or []), len(gap) - 7)

    def flag(self) -> Optional[Heard]:
        """The last bit of a flag, whose first may be the last of the flag before."""
        gap, self.gap = self.gap, []
        return judged(gap[:-8]) if gap is not None and len(gap) > 8 else None

    def octets(self, octets: bytes) -> List[Tuple[int, Heard]]:
        """Takes octets. Returns what they end, each with the number of octets up to and with the one that ends it."""
        found = []
        for at, bit in enumerate(bits_of(octets)):
            heard = self.bit(bit)
            if heard is not None:
                found.append((at // 8 + 1, heard))
        return found


class Terminal:
    """What puts the frames of `in` lines on a line: it begins with a flag, and sends flags on to the end of an octet."""

    def __init__(self) -> None:
        self.left = list(FLAG)  # the bits of a flag that go before the next frame

    def frame(self, octets: bytes) -> bytes:
        """Takes a frame without its check. Returns the octets that are sent for it."""
        bits = bits_of(octets)
        sent = self.left + stuffed(bits + check_of(bits)) + FLAG
        begun = -len(sent) % 8
        self.left = FLAG[begun:] if begun else []
        return octets_of(sent + FLAG[:begun])
