"""Reads the image of a caller's clock, as docs/FORMAT.md ("Images") has it, from that page alone as image.py does those of cards:
`read_clock` makes a `ClockImage` of octets, or raises `BadImage`."""
from dataclasses import dataclass
from typing import List

from .image import MAGIC, VERSION, Reader, lengths_of, read_version

KIND = 4  # where a card has flags
TIMERS = "t200 t203 t201 t202".split()  # by their numbers; of links the first two
OF_LINKS = 2
NEVER = (1 << 64) - 1


@dataclass(frozen=True)
class Running:
    timer: int
    tei: int
    packet: bool
    due: int


@dataclass
class ClockImage:
    terminals: int
    lengths: List[int]
    lines: List[List[Running]]  # line by line the timers that run, as the image orders them


def is_of_clock(octets: bytes) -> bool:
    """Whether octets begin as the image of a clock does."""
    return octets.startswith(MAGIC + bytes([VERSION, KIND]))


def read_clock(octets: bytes) -> ClockImage:
    """The clock whose image this is."""
    r = Reader(octets)
    read_version(r)
    r.number(1, KIND, KIND, "the kind")
    lines, terminals = r.number(1, 1, 64, "LINES"), r.number(1, 1, 8, "TERMINALS")
    clock = ClockImage(terminals, lengths_of(r), [timers_of(r, terminals) for _ in range(lines)])
    r.need(r.at == len(octets), "something follows the image")
    return clock


def timers_of(r: Reader, terminals: int) -> List[Running]:
    timers = r.list(4 * terminals + 1, lambda: timer_of(r), "timers")
    r.need(len({(it.timer, it.tei, it.packet) for it in timers}) == len(timers), "a timer runs twice on a line")
    return timers


def timer_of(r: Reader) -> Running:
    timer, tei, packet = r.number(1, 0, len(TIMERS) - 1, "a timer"), r.number(1, 0, 126, "a TEI"), r.number(1, 0, 1, "packet mode")
    r.need(timer < OF_LINKS or tei == packet == 0, f"{TIMERS[timer].upper()} has a link")
    return Running(timer, tei, bool(packet), r.number(8, 0, NEVER - 1, "when a timer is due"))
