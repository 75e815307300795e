"""Reads the image of a card, as docs/FORMAT.md ("Images") has it. It is written from that page, with names and ranges of table.py,
and knows nothing of the program: `read` makes a `Card` of octets, or raises `BadImage`, which says at which octet it shows that they
are no image."""
from dataclasses import dataclass, field
from typing import Callable, Dict, List, Optional, Tuple, TypeVar

from .program import Fault
from .table import FIELDS, counted, counters, in_order

MAGIC, VERSION, FREE, GROUP = b"LAPD", 1, 255, 127
LONGEST = 3600000  # that a timer runs, in milliseconds
COUNTED, COUNTED_OF_LINK = counters(), counted()
FLAGS = "peer-busy own-busy rejecting pending asked t200 t203".split()
PEER_BUSY, OWN_BUSY, REJECTING, PENDING, ASKED, T200, T203 = range(7)
# Beside a link's state, in the same octet: a release is owed.
OWED = 64
# What may wait of frames with a control field of one octet, without P/F: a command, a response, or both.
UNNUMBERED = {0x03: (True,), 0x43: (True,), 0x6F: (True,), 0x0F: (False,), 0x63: (False,), 0xAF: (True, False)}
# The numbers of a configuration, in order.
NUMBERS = in_order(it.name for it in FIELDS)
T = TypeVar("T")


class BadImage(Fault):
    """No image: at which octet this shows, and why."""

    def __init__(self, at: int, why: str):
        super().__init__(f"octet {at}: {why}")


@dataclass
class Config:
    """Its numbers have the names of their fields."""
    numbers: Dict[str, int]
    user: bool
    seed: Optional[int]
    annex_b: bool

    def __getattr__(self, name: str) -> int:
        if name not in self.__dict__.get("numbers", ()):
            raise AttributeError(name)
        return self.numbers[name]

    @property
    def is_terminal(self) -> bool:
        return self.user and self.seed is not None


@dataclass
class Link:
    state: int
    owes_release: bool
    flags: Tuple[bool, ...]
    rc: int
    va: int
    outstanding: int
    vr: int
    again: int
    counted: List[int]
    contents: List[bytes]
    control: List[Tuple[bool, bytes]]


@dataclass
class Message:
    type: int
    ri: int
    ai: int


@dataclass
class Line:
    places: List[Optional[int]]
    messages: List[Message] = field(default_factory=list)
    # a terminal's
    number: int = 0
    procedure: Optional[Tuple[int, int, int]] = None  # 1 or 2, attempts, and Ri or the TEI
    # all others'
    remembered: List[Tuple[int, int]] = field(default_factory=list)
    check: Optional[Tuple[int, int, int, int]] = None  # period, 3 while it settles, TEI, and responses in each period
    due: Tuple[bool, ...] = ()
    units: List[Tuple[int, bool, bytes]] = field(default_factory=list)
    turn: int = 0
    links: Dict[int, Link] = field(default_factory=dict)
    counters: List[int] = field(default_factory=list)
    waits: Tuple[bool, ...] = ()

    @property
    def teis(self) -> List[int]:
        return [tei for tei in self.places if tei is not None]

    def timers(self) -> List[Tuple[Optional[int], str]]:
        """The timers that run, in the order of their moments: of which link, if of one, and their names."""
        running = [(number, name) for number, link in self.links.items() for name in ("t200", "t203") if link.flags[FLAGS.index(name)]]
        return [*running, *[(None, "t201")] * bool(self.check), *[(None, "t202")] * bool(self.procedure)]


@dataclass
class Clock:
    lengths: List[int]
    now: int
    moments: List[List[int]]  # line by line, as `Line.timers` has them
    changed: List[List[int]]  # line by line, link by link


@dataclass
class Card:
    of_octets: bool
    config: Config
    lines: List[Line]
    clock: Optional[Clock] = None


# ---- Reading


class Reader:
    """What is left of an image. Each call takes octets from its front."""

    def __init__(self, octets: bytes):
        self.all, self.at = octets, 0

    def need(self, holds: bool, why: str) -> None:
        if not holds:
            raise BadImage(self.at, why)

    def octets(self, count: int) -> bytes:
        self.need(self.at + count <= len(self.all), "the image ends")
        self.at += count
        return self.all[self.at - count:self.at]

    def number(self, octets: int, low: int = 0, high: Optional[int] = None, what: str = "a number") -> int:
        n = int.from_bytes(self.octets(octets), "little")
        self.need(low <= n and (high is None or n <= high), f"{what} is {n}")
        return n

    def bits(self, count: int, octets: int = 1) -> Tuple[bool, ...]:
        n = self.number(octets, 0, (1 << count) - 1, "an octet of flags")
        return tuple(bool(n >> place & 1) for place in range(count))

    def list(self, most: int, each: Callable[[], T], what: str) -> List[T]:
        return [each() for _ in range(self.number(1, 0, most, f"the number of {what}"))]

    def contents(self, n201: int) -> bytes:
        return self.octets(self.number(2, 0, n201, "the length of contents"))


def read(octets: bytes) -> Card:
    """The card whose image this is."""
    r = Reader(octets)
    read_version(r)
    of_octets, timed = r.bits(2)
    config = config_of(r)
    card = Card(of_octets, config, [line_of(r, config) for _ in range(config.lines)])
    held = sum(len(line.units) + sum(len(link.contents) for link in line.links.values()) for line in card.lines)
    r.need(held <= config.slots, "there are more contents than SLOTS")
    for line in card.lines:
        line.counters = [r.number(8) for _ in COUNTED]
    for line in card.lines:
        line.waits = r.bits(2 * config.terminals, 2)
        r.need(all(number in line.links for number, waits in enumerate(line.waits) if waits), "no link is there that waits")
    card.clock = clock_of(r, card) if timed else None
    r.need(r.at == len(octets), "something follows the image")
    return card


def read_version(r: Reader) -> None:
    """What each image begins with."""
    r.need(r.octets(4) == MAGIC, "it does not begin with LAPD")
    r.number(1, VERSION, VERSION, "the version")


def config_of(r: Reader) -> Config:
    user, seeded, annex_b = r.bits(3)
    numbers: Dict[str, int] = {}
    for it in NUMBERS:
        numbers[it.name] = r.number(it.octets, max(it.least, *(numbers[one] for one in it.at_least), 0), it.most, it.name.upper())
    return Config(numbers, user, r.number(2) if seeded else None, annex_b)


def line_of(r: Reader, config: Config) -> Line:
    line = Line([place_of(r) for _ in range(config.terminals)])
    r.need(len(set(line.teis)) == len(line.teis), "a TEI is twice on a line")
    (teis_of_terminal if config.is_terminal else teis_of_others)(r, config, line)
    line.units = r.list(config.unit_queue, lambda: unit_of(r, config), "unit data")
    line.turn = r.number(1, 0, 2 * config.terminals, "the link at which a round begins")
    for number in range(2 * config.terminals):
        if line.places[number // 2] is not None:
            line.links[number] = link_of(r, config, config.k16 if number % 2 else config.k)
    return line


def place_of(r: Reader) -> Optional[int]:
    tei = r.number(1)
    r.need(tei <= 126 or tei == FREE, f"a TEI is {tei}")
    return None if tei == FREE else tei


def unit_of(r: Reader, config: Config) -> Tuple[int, bool, bytes]:
    to = r.number(1)
    return to // 2, bool(to % 2), r.contents(config.n201)


def message_of(r: Reader) -> Message:
    r.number(1, 15, 15, "the entity identifier")
    ri, type_, ai = int.from_bytes(r.octets(2), "big"), r.number(1), r.number(1)
    r.need(ai % 2 == 1, "Ai is not the last one")
    return Message(type_, ri, ai // 2)


def tei_on(r: Reader, line: Line) -> int:
    tei = r.number(1)
    r.need(tei in line.teis, f"TEI {tei} is not on the line")
    return tei


def teis_of_terminal(r: Reader, config: Config, line: Line) -> None:
    line.number = r.number(2)
    kind = r.number(1, 0, 2, "a procedure")
    if kind == 1:
        line.procedure = kind, r.number(1, 1, 3, "an attempt"), r.number(2)
    elif kind == 2:
        line.procedure = kind, r.number(1, 1, 2, "an attempt"), tei_on(r, line)
    line.messages = r.list(config.terminals + 1, lambda: message_of(r), "messages")
    running, _, of = line.procedure or (0, 0, 0)
    asked = {1: Message(1, of, GROUP), 2: Message(7, 0, of)}.get(running)
    r.need(all(it == asked or it.type == 5 and it.ai in line.teis for it in line.messages), "a message waits that is not due")
    named = [it.ai if it.type == 5 else GROUP for it in line.messages]
    r.need(len(set(named)) == len(named), "a message waits twice")


def teis_of_others(r: Reader, config: Config, line: Line) -> None:
    line.remembered = r.list(4, lambda: (r.number(2), tei_on(r, line)), "assignments")
    for members in zip(*line.remembered):
        r.need(len(set(members)) == len(members), "an assignment is remembered twice")
    period = r.number(1, 0, 3, "a period")
    if period:
        tei, most = tei_on(r, line), int(period < 3)
        line.check = period, tei, r.number(1, 0, most, "the responses"), r.number(1, 0, most, "the responses")
    line.due = r.bits(config.terminals)
    due = [tei for tei, is_due in zip(line.places, line.due) if is_due]
    r.need(not due or line.check is not None and not {None, line.check[1]} & set(due), "a check is due that can't be")
    r.need(not (line.remembered if config.annex_b else due or period == 3), "it is of the other reading of the tables")
    line.messages = r.list(4, lambda: message_of(r), "messages")
    r.need(all(it.type in (2, 3) or it.type in (4, 6) and it.ri == 0 for it in line.messages), "a message is none of the network's")


def link_of(r: Reader, config: Config, window: int) -> Link:
    octet, flags = r.number(1), r.bits(len(FLAGS))
    state, owed = octet % OWED, octet // OWED
    r.need(4 <= state <= 8 and owed <= 1, f"a state is {octet}")
    rc, va, outstanding, vr = r.number(1, 0, config.n200, "RC"), r.number(1, 0, 127, "V(A)"), r.number(1, 0, window, "V(S) - V(A)"), r.number(1, 0, 127, "V(R)")
    again, counted = r.number(1), [r.number(2) for _ in COUNTED_OF_LINK]
    contents = r.list(config.queue, lambda: r.contents(config.n201), "contents")
    link = Link(state, owed == 1, flags, rc, va, outstanding, vr, again, counted, contents, r.list(config.control, lambda: control_of(r), "control frames"))
    r.need(outstanding <= len(contents), "contents are missing")
    r.need(again <= len(contents) - outstanding, "more contents go again than are unsent")
    r.need(not contents or state in (7, 8) or state == 5 and not flags[ASKED], "contents wait in a state that has none")
    r.need(not owed or config.annex_b and state == 5 and not flags[ASKED] and not contents, "a release is owed that can't be")
    r.need(not (flags[OWN_BUSY] and flags[PENDING]), "a busy side owes an acknowledgement")
    allowed = {4: ["-"], 7: ["t200"] + ["t203"] * (outstanding == 0)}.get(state, ["t200"])
    running = [name for name, runs in zip(("t200", "t203"), flags[T200:]) if runs]
    r.need("".join(running) in allowed or not running and allowed == ["-"], "a link runs other timers than its state")
    return link


def control_of(r: Reader) -> Tuple[bool, bytes]:
    command, first = bool(r.number(1, 0, 1, "command or response")), r.number(1)
    if first in (1, 5, 9):
        return command, bytes([first]) + r.octets(1)
    r.need(command in UNNUMBERED.get(first & ~0x10, ()), f"{first:02X} is no control frame that can wait")
    return command, bytes([first])


def lengths_of(r: Reader) -> List[int]:
    return [r.number(4, 1, LONGEST, "a timer's length") for _ in range(4)]


def clock_of(r: Reader, card: Card) -> Clock:
    lengths, now = lengths_of(r), r.number(8, 0, (1 << 63) - 1, "the moment")
    moments = [[r.number(8, 0, now + LONGEST, "when a timer is due") for _ in line.timers()] for line in card.lines]
    changed = [[r.number(8, 0, now, "when a state changed") for _ in range(2 * card.config.terminals)] for _ in card.lines]
    return Clock(lengths, now, moments, changed)
