"""Images of random runs of cards and of clocks, by lapd.py, and octets near them."""
import dataclasses
import random
from typing import Any, Dict, Iterator, List, Sequence, Tuple

from spelt import octets_of_clock
from vithrynel.clock_image import NEVER, ClockImage, Running
from vithrynel.image import LONGEST

WORDS = ["in 0 00817F", "in 0 00{:02X}7F", "in 0 0281{:02X}{:02X}", "in 0 0281{:02X}{:02X}08", "in 0 0281{:02X}01", "in 1 00817F", "in 0 40817F",
         "in 0 FCFF030F{:02X}{:02X}01FF", "in 0 FEFF030F0000{:02X}81", "in 0 FEFF030F{:02X}3402{:02X}", "next 0", "next 0", "next 1", "data 0 64 08{:02X}",
         "data16 0 64 {:02X}", "unit 0 127 4{:X}", "unit 0 64 {:02X}", "assign 0 64", "assign 0 65", "assign 1 64", "remove 0 6{}", "check 0 64",
         "in 0 FCFF030F00000783", "in 0 FCFF030F00000581", "disown 0 9{}", "establish 0 64", "establish16 0 64", "release 0 64", "busy 0 64",
         "ready 0 64", "ask 0", "verify 0 64", "down 1", "wait {}00", "wait {}000", "wait 1{}000"]
# Links come up, by commands of the other side, and mostly stay so: then contents fill their queues, and links wait for room.
UP = ["assign 0 64", "in 0 0{}817F", "in 0 4{}817F"]
FULL = ["data 0 64 08{:02X}", "data 0 64 08{:02X}", "data16 0 64 {:02X}", "data16 0 64 {:02X}", "next 0", "in 0 0281010{}", "unit 0 64 {:02X}", "assign 0 65",
        "wait {}"]
# By annex B a check is due, and mostly settles.
DUE = ["assign 0 64", "assign 0 65", "check 0 64", "in 0 FCFF030F00000783", "wait 2{}00"]
# By annex B a release is owed.
OWED = ["assign 0 64", "establish 0 64", "release 0 64"]
CARDS = ["2 2 7 8 4 4 64 260 3", "2 8 1 8 16 16 8192 260 10", "2 2 3 127 1 2 6 8 1 127", "2 2 7 8 4 4 64 260 3 user", "2 2 7 8 4 4 64 260 3 user 4660",
         "2 2 7 8 4 4 64 260 3 annex-b", "2 2 1 1 1 2 8 8 1", "2 2 1 2 2 4 8 260 2 annex-b", "2 2 1 2 2 4 8 260 2 user 7"]


def image_of_run(numbers: random.Random, scripted: Any) -> bytes:
    """The image of a card after a random run: in one of four its links are up, and their queues fill; by annex B, in half of the
    others a check is due at first, and in half a release is owed."""
    is_timed, kind = numbers.random() < 0.7, numbers.choice(["frames", "frames", "card"])
    station = scripted.Station(is_timed)
    card, is_full = numbers.choice(CARDS), numbers.random() < 0.25
    first = [*DUE * (numbers.random() < 0.5), *OWED * (numbers.random() < 0.5)] if card.endswith("annex-b") else []
    before, words = ([it.format(2 * ("user" in card)) for it in UP], FULL) if is_full else (first, WORDS)
    for line in [f"{kind} {card}", *before, *(numbers.choice(words) for _ in range(numbers.randint(0, 60)))]:
        text = line.format(*(numbers.choice((0x7F, 0x01, 0x73, numbers.randrange(10), numbers.randrange(256))) if ":" in line else numbers.randrange(10) for _ in range(4)))
        try:
            list(station.obey(scripted.read(text.encode())))
        except scripted.Faulty:
            pass
    image: bytes = station.card.save()
    return image


# ---- Clocks


class Clock:
    """A clock of lapd.py, and what is known of it: how long timers run, and when each that runs falls due, by its line and itself."""

    def __init__(self, numbers: random.Random, lapd: Any):
        self.numbers, self.lapd, self.lengths = numbers, lapd, [1000, 10000, 1000, 2000]
        self.config = dataclasses.replace(lapd.BASIC_ACCESS, lines=numbers.choice((1, 2, 3, 64)), terminals=numbers.randint(1, 8))
        self.running: Dict[Tuple[int, Any], int] = {}
        self.clock = lapd.Clock(self.config)

    def happens(self) -> None:
        """A timer falls due, lengths are others, or a timer is started or stopped; on a line without a place none is started."""
        what = self.numbers.random()
        if what < 0.2 and self.running:
            due = self.clock.due(self.clock.next())
            self.running.pop((due.line, due.timer), None)
        elif what < 0.3:
            self.lengths = [self.numbers.choice((1, LONGEST, self.numbers.randint(1, LONGEST))) for _ in self.lengths]
            self.clock.set_lengths(*self.lengths)
        else:
            self.is_ordered(self.numbers.randrange(min(2, self.config.lines)), self.timer(), what < 0.9)

    def timer(self) -> Any:
        kind = self.numbers.choice(list(self.lapd.TimerKind))
        of_link = self.numbers.choice(list(self.lapd.Service)), self.numbers.choice((0, 64, 65, 126, self.numbers.randrange(127)))
        return self.lapd.Timer(kind, *(of_link if kind <= self.lapd.TimerKind.T203 else (self.lapd.Service.CALL, 0)))

    def is_ordered(self, line: int, timer: Any, is_started: bool) -> None:
        now, kinds = self.numbers.choice((0, self.numbers.randrange(20000), (1 << 63) - 1, 1 << 63)), self.lapd.OrderKind
        order = self.lapd.Order(kinds.START if is_started else kinds.STOP, timer)
        try:
            self.clock.apply(line, self.lapd.Report(orders=(order,)), now)
        except self.lapd.Error as fault:
            if fault.status != self.lapd.Status.NO_PLACE:
                raise
            return
        if is_started:
            self.running[line, timer] = now + self.lengths[timer.kind - 1]
        else:
            self.running.pop((line, timer), None)

    def words(self) -> Iterator[str]:
        """What tools/image is to say of its image; of timers in no order."""
        yield "image version 1 of a clock"
        yield f"lines {self.config.lines} terminals {self.config.terminals}"
        yield "timers " + " ".join(map(str, self.lengths))
        for (line, timer), moment in self.running.items():
            link = f"{'-16' * (timer.service == self.lapd.Service.PACKET)} {timer.tei}" if timer.kind <= self.lapd.TimerKind.T203 else ""
            yield f"{line} {timer.kind.name.lower()}{link} due {moment}"


def clock_of_run(numbers: random.Random, lapd: Any) -> Tuple[bytes, List[str]]:
    """The image of a clock after a random run, and what it is to say."""
    it = Clock(numbers, lapd)
    with it.clock as clock:
        for _ in range(numbers.randint(0, 100)):
            it.happens()
        return clock.save(), list(it.words())


def clock_with(timers: List[Tuple[int, int, int, int]], lines: int = 1, terminals: int = 1, lengths: Sequence[int] = (1, LONGEST, 1, LONGEST)) -> bytes:
    """The image of a clock whose first line has timers; or, with other numbers, of none."""
    each = [[Running(*it) for it in timers], *[[]] * (lines - 1)]
    return octets_of_clock(ClockImage(terminals, list(lengths), each[:lines]))


def edges_of_clocks() -> Iterator[Tuple[str, bytes, bool]]:
    """Octets that are the image of a clock at an end of its ranges, or just not: what they show, and whether they are one."""
    t201, t202, full = (2, 0, 0, 1), (3, 0, 0, 1), [(timer, tei, 0, 1) for timer in (0, 1) for tei in (0, 126)]
    yield "no timers", clock_with([]), True
    yield "the largest clock", clock_with([(timer, tei, packet, 1) for timer in (0, 1) for tei in range(64, 72) for packet in (0, 1)] + [t201], 64, 8), True
    yield "the first and the last moment", clock_with([(0, 64, 0, 0), (1, 64, 0, NEVER - 1), (0, 64, 1, NEVER - 1)]), True
    yield "every place", clock_with([*full, t202]), True
    yield "a timer more than places", clock_with([*full, t201, t202]), False
    for lines, terminals in ((0, 1), (65, 1), (1, 0), (1, 9), (255, 1), (1, 255)):
        yield f"{lines} lines of {terminals} terminals", clock_with([], lines, terminals), False
    for place, length in ((place, length) for place in range(4) for length in (0, LONGEST + 1)):
        yield f"length {place} is {length}", clock_with([], lengths=[length if it == place else 1 for it in range(4)]), False
    for timer in ((4, 0, 0, 1), (255, 0, 0, 1), (0, 127, 0, 1), (1, 255, 0, 1), (0, 64, 2, 1), (1, 64, 255, 1), (2, 64, 0, 1), (2, 0, 1, 1), (3, 64, 0, 1), (3, 0, 1, 1),
                  (0, 64, 0, NEVER)):
        yield f"the timer {timer}", clock_with([timer]), False
    for timer in (full[0], t201, t202):
        yield f"{timer} twice", clock_with([timer, (*timer[:3], 2)]), False
    whole = clock_with([*full, t201], 2)
    yield from ((f"cut at {at}", whole[:at], False) for at in range(len(whole)))
    yield "an octet more", whole + b"\0", False
    yield from ((f"the kind {kind}", whole[:5] + bytes([kind]) + whole[6:], False) for kind in (0, 1, 2, 3, 5, 6, 7, 8, 12, 255))
    yield "another version", whole[:4] + b"\2" + whole[5:], False


# ---- Octets near images


def changed(image: bytes, others: List[bytes], numbers: random.Random) -> bytes:
    """An image with octets changed, at its front or its end, or cut, or spliced with another."""
    kind, octets = numbers.randrange(4), bytearray(image)
    at = numbers.randrange(min(len(octets), numbers.choice((64, 4096))))
    at = len(octets) - 1 - at if numbers.random() < 0.25 else at
    if kind == 0:
        octets[at] ^= 1 << numbers.randrange(8)
    elif kind == 1:
        octets[at] = numbers.randrange(256)
    elif kind == 2:
        other = numbers.choice(others)
        octets[at:] = other[at:]
    else:
        octets = octets[:at] if numbers.random() < 0.5 else octets + bytes([numbers.randrange(256)])
    return bytes(octets)
