"""Plays scripts of docs/FORMAT.md through bindings/python/lapd.py, as `lapdsim run` does: transcript, fault line and status; also
at cards that keep their own timers."""
import re
import sys
from typing import Any, Dict, Iterator, List, NamedTuple, Optional, Tuple

from compiled import ROOT

sys.path[:0] = [f"{ROOT}/tools", f"{ROOT}/bindings/python"]
import lapd
from vithrynel import table
from vithrynel.bits import Deframer, Frame, Terminal
from vithrynel.header import numbers as numbers_of_header
from vithrynel.table import FIELDS, READING, SIDE, card_line, least_numbers, numbers_of, taken_apart

MOST_LINE, MOST_NUMBER, MOST_TEI, MOST_WAIT, MOST_PULLS = 4096, 65535, 255, 3_600_000, 4096
LATEST = (1 << 63) - 1
# From which place on counters are those of messages.
MESSAGES = numbers_of_header()["LAPD_HEARD_REQUEST"]
OCTETS = re.compile(rb"-|(?:[0-9A-Fa-f]{2})*")
CAUSES = {b"abort": lapd.Cause.ABORT, b"ragged": lapd.Cause.RAGGED, b"short": lapd.Cause.SHORT, b"fcs": lapd.Cause.FCS}
WORDS = {it.word.encode(): it for it in table.WORDS}


# The card of a line's word, and whether it keeps its own timers.
KINDS: Dict[Tuple[str, bool], Any] = {("card", False): lapd.Card, ("frames", False): lapd.FrameCard,
                                      ("card", True): lapd.TimedCard, ("frames", True): lapd.TimedFrameCard}


class Faulty(Exception):
    """What a line is faulty in."""


class Line(NamedTuple):
    word: str
    numbers: List[int]
    octets: bytes = b""
    last: bytes = b""
    config: Dict[str, int] = {}


def number(word: bytes, least: int = 0, most: int = MOST_NUMBER) -> int:
    if not word.isdigit() or not least <= int(word) <= most:
        raise Faulty("bad number")
    return int(word)


def counted(words: List[bytes], *counts: int) -> List[bytes]:
    if len(words) not in counts:
        raise Faulty("bad number of words")
    return words


def config_of(words: List[bytes]) -> Dict[str, int]:
    """The fields of a configuration, by a card line. What is in no range is the largest, as 0 would mean what is usual."""
    plain, ended = taken_apart([it.decode("latin-1") for it in words])
    for it in [*counted(plain, least_numbers(), len(card_line())), *sum(ended.values(), [])]:
        number(it.encode("latin-1"))
    fields = numbers_of(plain, ended)
    fields.update({it.name: MOST_NUMBER for it in FIELDS if it.after and not fields[it.name]})
    seed = ended.get(SIDE)
    side = lapd.Side.NETWORK if seed is None else lapd.Side.TERMINAL if seed else lapd.Side.USER
    reading = lapd.Reading.ANNEX_B if READING in ended else lapd.Reading.PROFILE
    return {**fields, "side": side, "seed": int(seed[0]) if seed else 0, "reading": reading}


def read(text: bytes) -> Line:
    """A line of a script, before a card is asked."""
    word, *words = text.split(b" ")
    if word.decode("latin-1") in table.CARDS:
        return Line(word.decode(), [], config=config_of(words))
    if word == b"timers":
        return Line("timers", [number(it, 1, MOST_WAIT) for it in counted(words, 3, 4)])
    if word == b"failed":
        line = number(counted(words, 2)[0])
        if words[1] not in CAUSES:
            raise Faulty("bad cause")
        return Line("failed", [line], last=words[1])
    if word not in WORDS:
        raise Faulty("unknown word")
    _, count, least, most, has_octets, *_ = WORDS[word]
    counted(words, count + has_octets)
    found = [number(it, *((least, most) if at + 1 == count else ())) for at, it in enumerate(words[:count])]
    if not has_octets:
        return Line(word.decode(), found)
    if not OCTETS.fullmatch(words[-1]):
        raise Faulty("bad octets")
    return Line(word.decode(), found, b"" if words[-1] == b"-" else bytes.fromhex(words[-1].decode()))


def shown(octets: Any) -> str:
    return octets.hex().upper() or "-"


class Station:
    """A card with its clock, if it has one, and at each line a terminal that sends and a listener that hears."""

    def __init__(self, is_timed: bool) -> None:
        self.is_timed = is_timed
        self.card: Any = None
        self.clock: Any = None
        self.now = 0
        self.losses = False
        self.terminals: Dict[int, Terminal] = {}
        self.listeners: Dict[int, Deframer] = {}

    def start(self, line: Line) -> None:
        if self.card:
            raise Faulty("second card")
        config = lapd.Config(**line.config)
        try:
            self.card = KINDS[line.word, self.is_timed](config)
        except lapd.Error:
            raise Faulty("bad card") from None
        self.clock = None if self.is_timed else lapd.Clock(config)

    def told(self, line: int, report: lapd.Report) -> Iterator[str]:
        for note in report.notes:
            has_contents = note.kind in (lapd.NoteKind.DATA_INDICATION, lapd.NoteKind.UNIT_INDICATION)
            more = f" {shown(report.contents)}" if has_contents else f" {note.error}" if note.error else ""
            yield f"{line} {note} {note.tei}{more}"
        if report.cause:
            yield f"{line} dropped {report.cause}"
        if report.lost:
            yield f"{line} lost {report.lost}"
        yield from self.given_up(line, report)
        if self.clock:
            self.clock.apply(line, report, self.now)
        elif report.orders or report.line != line:
            raise AssertionError(f"{line} {report}")

    def given_up(self, line: int, report: lapd.Report) -> Iterator[str]:
        if self.losses and report.given_up:
            yield f"{line} given-up {report.given_up_tei} {report.given_up}"
        if self.losses and report.given_up_16:
            yield f"{line} given-up-16 {report.given_up_tei} {report.given_up_16}"

    def received(self, line: int, octets: bytes) -> Iterator[str]:
        for octet in octets:
            yield from self.told(line, self.card.octet(line, octet))

    def pulled(self, line: int, count: int) -> Iterator[str]:
        """Every other octet by a call of its own, the others by an exchange whose first step is done."""
        octets = bytearray()
        for at in range(count):
            given = bytearray(1)
            if at % 2:
                _, report = self.card.exchange(line, b"\0", given, 1)
            else:
                given[0], report = self.card.pull(line)
            octets += given
            yield from self.told(line, report)
        yield f"{line} tx {shown(octets)}"
        for _, heard in self.listeners.setdefault(line, Deframer()).octets(octets):
            if isinstance(heard, Frame):
                yield f"{line} frame {shown(heard.octets)}"

    def next_frame(self, line: int) -> Iterator[str]:
        waits = self.card.next_waiting(line) == line
        found = self.card.next_frame(line)
        more = self.card.next_waiting(line) == line
        if waits != (found is not None) or more != (found is not None and found[1].more):
            raise AssertionError(f"{line} waits {waits} more {more}")
        if found is None:
            yield f"{line} nothing"
            return
        yield from self.told(line, found[1])
        yield f"{line} frame {shown(found[0])}"

    def asked(self, word: str, line: int, tei: int, contents: bytes) -> Iterator[str]:
        request = getattr(self.card, WORDS[word.encode()].request[len("LAPD_"):].lower())
        named = {} if word == "ask" else {"tei": tei, **({"contents": contents} if word.startswith(("data", "unit")) else {})}
        try:
            report = request(line, lapd.Service.PACKET, *named.values()) if word.endswith("16") else request(line, **named)
        except lapd.Refused as fault:
            yield f"{line} refused {fault}"
            return
        yield from self.told(line, report)

    def waited(self, ms: int) -> Iterator[str]:
        end = self.now + ms
        if end > LATEST:
            raise Faulty("time over")
        while (moment := self.next()) is not None and moment <= end:
            self.now = moment
            yield from self.fell_due()
        self.now = end
        if self.is_timed and list(self.card.fall_due(end)):
            raise AssertionError(f"at {end} a timer was due before")

    def next(self) -> Any:
        return self.card.next_moment() if self.is_timed else self.clock.next()

    def fell_due(self) -> Iterator[str]:
        """What is due at this moment: all of it, or of a clock the first."""
        if self.is_timed:
            for report in self.card.fall_due(self.now):
                yield from self.told(report.line, report)
        else:
            due = self.clock.due(self.now)
            yield from self.told(due.line, self.card.expire(due.line, due.timer))

    def counted(self, line: int, is_shown: range) -> Iterator[str]:
        found = {name: value for place, (name, value) in enumerate(self.card.counters(line).items()) if value and place in is_shown}
        yield from [f"{line} counter {name} {value}" for name, value in found.items()] or [f"{line} nothing"]

    def obey(self, line: Line) -> Iterator[str]:
        """What a line leads to."""
        if line.word in table.CARDS:
            self.start(line)
        elif not self.card:
            raise Faulty("no card")
        elif line.word == "wait":
            yield from self.waited(line.numbers[0])
        elif line.word == "timers":
            (self.card if self.is_timed else self.clock).set_lengths(*line.numbers)
        elif line.word == "losses":
            self.losses = True
        elif line.word == "stored":
            yield f"stored {self.card.stored()} limit {self.card.limit()}"
        elif line.word in (("rx", "pull") if isinstance(self.card, lapd.FrameCard) else ("failed", "next", "restore")):
            raise Faulty("wrong card")
        elif line.word == "save":
            pass  # what it shows is asked by tests/image
        elif line.word == "restore":
            self.card = type(self.card).restore(self.card.save())
        elif line.numbers[0] >= self.card.lines():
            raise Faulty("bad line")
        else:
            yield from self.obey_at(line.numbers[0], line)

    def obey_at(self, at: int, line: Line) -> Iterator[str]:
        """What a line leads to that is about one line of the card, which has it."""
        is_for_frames = isinstance(self.card, lapd.FrameCard)
        if line.word == "in" and not is_for_frames and not 3 <= len(line.octets) <= 1028:
            raise Faulty("bad frame")
        if line.word == "rx":
            yield from self.received(at, line.octets)
        elif line.word == "in" and is_for_frames:
            yield from self.told(at, self.card.frame(at, line.octets))
        elif line.word == "in":
            yield from self.received(at, self.terminals.setdefault(at, Terminal()).frame(line.octets))
        elif line.word == "failed":
            yield from self.told(at, self.card.failed(at, CAUSES[line.last]))
        elif line.word == "pull":
            yield from self.pulled(at, line.numbers[1])
        elif line.word == "next":
            yield from self.next_frame(at)
        elif line.word == "down":
            for report in self.card.line_down(at):
                yield from self.told(at, report)
        elif line.word == "counters":
            yield from self.counted(at, range(MESSAGES))
        elif line.word == "messages":
            yield from self.counted(at, range(MESSAGES, lapd.COUNTERS))
        else:
            yield from self.asked(line.word, at, line.numbers[-1], line.octets)


def play(script: bytes, is_timed: bool = False) -> Tuple[bytes, bytes, int]:
    """Transcript, fault line and status of a script."""
    station = Station(is_timed)
    out: List[str] = []
    lines = script.split(b"\n")
    for at, text in enumerate(lines[:-1] if not lines[-1] else lines, 1):
        try:
            if len(text) > MOST_LINE:
                raise Faulty("too long")
            if text and not text.startswith(b"#"):
                out += station.obey(read(text))
        except Faulty as fault:
            return "".join(f"{it}\n" for it in out).encode(), f"line {at}: {fault}\n".encode(), 1
    return "".join(f"{it}\n" for it in out).encode(), b"", 0
