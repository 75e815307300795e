"""Plays a script on the program, and tells step by step what came of it.

A line of the script is handed over in pieces where that shows more and changes nothing: `rx` up to and with each octet
that ends something, so that each answer is known to be that octet's; and `wait` up to each moment at which a timer can
fall due, so that each note has its moment.
"""
import math
from typing import Dict, Iterator, List, NamedTuple, Optional, Set, Tuple

from .bits import Deframer, Drop, Frame, Heard, Terminal
from .program import Ended, Fault, Program
from .script import Line, lines_of

SECOND = 1000  # timers run for whole seconds where no line says otherwise, so each falls due so many after some line
MOST_MOMENTS = 5000  # a `wait` with more moments than these is handed over whole


class Step(NamedTuple):
    """A piece of a line that was played: what stood on a line of the card, and what the program answered."""

    line: Line
    at: int  # the clock after it, in milliseconds
    octets: bytes  # those that came from the other side, or went to it; of a card of frames those of the frame
    heard: List[Heard]  # what ended in them
    answer: List[str]
    is_of_network: bool  # what ended in them is what the network sent; else what the user did


class Side:
    """What stands on a line of the card: who sends the frames of `in`, and listeners to both ways."""

    def __init__(self) -> None:
        self.terminal = Terminal()
        self.received = Deframer()
        self.sent = Deframer()


class Play:
    """A script that is played. Its steps are told as they come; `ended` says how it ended, once they are through."""

    def __init__(self, script: bytes, program: Optional[str] = None) -> None:
        self.script = script
        self.program = program
        self.clock = 0
        self.is_for_frames = False
        self.is_user = False  # the card is the user's side
        self.is_terminal = False  # and a terminal
        self.step = SECOND  # what the lengths of all timers are multiples of
        self.moments: Set[int] = set()  # those of lines of the script, but for whole steps
        self.sides: Dict[int, Side] = {}
        self.ended: Optional[Ended] = None

    def steps(self) -> Iterator[Step]:
        is_early = False
        with Program(self.program) as program:
            for line in lines_of(self.script):
                for text, at, octets, heard in self.pieces(line):
                    answer = program.ask(text, line.number)
                    if answer is None:
                        is_early = True
                        break
                    self.clock = at
                    if line.word() == "pull":
                        octets, heard = self.pulled(line, answer)
                    elif line.word() == "next":
                        octets, heard = taken(answer)
                    is_sent = line.word() in ("pull", "next")
                    yield Step(line, at, octets, heard, answer, is_sent != self.is_user)
                else:
                    continue
                break
            self.ended = program.end()
            if is_early and not self.ended.status:
                raise Fault("the program ended before the script did")

    def pieces(self, line: Line) -> Iterator[Tuple[bytes, int, bytes, List[Heard]]]:
        """What a line is handed over as: text, the clock after it, the octets that it brings, and what ends in them."""
        brings, ms = line.brings(), line.waits()
        if ms is not None:
            clock = self.clock
            for at in self.stops(clock + ms):
                yield b"wait %d" % (at - clock), at, b"", []
                clock = at
            return
        if line.lengths():
            self.step = math.gcd(self.step, *line.lengths())
            self.moments = {it % self.step for it in self.moments}
        self.moments.add(self.clock % self.step)
        self.is_for_frames |= line.word() == "frames"
        self.is_user |= line.is_of_user()
        self.is_terminal |= line.is_of_terminal()
        if brings is None:
            yield line.text, self.clock, b"", failed(line)
        elif self.is_for_frames:
            yield line.text, self.clock, brings[2], [whole(brings[2])]
        elif brings[0] == "in":
            yield self.framed(line, brings[1], brings[2])
        else:
            yield from self.cut(line, brings[1], brings[2])

    def stops(self, end: int) -> List[int]:
        """The moments up to the end of a `wait` at which a timer can fall due, and the end."""
        first = self.clock + 1
        count = len(self.moments) * (end - self.clock) // self.step
        moments = self.moments if count <= MOST_MOMENTS else ()
        due = {at for it in moments for at in range(first + (it - first) % self.step, end, self.step)}
        return sorted(due | {end})

    def framed(self, line: Line, about: int, frame: bytes) -> Tuple[bytes, int, bytes, List[Heard]]:
        side = self.side(about)
        octets = side.terminal.frame(frame)
        return line.text, self.clock, octets, [it for _, it in side.received.octets(octets)]

    def cut(self, line: Line, about: int, octets: bytes) -> Iterator[Tuple[bytes, int, bytes, List[Heard]]]:
        """The octets of `rx` up to and with each that ends something."""
        found, begin = self.side(about).received.octets(octets), 0
        ends = [*dict.fromkeys([it for it, _ in found] + [len(octets)])]
        for end in ends:
            piece = octets[begin:end]
            text = b"rx %d %s" % (about, piece.hex().upper().encode() or b"-")
            yield text, self.clock, piece, [it for at, it in found if at == end]
            begin = end

    def pulled(self, line: Line, answer: List[str]) -> Tuple[bytes, List[Heard]]:
        """The octets of a `tx` line, and what ends in them."""
        octets = bytes.fromhex(answer[0].split(" ")[2]) if answer else b""
        return octets, [it for _, it in self.side(line.about() or 0).sent.octets(octets)]

    def side(self, about: int) -> Side:
        return self.sides.setdefault(about, Side())


def whole(octets: bytes) -> Heard:
    """What a frame that comes to a card of frames is heard as."""
    least = 3 if octets[2:3] and octets[2] & 3 == 3 else 4
    return Frame(octets) if len(octets) >= least else Drop("short", octets, 8 * len(octets))


def failed(line: Line) -> List[Heard]:
    """What a controller told in place of a frame."""
    words = line.words()
    return [Drop(words[2], b"", 0)] if words[0] == "failed" and len(words) == 3 else []


def taken(answer: List[str]) -> Tuple[bytes, List[Heard]]:
    """The frame that a `next` took, if any."""
    said = answer[0].split(" ") if answer else []
    octets = bytes.fromhex(said[2]) if said[1:2] == ["frame"] else b""
    return octets, [Frame(octets)] if octets else []
