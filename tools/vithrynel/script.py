"""Scripts, as docs/FORMAT.md has them. The program judges a line; this reads those that it can take apart."""
import re
import sys
from typing import Iterator, List, NamedTuple, Optional, Tuple

from .program import Fault
from .table import CARD_WIDE, CARDS

LONGEST_LINE = 4096
LONGEST_WAIT = 3_600_000
USUAL_SAPI = "16"  # of packet links
OCTETS = re.compile(rb"(rx|in) ([0-9]+) (-|(?:[0-9A-Fa-f]{2})*)")
WAIT = re.compile(rb"wait ([0-9]+)")
TIMERS = re.compile(rb"timers 0*([1-9][0-9]*) 0*([1-9][0-9]*) 0*([1-9][0-9]*)(?: 0*([1-9][0-9]*))?")


class Line(NamedTuple):
    """A line of a script."""

    number: int
    text: bytes

    def words(self) -> List[str]:
        return self.text.decode("latin-1").split(" ")

    def word(self) -> str:
        return self.words()[0]

    def is_comment(self) -> bool:
        return self.text.startswith(b"#")

    def is_skipped(self) -> bool:
        return self.text == b"" or self.is_comment()

    def about(self) -> Optional[int]:
        """The line of the card that it is about, if it is about one."""
        words = self.words()
        is_card_wide = self.is_skipped() or words[0] in CARD_WIDE
        return None if is_card_wide or len(words) < 2 or not words[1].isdigit() else int(words[1])

    def brings(self) -> Optional[Tuple[str, int, bytes]]:
        """Of `rx` and `in` the word, the line of the card and the octets."""
        found = OCTETS.fullmatch(self.text) if len(self.text) <= LONGEST_LINE else None
        if not found:
            return None
        octets = b"" if found[3] == b"-" else bytes.fromhex(found[3].decode())
        return found[1].decode(), int(found[2]), octets

    def lengths(self) -> List[int]:
        """Of `timers` the three or four lengths, in milliseconds."""
        found = TIMERS.fullmatch(self.text) if len(self.text) <= LONGEST_LINE else None
        return [int(it) for it in found.groups() if it] if found else []

    def is_of_user(self) -> bool:
        """Whether it is a card line whose card is the user's side."""
        return self.is_card() and "user" in self.words()

    def is_of_terminal(self) -> bool:
        """Whether it is one whose card is a terminal: the seed stands after `user`."""
        words = self.words()
        seed = words[words.index("user") + 1 :] if self.is_of_user() else []
        return seed != [] and seed[0].isdecimal()

    def sapi(self) -> str:
        """The SAPI of packet links that a card line has."""
        words = self.words()
        after = words[words.index("sapi") + 1 :] if self.is_card() and "sapi" in words else []
        return str(int(after[0])) if after and after[0].isdecimal() else USUAL_SAPI

    def is_card(self) -> bool:
        return self.words()[0] in CARDS

    def waits(self) -> Optional[int]:
        """Of `wait` the milliseconds."""
        found = WAIT.fullmatch(self.text) if len(self.text) <= LONGEST_LINE else None
        ms = int(found[1]) if found else LONGEST_WAIT + 1
        return ms if ms <= LONGEST_WAIT else None


def read(path: str) -> bytes:
    """The script at a path, or from standard input where it is `-`."""
    try:
        if path == "-":
            return sys.stdin.buffer.read()
        with open(path, "rb") as it:
            return it.read()
    except OSError as error:
        raise Fault(f"{path}: {error.strerror}") from None


def lines_of(script: bytes) -> Iterator[Line]:
    """The lines of a script, each ended by a line feed, which the last may lack."""
    lines = script.split(b"\n")
    if not lines[-1]:
        lines.pop()
    return (Line(number, text) for number, text in enumerate(lines, 1))
