"""A ladder as text, 100 columns wide."""
import textwrap
from typing import Iterator, List, NamedTuple, Tuple

from .story import BESIDE, COMMENT, CUT, DOWN, FAULT, FROM_THE_LEFT, NETWORK_SIDE, PAUSE, UP, Row

TIME, LINK, TOP = 7, 58, 31  # columns for the time, between the other side and the card, and between that and layer 3
WIDTH = TIME + LINK + TOP + 4
MOST_ROWS = 3  # of digits below an arrow


class Signs(NamedTuple):
    """What a ladder is drawn with."""

    bar: str
    gap: str
    dash: str
    right: str
    left: str
    cut: str
    rest: str


UNICODE = Signs("│", "┊", "─", "▶", "◀", "✗", "…")
ASCII = Signs("|", ":", "-", ">", "<", "x", "..")


class Ladder:
    """Draws rows as lines of text."""

    def __init__(self, signs: Signs = UNICODE, names: Tuple[str, str, str] = NETWORK_SIDE) -> None:
        self.signs = signs
        self.names = names
        self.shown = -1  # the latest time that was shown

    def draw(self, title: str, rows: List[Row]) -> Iterator[str]:
        self.shown = -1
        yield title
        yield ""
        names = self.names[0].ljust(LINK - 2) + self.names[1].ljust(TOP - 3) + self.names[2]
        yield f"{'ms':>{TIME}} {names:>{WIDTH - TIME - 1}}"
        if not rows or rows[0].kind != COMMENT:
            yield self.line(-1, "", "")
        for row in rows:
            yield from self.row(row)

    def line(self, at: int, link: str, top: str, is_gap: bool = False) -> str:
        """A line of text: the time where it is another than the latest, and what stands between the bars."""
        time = str(at) if at not in (-1, self.shown) else ""
        self.shown = at if at != -1 else self.shown
        bar = self.signs.gap if is_gap else self.signs.bar
        return f"{time:>{TIME}} {bar}{link:{LINK}}{bar}{top:{TOP}}{bar}"

    def row(self, row: Row) -> Iterator[str]:
        if row.kind == PAUSE:
            yield self.line(-1, row.head.center(LINK), "", is_gap=True)
        elif row.kind == COMMENT:
            yield self.line(-1, "", "")
            yield from textwrap.wrap(row.head, WIDTH, initial_indent=" " * (TIME + 3), subsequent_indent=" " * (TIME + 3))
        elif row.kind == FAULT:
            yield f"{'':{TIME}} {self.signs.cut} {row.head}"
        elif row.kind == BESIDE:
            yield self.line(row.at, "", f" {row.head}")
        elif row.kind in (UP, DOWN):
            yield from (self.line(row.at, "", it) for it in self.arrow(row, TOP))
        else:
            first, *below = self.arrow(row, LINK)
            yield self.line(row.at, first, f" {row.beside}")
            yield from (self.line(-1, it, "") for it in below)

    def arrow(self, row: Row, width: int) -> Iterator[str]:
        """An arrow with its words, and below it, at its beginning, the octets that find no room on it and what they mean."""
        head, below = f"{row.head} {row.info}".rstrip(), []
        if len(head) > width - 6:
            head, below = row.head, self.wrapped(row.info, width - 6)
        signs, lead = self.signs, self.signs.dash * (2 if len(head) < width - 5 else 1)
        dashes = signs.dash * (width - len(head) - len(lead) - 3)
        below += textwrap.wrap(row.meaning, width - 6)
        if row.kind in FROM_THE_LEFT:
            yield f"{lead} {head} {dashes}{signs.cut if row.kind == CUT else signs.right}"
            yield from (f"   {it}" for it in below)
        else:
            yield f"{signs.left}{dashes} {head} {lead}"
            yield from (f"{it:>{width - 3}}" for it in below)

    def wrapped(self, digits: str, room: int) -> List[str]:
        """Octets in rows, of which the last tells how many they are where not all can be shown."""
        room -= room % 2
        texts = [digits[at : at + room] for at in range(0, len(digits), room)]
        if len(texts) > MOST_ROWS:
            texts = [*texts[: MOST_ROWS - 1], f"{self.signs.rest} ({len(digits) // 2} octets)"]
        return texts
