"""Ladders as a picture."""
import re
import textwrap
from typing import List, Tuple

from .story import BESIDE, COMMENT, CUT, DOWN, FAULT, FROM_THE_LEFT, IN, NETWORK_SIDE, OUT, PAUSE, REST, UP, Row
from .svg import Drawing

TIME, OTHER, CARD, LAYER_3, WIDTH = 54, 106, 612, 892, 956
ROW, BELOW = 27, 17  # from one arrow to the next, and to the octets below it
FRAME_SIGNS, NOTE_SIGNS = 62, 34  # how many signs of 13 and 12 pixels stand between two bars
MOST_ROWS = 3  # of digits below an arrow
NAME = re.compile(r"(?:command|response) (\w+) ")  # of a frame in words
INKS = {IN: "blue", OUT: "green", CUT: "red", REST: "soft", UP: "violet", DOWN: "amber"}


class Picture:
    """Draws ladders one below the other."""

    def __init__(self, title: str, names: Tuple[str, str, str]) -> None:
        told = "A ladder of what passes between %s, %s and %s, with the time in milliseconds." % names
        self.drawing = Drawing(title, told)
        self.names = names
        self.y = 0.0
        self.shown = -1

    def ladder(self, title: str, rows: List[Row]) -> None:
        draw, begin = self.drawing, self.y + 56
        self.shown = -1
        draw.text(24, self.y + 34, title, size=15, bold=True)
        for x, name in zip((OTHER, CARD, LAYER_3), self.names):
            wide = 86
            draw.box(x - wide / 2, begin, wide, 26, "panel", "rule")
            draw.text(x, begin + 18, name, anchor="middle", bold=True)
        draw.text(TIME, begin + 18, "ms", "soft", 12, anchor="end")
        place = len(draw.parts)
        self.y = begin + 34
        for row in rows:
            self.row(row)
        end = self.y + 14
        bars: List[str] = []
        draw.parts, kept = bars, draw.parts
        for x in (OTHER, CARD, LAYER_3):
            draw.line([(x, begin + 26), (x, end)], "rule", 2)
        draw.parts = kept[:place] + bars + kept[place:]
        self.y = end

    def row(self, row: Row) -> None:
        draw = self.drawing
        if row.kind == COMMENT:
            self.comment(row.head)
            return
        if row.kind == PAUSE:
            self.pause(row.head)
            return
        self.y += ROW
        if row.kind == FAULT:
            draw.cross(OTHER, self.y - 4)
            draw.text(OTHER + 16, self.y, row.head, "red", bold=True)
            return
        if row.at != self.shown:
            draw.text(TIME, self.y - 1, str(row.at), "soft", 12, anchor="end", mono=True)
            self.shown = row.at
        if row.kind == BESIDE:
            draw.text(CARD + 10, self.y, row.head, "red" if row.head.startswith(("lost", "given-up")) else "soft", 12, mono=True)
        else:
            self.arrow(row)

    def comment(self, words: str) -> None:
        """A comment on a ground of its own, over the bars."""
        texts = textwrap.wrap(words, 112) or [""]
        self.y += 18
        self.drawing.box(OTHER - 14, self.y, LAYER_3 - OTHER + 28, 12 + 18 * len(texts), "panel", round=5)
        for text in texts:
            self.y += 18
            self.drawing.text(OTHER, self.y + 1, text, "ink", 13, italic=True)
        self.y += 8

    def pause(self, words: str) -> None:
        """Time that passes: the bars are broken."""
        self.y += 14
        for x in (OTHER, CARD, LAYER_3):
            self.drawing.box(x - 3, self.y, 6, 20, "paper", round=0)
            self.drawing.line([(x, self.y), (x, self.y + 20)], "soft", 2, "2 4")
        self.drawing.text((OTHER + CARD) / 2, self.y + 14, f"{words} pass", "soft", 12, anchor="middle", italic=True)
        self.y += 14

    def arrow(self, row: Row) -> None:
        draw, ink = self.drawing, "red" if row.head.startswith("refused ") else INKS[row.kind]
        left, right, signs, size = self.between(row)
        head, below = self.words(row, signs)
        rightwards = row.kind in FROM_THE_LEFT
        begin, end = (left + 2, right - 2) if rightwards else (right - 2, left + 2)
        if row.kind == CUT:
            draw.line([(begin, self.y + 5), (end - 12, self.y + 5)], ink)
            draw.cross(end - 7, self.y + 5)
            draw.text(CARD + 10, self.y + 9, row.beside, "red", 12, mono=True)
        else:
            draw.arrow([(begin, self.y + 5), (end, self.y + 5)], ink, dashes="5 4" if row.kind == REST else "")
        side = {} if rightwards else {"anchor": "end"}
        x = begin + 10 if rightwards else begin - 10
        name = NAME.search(head)
        draw.text(x, self.y, head, ink, size, mono=True, strong=name[1] if name else "", **side)
        for text in below:
            self.y += BELOW
            draw.text(x, self.y + 3, text, "soft", 12, mono=True, **side)

    def between(self, row: Row) -> Tuple[float, float, int, float]:
        """The two bars of an arrow, how many signs stand between them, and their size."""
        if row.kind in (UP, DOWN):
            return CARD, LAYER_3, NOTE_SIGNS, 12.5
        return OTHER, CARD, FRAME_SIGNS, 12.5

    def words(self, row: Row, signs: int) -> Tuple[str, List[str]]:
        """What stands on an arrow, and below it."""
        whole = f"{row.head} {row.info}".rstrip()
        if len(whole) <= signs:
            return whole, [row.meaning] if row.meaning else []
        texts = [row.info[at : at + signs] for at in range(0, len(row.info), signs)]
        if len(texts) > MOST_ROWS:
            texts = [*texts[: MOST_ROWS - 1], f"… ({len(row.info) // 2} octets)"]
        return row.head, texts + ([row.meaning] if row.meaning else [])


def draw(ladders: List[Tuple[str, List[Row]]], names: Tuple[str, str, str] = NETWORK_SIDE) -> str:
    """The picture of ladders, each with its title."""
    picture = Picture(ladders[0][0] if len(ladders) == 1 else "What passes on the lines of a card", names)
    for title, rows in ladders:
        picture.ladder(title, rows)
    return picture.drawing.written(WIDTH, picture.y + 16)
