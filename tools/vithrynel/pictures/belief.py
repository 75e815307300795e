"""The chain of belief: what stands on what, and whether that is read by us, proved, tested or trusted."""
from typing import Sequence

from ..svg import Drawing

WIDTH, HEIGHT = 1090, 400
READ, PROVED, TESTED, TRUSTED = "red", "green", "blue", "amber"


def place(draw: Drawing, x: float, y: float, name: str, rows: Sequence[str]) -> None:
    """A thing that one can read or run."""
    draw.box(x, y, 176, 92, "panel", "ink", round=9)
    draw.text(x + 88, y + 26, name, size=14, anchor="middle", bold=True)
    for number, row in enumerate(rows):
        draw.text(x + 88, y + 48 + 18 * number, row, "soft", 12.5, anchor="middle")


def way(draw: Drawing, points: Sequence[Sequence[float]], ink: str, words: Sequence[str], at: Sequence[float]) -> None:
    """An arrow with its words."""
    draw.arrow([(x, y) for x, y in points], ink, 2.4)
    for number, row in enumerate(words):
        draw.text(at[0], at[1] + 16 * number, row, ink, 12.5, anchor="middle")


def draw(_: str) -> str:
    """The picture."""
    it = Drawing(
        "The chain of belief",
        "We wrote the tables of MACHINE.md as we remember Q.921, and the definitions row by row. Of the definitions the promises "
        "are proved as laws, and of the Rattle code that it does what they say. The compiler that makes the library of it is "
        "trusted, and what is made of that, lapd.c and lapd.h, is tested.",
    )
    place(it, 24, 60, "Q.921", ["the printed text"])
    place(it, 310, 60, "tables", ["docs/MACHINE.md"])
    place(it, 596, 60, "definitions", ["specs/: the machine"])
    place(it, 890, 60, "promises", ["tests/statement.txt"])
    place(it, 596, 240, "Rattle code", ["crates/lapd_*/src"])
    place(it, 310, 240, "library", ["machine code"])
    place(it, 24, 240, "what you call", ["lapd.c, lapd.h", "lapd.hpp, lapd.py"])
    way(it, [(200, 106), (310, 106)], READ, ["from memory,", "uncompared"], (255, 74))
    way(it, [(486, 106), (596, 106)], READ, ["row by row", "(tests/rows)"], (541, 74))
    way(it, [(772, 106), (890, 106)], PROVED, ["laws"], (831, 96))
    way(it, [(684, 152), (684, 240)], PROVED, ["contracts: each event", "is a step of the machine"], (784, 192))
    way(it, [(596, 286), (486, 286)], TRUSTED, ["compiler"], (541, 276))
    way(it, [(310, 286), (200, 286)], TESTED, ["tests/c"], (255, 276))
    x = 40.0
    for words, ink in (("read by us", READ), ("proved", PROVED), ("tested", TESTED), ("trusted, as the prover is", TRUSTED)):
        it.box(x, 360, 12, 12, ink, round=3)
        it.text(x + 18, 370.5, words, "soft", 12.5)
        x += 52 + 7.4 * len(words)
    return it.written(WIDTH, HEIGHT)
