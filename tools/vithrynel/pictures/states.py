"""The states of a link, and what leads from one to another (docs/MACHINE.md, "A data link")."""
from typing import List, Sequence, Tuple

from ..svg import Drawing, Point

WIDTH, HEIGHT = 1052, 690
HEARD, ASKED, TIMER, SENT = "blue", "amber", "violet", "green"  # what leads to a change, and what it sends
Told = Tuple[Tuple[str, str], ...]  # words, each with its ink


def told(draw: Drawing, x: float, y: float, rows: Sequence[Told], anchor: str = "start") -> None:
    """Rows of words in several inks."""
    for row in rows:
        draw.phrase(x, y, row, 12.5, anchor)
        y += 17


def state(draw: Drawing, place: Sequence[float], number: int, name: str, rows: Sequence[Told]) -> None:
    """A state at a place (left, upper, width, height): its number, its name, and what happens in it."""
    x, y = place[:2]
    draw.box(*place, "panel", "ink", round=9)
    draw.box(x + 10, y + 10, 24, 24, "ink", round=12)
    draw.text(x + 22, y + 27, str(number), "paper", 14, anchor="middle", bold=True)
    draw.text(x + 42, y + 27, name, size=14, bold=True)
    told(draw, x + 14, y + 54, rows)


def ways(draw: Drawing) -> None:
    """The changes between states: an arrow each, with its words."""
    often, or_ = ("T200 once too often", TIMER), ("or ", "soft")
    changes: List[Tuple[Sequence[Point], float, float, str, Sequence[Told]]] = [
        ([(92, 232), (92, 84), (392, 84)], 106, 76, "start", [(("establish", ASKED), (": SABME out", SENT))]),
        ([(392, 132), (172, 132), (172, 232)], 186, 152, "start", [(("DM F=1,", HEARD),), (or_, often)]),
        ([(648, 84), (940, 84), (940, 250)], 794, 76, "middle", [(("UA F=1", HEARD),)]),
        (
            [(724, 276), (470, 276), (470, 152)], 484, 186, "start",
            [
                (("DM F=0 (in 8 any DM), FRMR,", HEARD),),
                (("a faulty frame, a wrong N(R),", HEARD),),
                (or_, ("T200 once too often (in 8)", TIMER)),
                (("SABME out", SENT),),
            ],
        ),
        ([(280, 320), (740, 320)], 510, 312, "middle", [(("SABME", HEARD), (": UA out", SENT))]),
        ([(724, 374), (280, 374)], 510, 366, "middle", [(("DISC", HEARD), (": UA out", SENT))]),
        ([(860, 540), (860, 588), (648, 588)], 754, 580, "middle", [(("release", ASKED), (": DISC out", SENT))]),
        (
            [(392, 588), (132, 588), (132, 400)], 146, 544, "start",
            [(("UA F=1 or DM F=1,", HEARD),), (or_, often)],
        ),
    ]
    for points, x, y, anchor, rows in changes:
        draw.arrow(points, "ink", 1.6)
        told(draw, x, y, rows, anchor)


def recovery(draw: Drawing) -> None:
    """Between states 7 and 8."""
    draw.arrow([(764, 346), (764, 424)], "ink", 1.6)
    told(draw, 774, 378, [(("T200 or T203:", TIMER),), (("enquiry out", SENT),)])
    draw.arrow([(988, 424), (988, 346)], "ink", 1.6)
    told(draw, 978, 378, [(("answer F=1,", HEARD),), (("SABME", HEARD), (": UA", SENT))], "end")


def legend(draw: Drawing) -> None:
    x = 40
    inks = ("heard from the terminal", HEARD), ("asked by layer 3", ASKED), ("a timer expired", TIMER), ("sent", SENT)
    for words, ink in inks:
        draw.box(x, 656, 12, 12, ink, round=3)
        draw.text(x + 18, 666.5, words, "soft", 12.5)
        x += 48 + 7.4 * len(words)


def draw(_: str) -> str:
    """The picture."""
    it = Drawing(
        "The states of a link",
        "TEI assigned (4), awaiting establishment (5), awaiting release (6), multiple frame established (7) and timer "
        "recovery (8), with what leads from one to another.",
    )
    it.text(24, 34, "The states of a link", size=16, bold=True)
    it.box(724, 214, 304, 326, "on-green", "green", round=12)
    it.text(740, 238, "the link is up", "green", 13, bold=True)
    ways(it)
    state(it, (40, 232, 240, 168), 4, "TEI assigned", [
        (("DISC", HEARD), (": DM out", SENT)),
        (("UA", HEARD), (": error C or D", "soft")),
        (("release", ASKED), (": confirmed at once", "soft")),
        (("UI and XID are told, as in every", "soft"),),
        (("state; nothing else is served", "soft"),),
        (("deactivate", ASKED), (": here from each state", "soft")),
    ])
    state(it, (392, 60, 256, 92), 5, "awaiting establishment", [
        (("T200", TIMER), (": SABME again, N200 times", SENT)),
        (("SABME", HEARD), (": UA out; ", SENT), ("DISC", HEARD), (": DM out", SENT)),
    ])
    state(it, (392, 542, 256, 92), 6, "awaiting release", [
        (("T200", TIMER), (": DISC again, N200 times", SENT)),
        (("SABME", HEARD), (": DM out; ", SENT), ("DISC", HEARD), (": UA out", SENT)),
    ])
    state(it, (740, 250, 272, 96), 7, "established", [
        (("I-frames go both ways", "soft"),),
        (("SABME", HEARD), (": UA out, error F, all from 0", SENT)),
    ])
    state(it, (740, 424, 272, 96), 8, "timer recovery", [
        (("T200", TIMER), (": enquiry again, N200 times", SENT)),
        (("I-frames come; no new one is sent", "soft"),),
    ])
    recovery(it)
    legend(it)
    return it.written(WIDTH, HEIGHT)
