"""What is counted as stored, and how much of it a card has at most: of the card of README.md's script."""
import subprocess
from typing import List, Optional, Tuple

from ..program import BUILT, Fault
from ..svg import Drawing

WIDTH, HEIGHT = 1000, 330
LINES, TERMINALS, CONTROL, SLOTS, N201 = 1, 8, 4, 64, 260
PARTS: List[Tuple[str, str, int, str]] = [
    ("the pool: contents of I-frames and unit data", "slots * n201", SLOTS * N201, "green"),
    ("a frame that is being received", "lines * (n201 + 6)", LINES * (N201 + 6), "blue"),
    ("a frame that is being sent", "lines * (n201 + 4)", LINES * (N201 + 4), "blue"),
    ("control frames that wait", "lines * 8 * control * terminals", LINES * 8 * CONTROL * TERMINALS, "violet"),
    ("messages of TEI management that wait: 4 of 8 octets", "lines * 32", LINES * 32, "amber"),
    ("assignments that are remembered: 4 of 3 octets", "lines * 12", LINES * 12, "amber"),
]


def told(program: Optional[str]) -> int:
    """What `lapdsim limits` prints of such a card."""
    words = [program or BUILT, "limits", *map(str, (LINES, TERMINALS, CONTROL, SLOTS, N201))]
    return int(subprocess.run(words, stdout=subprocess.PIPE, check=True).stdout)


def draw(program: Optional[str]) -> str:
    """The picture."""
    total = sum(octets for _, _, octets, _ in PARTS)
    if told(program) != total:
        raise Fault(f"lapdsim limits says otherwise than {total}")
    it = Drawing("What is counted as stored", "The parts of what a card stores, each with the most octets that it takes.")
    it.text(24, 34, "What is counted as stored, at most", size=16, bold=True)
    it.text(WIDTH - 24, 34, "octets of a card of 1 line, 8 TEIs, 4 control frames, 64 slots, n201 260", "soft", 12.5, anchor="end")
    y = 58.0
    for name, formula, octets, ink in PARTS:
        it.box(500, y, max(3.0, 400 * octets / PARTS[0][2]), 22, f"on-{ink}", ink, round=4)
        it.text(24, y + 16, name, size=13)
        it.text(484, y + 16, formula, "soft", 12, anchor="end", mono=True)
        it.text(WIDTH - 24, y + 16, f"{octets:,}", "ink", 12.5, anchor="end", mono=True)
        y += 34
    it.line([(24, y), (WIDTH - 24, y)], "rule", 1.5)
    it.text(24, y + 24, "a card of frames does without the two in blue", "soft", 12.5)
    it.text(WIDTH - 24, y + 24, f"limit {total:,}", "ink", 13, anchor="end", bold=True)
    return it.written(WIDTH, HEIGHT)
