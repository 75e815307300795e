"""Runs of two ends as the worked values have them, drawn as ladders: what each end sends, when it is received, and what is told."""
import os
import re
from typing import Dict, List, NamedTuple, Sequence, Tuple

from ..program import ROOT, Fault
from ..svg import Drawing

STEP = re.compile(r"at_(near|far) (sends|receives|\((?:requests|expires) (?:\(.*?\)|\w+)[^()]*(?:\([^()]*\)[^()]*)*\))")
ENDS = "near", "far"
FIRST, ROW = 92, 27


class Step(NamedTuple):
    """At which end something is done, and what: sends, receives, or a request or an expiry."""

    end: str
    what: str


class Story(NamedTuple):
    """What the drawing of a run says beside its steps: the frames that each end sends, in order; what layer 3 of an end is told
    as it receives the frame of a number of the other's; what a request or an expiry is called, in order; and remarks by the
    number of the step."""

    sent: Dict[str, Sequence[str]]
    told: Dict[Tuple[str, int], str]
    asked: Sequence[str]
    remarks: Dict[int, str]


def steps_of(crate: str, file: str, name: str) -> List[Step]:
    """The steps of a list in a file of worked values, and of those with which it goes on."""
    with open(os.path.join(ROOT, "crates", crate, "specs", file), encoding="utf-8") as it:
        text = it.read()
    found = re.search(rf"^{name} =((?:.*\n)(?:    .*\n)*)", text, re.M)
    if not found:
        raise Fault(f"{file} has no list {name}")
    body = " ".join(found.group(1).split())
    begin = re.match(r"(\w+) \+\+ ", body)
    before = steps_of(crate, file, begin.group(1)) if begin else []
    return before + [Step(end, what) for end, what in STEP.findall(body)]


class Ladder:
    """A run that is drawn, row by row."""

    def __init__(self, draw: Drawing, near: float, far: float, story: Story) -> None:
        self.draw, self.x, self.story = draw, dict(zip(ENDS, (near, far))), story
        self.way: Dict[str, List[Tuple[int, float]]] = {it: [] for it in ENDS}
        self.sent = dict.fromkeys(ENDS, 0)
        self.asked, self.turns, self.y = 0, 0, float(FIRST)

    def beside(self, end: str, words: str, ink: str) -> None:
        """Words outside of the ladder, at its end."""
        away = -14 if end == "near" else 14
        self.draw.text(self.x[end] + away, self.y + 4, words, ink, 12.5, anchor="end" if end == "near" else "start")

    def sends(self, end: str) -> None:
        number, away = self.sent[end], 12 if end == "near" else -12
        self.draw.text(self.x[end] + away, self.y - 5, self.story.sent[end][number], "ink", 12.5, anchor="start" if end == "near" else "end")
        self.draw.box(self.x[end] - 3, self.y - 3, 6, 6, "ink", round=3)
        self.way[end].append((number, self.y))
        self.sent[end] += 1
        self.turns += 1

    def receives(self, end: str) -> None:
        other = ENDS[end == "near"]
        number, begun = self.way[other].pop(0)
        inside = 5 if end == "near" else -5
        self.draw.arrow([(self.x[other], begun), (self.x[end] + inside / 2, self.y)], "blue" if other == "near" else "green", 1.6)
        told = self.story.told.get((end, number))
        if told:
            self.beside(end, told, "violet")
        self.turns += 1

    def step(self, number: int, it: Step) -> None:
        """One row."""
        if it.what == "sends":
            self.sends(it.end)
        elif it.what == "receives":
            self.receives(it.end)
        else:
            self.beside(it.end, self.story.asked[self.asked], "amber")
            self.asked += 1
        if it.what in ("sends", "receives"):
            self.draw.text(24, self.y + 4, str(self.turns), "soft", 12, anchor="end", mono=True)
        if number in self.story.remarks:
            self.draw.text((self.x["near"] + self.x["far"]) / 2, self.y + 4, self.story.remarks[number], "red", 12.5, anchor="middle")
        self.y += ROW

    def run(self, steps: Sequence[Step], names: Sequence[str]) -> float:
        """All rows between the two ends, and where they end."""
        bottom = FIRST + ROW * len(steps)
        for end, name in zip(ENDS, names):
            self.draw.line([(self.x[end], FIRST - 24), (self.x[end], bottom - 8)], "ink", 2)
            self.draw.text(self.x[end], FIRST - 34, name, size=13.5, anchor="middle", bold=True)
        for number, it in enumerate(steps):
            self.step(number, it)
        if any(self.way.values()) or any(self.sent[it] != len(self.story.sent[it]) for it in ENDS) or self.asked != len(self.story.asked):
            raise Fault("the run that is drawn is not the one that is told")
        return bottom
