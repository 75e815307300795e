"""What passes on a line of the card, between the other side, the card and layer 3, as rows that a ladder draws."""
import re
from typing import Dict, Iterable, Iterator, List, NamedTuple, Optional, Tuple

from .bits import Drop, Frame, Heard
from .frames import Words, digits, read
from .play import Step
from .script import USUAL_SAPI, Line

FLAGS, ONES = b"\x7e", b"\xff"
# how a row is drawn: the arrow between two of the three, or words beside the card
IN, CUT, REST, OUT = "in", "cut", "rest", "out"  # between the other side and the card
UP, DOWN, BESIDE = "up", "down", "beside"  # between the card and layer 3
OF_CARD = "stored", "image"  # what lines of a transcript begin with that are about the whole card
COMMENT, PAUSE, FAULT = "comment", "pause", "fault"
NO_SIGN = re.compile("[^\t\x20-\x7e\xa0-\ud7ff\ue000-\ufffd\U00010000-\U0010ffff]")  # what no text should have
FROM_THE_LEFT = IN, CUT, REST, UP
# the three, from left to right, if the card is the network's side, a trunk's end, or a terminal
NETWORK_SIDE, USER_SIDE = ("terminal", "exchange", "layer 3"), ("exchange", "user", "layer 3")
TERMINAL_SIDE = ("exchange", "terminal", "layer 3")


class Row(NamedTuple):
    """A row of a ladder: `head` stands on its arrow, `info` and `meaning` on it or below, `beside` after a cut one."""

    at: int
    kind: str
    head: str
    info: str = ""
    meaning: str = ""
    beside: str = ""


def of_frame(at: int, kind: str, octets: bytes, is_of_network: bool) -> Row:
    """A frame in words; where it can't be read, its octets and why."""
    words = read(octets, is_of_network)
    if isinstance(words, Words):
        head, info = (f"{words.head()} info", digits(words.info)) if words.info else (words.head(), "")
        return Row(at, kind, head, info, words.meaning())
    return Row(at, kind, "octets", digits(octets), f"no frame: {words}")


def of_drop(at: int, kind: str, drop: Drop) -> Row:
    """What was no frame, as it stood on the line."""
    if not drop.bits:
        return Row(at, kind, "no frame")
    bits = f"{drop.bits} bits" if drop.bits > 1 else "1 bit"
    if drop.cause in ("abort", "ragged"):
        return Row(at, kind, f"{bits}, then seven 1s" if drop.cause == "abort" else bits, digits(drop.octets))
    return Row(at, kind, "octets, with their check", digits(drop.octets))


def of_heard(step: Step, kind: str, heard: Heard) -> Row:
    """What ended in the octets of a step."""
    if isinstance(heard, Frame):
        return of_frame(step.at, kind, heard.octets, step.is_of_network)
    return of_drop(step.at, kind, heard)


def of_rest(step: Step) -> Optional[Row]:
    """Octets from the other side that end nothing."""
    octets = step.octets
    if octets == FLAGS * len(octets):
        return None
    if octets == ONES * len(octets):
        return Row(step.at, REST, f"{8 * len(octets)} ones")
    return Row(step.at, REST, "octets that end no frame", digits(octets))


def of_answer(at: int, said: str, sapi: str) -> Optional[Row]:
    """What a line of a transcript tells, after the number of its line; nothing of what a line takes."""
    word, _, rest = said.partition(" ")
    if word in ("tx", "frame", "nothing"):
        return None
    if word in ("dropped", "lost", "counter"):
        return Row(at, BESIDE, said)
    if word in ("given-up", "given-up-16"):
        row = with_sapi(Row(at, BESIDE, said), "-16", sapi)
        return row._replace(head=" ".join(filter(None, (row.head, row.meaning))), meaning="")
    words = rest.split(" ")
    if word.partition("-")[0] in ("data", "unit"):
        return with_sapi(Row(at, UP, f"{word} {words[0]}", words[1]), "-16", sapi)
    return with_sapi(Row(at, UP, said), "-16", sapi)


def with_sapi(row: Row, ending: str, sapi: str) -> Row:
    """A row about a packet link, whose first word ends so: if its SAPI is another than the usual one, that stands below the
    arrow in place of the ending."""
    word, _, rest = row.head.partition(" ")
    if sapi == USUAL_SAPI or not word.endswith(ending):
        return row
    return row._replace(head=f"{word[: -len(ending)]} {rest}", meaning=f"sapi {sapi}")


def of_request(at: int, line: Line, sapi: str) -> Row:
    word, _, *rest = line.words()
    tei, contents = [int(it) for it in rest[:1]], rest[1:]
    row = Row(at, DOWN, " ".join([word, *map(str, tei)]), contents[0].upper() or "-" if contents else "")
    return with_sapi(row, "16", sapi)


def of_traffic(step: Step) -> Iterator[Row]:
    """What ended in the octets of a step. Frames are cut where the card says that it dropped more than the drops."""
    more = sum(it.split(" ")[1] == "dropped" for it in step.answer)
    more -= sum(isinstance(it, Drop) for it in step.heard)
    for left, heard in zip(range(len(step.heard), 0, -1), step.heard):
        is_cut = isinstance(heard, Drop) or left <= more
        yield of_heard(step, CUT if is_cut else IN, heard)


def of_step(step: Step, about: int, sapi: str) -> Iterator[Row]:
    """What a step shows on a line of the card, whose packet links have this SAPI."""
    word = step.line.word()
    if step.line.about() == about:
        if word in ("pull", "next"):
            yield from (of_heard(step, OUT, it) for it in step.heard)
        elif word in ("rx", "in", "failed"):
            yield from of_traffic(step)
            rest = of_rest(step) if not step.heard else None
            yield from [rest] if rest else []
        elif word not in ("counters", "messages"):
            yield of_request(step.at, step.line, sapi)
    for said in step.answer:
        line, _, told = said.partition(" ")
        row = Row(step.at, BESIDE, said) if line in OF_CARD else of_answer(step.at, told, sapi) if line == str(about) else None
        yield from [row] if row else []


def followed(steps: Iterable[Step]) -> Iterator[Tuple[Optional[int], Step]]:
    """Each step, and the line of the card that it is about; of a comment that of the next line which isn't skipped."""
    waiting: List[Step] = []
    for step in steps:
        if step.line.is_skipped():
            waiting += [step] if step.line.is_comment() else []
            continue
        about = step.line.about()
        yield from ((about, it) for it in waiting)
        waiting = []
        yield about, step
    yield from ((None, it) for it in waiting)


def of_comment(step: Step) -> Row:
    words = step.line.text[1:].decode("utf-8", "replace").strip()
    return Row(step.at, COMMENT, NO_SIGN.sub("\N{REPLACEMENT CHARACTER}", words))


def stories(steps: Iterable[Step], with_comments: bool = True) -> Dict[int, List[Row]]:
    """The rows of each line of the card of which the script speaks."""
    told = list(followed(steps))
    sapi = next((it.line.sapi() for _, it in told if it.line.is_card()), USUAL_SAPI)
    lines = {about for about, _ in told if about is not None}
    lines |= {int(it.split(" ")[0]) for _, step in told for it in step.answer if not it.startswith(OF_CARD)}
    found: Dict[int, List[Row]] = {it: [] for it in sorted(lines) or [0]}
    for about, step in told:
        for line, rows in found.items():
            if about not in (None, line):
                continue
            if not step.line.is_skipped():
                rows += of_step(step, line, sapi)
            elif with_comments:
                rows.append(of_comment(step))
    return {line: paused(joined(rows)) for line, rows in found.items()}


def joined(rows: List[Row]) -> List[Row]:
    """The rows, where the cause of a drop stands after what was dropped."""
    out: List[Row] = []
    for row in rows:
        if row.kind == BESIDE and row.head.startswith("dropped ") and out and out[-1].kind == CUT and not out[-1].beside:
            out[-1] = out[-1]._replace(beside=row.head)
        else:
            out.append(row)
    return out


def paused(rows: List[Row]) -> List[Row]:
    """The rows with one for the time that passes between two of them."""
    out: List[Row] = []
    for row in rows:
        if out and row.at > out[-1].at:
            out.append(Row(row.at, PAUSE, f"{row.at - out[-1].at} ms"))
        out.append(row)
    return out
