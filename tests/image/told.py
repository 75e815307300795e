"""What `lapdsim image` tells of an image: of the lines of tools/image those that the card itself can tell, or their beginnings."""
from typing import Iterator, List, Optional

from vithrynel.image import Card
from vithrynel.image_words import words

WHOLE = "place counted nothing counter waits-for-room changed t200 t203 t201 t202".split()
CUT = {"link": "va", "waiting": "contents"}  # up to this word and what follows it
LAST = (1 << 63) - 1  # the last moment


def moment_of(line: str) -> Optional[int]:
    """When a timer is due, of a line that is about one."""
    return int(line.split(" ")[-1]) if " due " in line else None


def told_of(line: str) -> Optional[str]:
    """What is told of a line of tools/image."""
    first, *rest = line.split(" ")
    if not first.isdigit():
        return None if first == "timers" else line
    name = rest[0].split("-16")[0]
    if name in CUT:
        return " ".join([first, *rest[:rest.index(CUT[name]) + 2]])
    return line if name in WHOLE else None


def told(card: Card) -> Iterator[str]:
    lines = list(filter(None, map(told_of, words(card))))
    yield from (it for it in lines if (moment_of(it) or 0) <= LAST)
    never = [moment for moment in map(moment_of, lines) if moment and moment > LAST]
    if never:
        yield f"never {min(never)}"


def is_told(card: Card, lines: List[str]) -> bool:
    """Whether these lines tell all that is to be told, and nothing else, the timers in the order in which they fall due."""
    moments = [moment for moment in map(moment_of, lines) if moment is not None]
    wanted = list(told(card))
    return lines[:2] == wanted[:2] and sorted(lines) == sorted(wanted) and moments == sorted(moments)
