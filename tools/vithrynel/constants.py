"""Constants of the library that lapd.c reads where they stand, which on a small board is flash: no card has a copy. wasm2c's code
has all data in a card's memory. Here a table that is only read by an index is an array of C. What stays in memory are constants
of which the code takes the address, such as texts. A function a step:

    sections  where each constant begins, by the linker's map
    reads     where the code reads a constant by an index
    kept      how many octets of constants stay in memory: all before the tables
    arrays    the tables
    in_place  code that reads these
"""
import collections
import re
from typing import Iterator, List, NamedTuple

from .static_library import NotBuilt

# A place of data, counted from where the stack ends.
PLACE = r"\(STACK \+ (\d+)(?:u|ull|)\)"
LOAD = r"\bi\d\d_load\w*\(AT$"


class Read(NamedTuple):
    """A load by an index: where the text of its place begins and ends, the index, and at which octet of the data it is 0."""
    begin: int
    end: int
    index: str
    at: int


def sections(text: str, stack: int) -> List[int]:
    """By the linker's map, where each constant of the library begins, counted from where the stack ends."""
    rows = re.findall(r"^ +([0-9a-f]+) +[0-9a-f]+ +[0-9a-f]+ +\S+:\(\.rodata.*\)$", text, re.M)
    if not rows:
        raise NotBuilt("the linker writes another form of its map than it did")
    return sorted(int(it, 16) - stack for it in rows)


def opened(text: str, at: int) -> int:
    """Where the bracket opens in which a place of a text stands."""
    depth = 1
    while depth:
        at -= 1
        depth += (text[at] == ")") - (text[at] == "(")
    return at


def reads(text: str) -> Iterator[Read]:
    """Of two, one in the index of the other, the inner one comes first."""
    for found in re.finditer(rf" \+ {PLACE}, 0\)", text):
        at = opened(text, found.start())
        if re.search(LOAD, text[max(0, at - 30):at]):
            yield Read(at - len("AT"), found.end(), text[at + 1:found.start()], int(found[1]))


def kept(text: str, starts: List[int], ends: int) -> int:
    """Where the tables begin: at the first constant after all those of which the text takes an address. All constants end here."""
    named = collections.Counter(int(it) for it in re.findall(PLACE, text) if int(it) < ends)
    read = collections.Counter(it.at for it in reads(text) if it.at < ends)
    last = max((named - read).keys(), default=-1)
    return min((it for it in starts if it > last), default=ends)


def arrays(octets: bytes, starts: List[int]) -> str:
    """All from the first of these places on. After each table lie as many zeros as a load takes at most."""
    rows = []
    for at, end in zip(starts, [*starts[1:], starts[0] + len(octets)]):
        those = octets[at - starts[0]:end - starts[0]]
        lines = [" ".join(f"0x{it:02x}," for it in those[one:one + 12]) for one in range(0, len(those), 12)]
        if at % 8:
            raise NotBuilt(f"a table begins at {at}: what is a multiple of 8 in memory is none in it")
        rows += [f"static const u8 table_{at}[{end - at} + WIDEST] ALIGNED = {{", *lines, "};\n"]
    return "\n".join(rows)


def in_place(text: str, starts: List[int], ends: int) -> str:
    """Each load from one of the tables, which begin at these places, is one from its array."""
    while starts:
        it = next((one for one in reads(text) if starts[0] <= one.at < ends), None)
        if it is None:
            break
        at = max(one for one in starts if one <= it.at)
        index = it.index if it.at == at else f"({it.index}) + {it.at - at}ull"
        text = f"{text[:it.begin]}IN(table_{at}, {index}){text[it.end:]}"
    return text
