"""The lines of wasm2c's functions as statements, and what runs of them: which values are read later, what may come next, and what
is surely set. wasm2c writes a line for each instruction of WebAssembly.

    statements   a function's lines, each with what it reads, what it sets, and where it goes on
    alive        which variables of the stack are read after a statement, before they are set
"""
import re
from typing import FrozenSet, Iterable, List, NamedTuple, Optional, Tuple

from .static_library import NotBuilt

SLOT = r"w_[ij]\d+"
NAME = r"w_[ijlp]\d+|instance->w2c_\w+"


class Statement(NamedTuple):
    """A line: what kind it is, what it sets, its text with what it reads, and the labels that it goes to."""
    kind: str
    sets: str
    text: str
    reads: Tuple[str, ...]
    to: Tuple[str, ...]


def names_in(text: str) -> Tuple[str, ...]:
    return tuple(re.findall(NAME, text))


def statement(row: str) -> Statement:
    if row.startswith(("w_B", "w_L", "w2c_Bfunc:")):
        return Statement("label", "", row.rstrip(" ;").rstrip(":"), (), ())
    found = re.fullmatch(r"if \((\S+)\) \{goto (\w+);\}", row)
    if found:
        return Statement("if", "", found[1], (found[1],), (found[2],))
    found = re.fullmatch(r"goto (\w+);", row)
    if found:
        return Statement("goto", "", "", (), (found[1],))
    found = re.fullmatch(r"switch \((\S+)\) \{\n(.*)\}", row, re.S)
    if found:
        return Statement("switch", "", row, (found[1],), tuple(re.findall(r"goto (\w+);", row)))
    found = re.fullmatch(r"return (\S+);", row)
    if found:
        return Statement("return", "", found[1], (found[1],), ())
    if row == "UNREACHABLE;":
        return Statement("end", "", row, (), ())
    found = re.fullmatch(rf"({NAME}) ([-+*&|^]|<<|>>)= (.*);", row)
    if found:
        text = f"{found[1]} {found[2]} {found[3]}"
        return Statement("set", found[1], text, names_in(text), ())
    found = re.fullmatch(rf"({NAME}) = (.*);", row)
    if found:
        return Statement("set", found[1], found[2], names_in(found[2]), ())
    if re.fullmatch(r"\w+\(instance.*\);", row):
        return Statement("do", "", row[:-1], names_in(row), ())
    raise NotBuilt(f"wasm2c writes another form than that of wabt 1.0.32: {row}")


def statements(rows: List[str]) -> List[Statement]:
    found, at = [], 0
    while at < len(rows):
        row = rows[at]
        if row.startswith("switch"):
            end = rows.index("}", at)
            row, at = "\n".join(rows[at:end + 1]), end
        if row not in ("FUNC_EPILOGUE;", "FUNC_PROLOGUE;"):
            found.append(statement(row))
        at += 1
    return found


def alive(of: List[Statement]) -> List[FrozenSet[str]]:
    """Of each statement the variables of the stack that are read after it, before they are set."""
    at_label = {it.text: at for at, it in enumerate(of) if it.kind == "label"}
    before: List[FrozenSet[str]] = [frozenset()] * (len(of) + 1)
    after: List[FrozenSet[str]] = [frozenset()] * len(of)
    is_same = False
    while not is_same:
        is_same = True
        for at in range(len(of) - 1, -1, -1):
            it = of[at]
            goes_on = frozenset() if it.kind in ("goto", "switch", "return", "end") else before[at + 1]
            after[at] = goes_on.union(*(before[at_label[to]] for to in it.to))
            here = after[at] - {it.sets} | {one for one in it.reads if re.fullmatch(SLOT, one)}
            is_same &= here == before[at]
            before[at] = here
    return after


def next_of(of: List[Statement]) -> List[Tuple[int, ...]]:
    """Of each statement those that may be next."""
    at_label = {it.text: at for at, it in enumerate(of) if it.kind == "label"}
    goes_on = [() if it.kind in ("goto", "switch", "return", "end") or at + 1 == len(of) else (at + 1,) for at, it in enumerate(of)]
    return [(*on, *(at_label[to] for to in it.to)) for on, it in zip(goes_on, of)]


def surely_set(of: List[Statement], after: List[Tuple[int, ...]], names: Iterable[str]) -> List[FrozenSet[str]]:
    """Of each statement the variables, of these, that each way to it sets."""
    known: List[Optional[FrozenSet[str]]] = [None] * len(of)
    known[0], ahead = frozenset(), [0]
    names = frozenset(names)
    while ahead:
        at = ahead.pop()
        here = known[at] | ({of[at].sets} & names)
        for to in after[at]:
            both = here if known[to] is None else known[to] & here
            if both != known[to]:
                known[to] = both
                ahead.append(to)
    return [it or frozenset() for it in known]
