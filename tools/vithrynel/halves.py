"""Which values of 64 bits need their high half. wasm2c's places have 64 bits, as the machine's have, and a processor of 32 bits takes
two registers for each. A value of which nothing ever looks at the high half is a `place` of lapd.c: as wide as the processor's own.
What is added, subtracted, multiplied or masked has the low half that it would have had; a comparison, a division, a shift to the right,
and 64 bits that go to memory ask for all. Values are named by their function and variable, what a function returns by its name."""
import re
from typing import Dict, FrozenSet, Iterable, List, Set


class Halves:
    """What is noted of all functions."""

    def __init__(self) -> None:
        self.asked: Set[str] = set()
        self.made_of: Dict[str, Set[str]] = {}

    def ask(self, values: Iterable[str]) -> None:
        """Something looks at the high halves of these."""
        self.asked.update(values)

    def make(self, value: str, of: Iterable[str]) -> None:
        """The high half of a value is made of these values'."""
        self.made_of.setdefault(value, set()).update(of)

    def wide(self) -> FrozenSet[str]:
        """All values whose high half something looks at."""
        found, ahead = set(self.asked), list(self.asked)
        while ahead:
            more = self.made_of.get(ahead.pop(), set()) - found
            found |= more
            ahead += more
        return frozenset(found)


def narrowed(head: str, wide: FrozenSet[str]) -> str:
    """How a function begins, with its parameters and result as wide as they need be. One that is called from elsewhere stays."""
    name = re.search(r"\b(w2c_\w+)\(", head)[1]
    if not re.fullmatch(r"w2c_f\d+", name):
        return head
    head = re.sub(r"\bu64 (w_p\d+)", lambda it: it[0] if f"{name}:{it[1]}" in wide else f"place {it[1]}", head)
    return head if name in wide else re.sub(r"^static u64\b", "static place", head)


def prototype(head: str) -> str:
    return re.sub(r" w_p\d+|(?<=\*)instance", "", head).replace(" {\n", ";")


def declared(kind: str, names: List[str]) -> List[str]:
    """Lines that declare variables."""
    rows, row = [], ""
    for it in names:
        if row and len(row) + len(it) > 110:
            rows.append(row)
            row = ""
        row += f", {it}" if row else f"{kind} {it}"
    return [f"{it};" for it in [*rows, row] if it]
