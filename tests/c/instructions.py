"""The instructions of an object or of an archive with one, function by function, as objdump has them: for the comparison of what
two assemblers make of the same library. Padding is left out, so a jump is told by the number of the instruction to which it goes,
counted without padding; and what is called or read elsewhere by its name, or by its section and its place there."""
import re
import subprocess
from typing import Dict, List, NamedTuple

HEAD = re.compile(r"^[0-9a-f]+ <(.*)>:$")
LINE = re.compile(r"^ *([0-9a-f]+):\t(\S.*?)\s*(?:// .*|# [0-9a-f]+ <.*)?$")
RELOCATION = re.compile(r"^\t+[0-9a-f]+: R_(\S+)\t(.*)$")
PLACE = re.compile(r"\b([0-9a-f]+) <.*>$")
PADDING = re.compile(r"^(?:(?:data16|cs) )*(?:nop[wl]?\b|xchg +%ax,%ax$)")
# A call to a function of the same file: assemblers differ in what they name it, and linkers in nothing.
CALLS = {"X86_64_PC32", "X86_64_PLT32"}


class Row(NamedTuple):
    at: int
    text: str
    refers: str


def rows_of(objdump: str, path: str) -> Dict[str, List[Row]]:
    """The lines of each function, padding included."""
    said = subprocess.run([objdump, "-dr", "--no-show-raw-insn", path], stdout=subprocess.PIPE, text=True, check=True).stdout
    functions: Dict[str, List[Row]] = {}
    rows: List[Row] = []
    for line in said.splitlines():
        head, row, relocation = HEAD.match(line), LINE.match(line), RELOCATION.match(line)
        if head:
            rows = functions.setdefault(head[1], [])
        elif relocation:
            kind = "PC32" if relocation[1] in CALLS else relocation[1]
            rows[-1] = rows[-1]._replace(refers=f"{rows[-1].refers} {kind} {relocation[2]}".strip())
        elif row:
            rows.append(Row(int(row[1], 16), re.sub(r"\s+", " ", row[2]), ""))
    return functions


def numbers_of(rows: List[Row]) -> Dict[int, int]:
    """The number of the instruction at each place of a function; of padding that of what follows it."""
    numbers, count = {}, 0
    for row in rows:
        numbers[row.at] = count
        count += not PADDING.match(row.text)
    return numbers


def without_padding(rows: List[Row]) -> List[str]:
    """The instructions, with each jump's place by its number."""
    numbers = numbers_of(rows)
    return [shown(row, numbers) for row in rows if not PADDING.match(row.text)]


def shown(row: Row, numbers: Dict[int, int]) -> str:
    place = PLACE.search(row.text)
    if not place:
        return f"{row.text} {row.refers}".strip()
    if row.refers:
        return f"{row.text[:place.start()]}{row.refers}"
    return f"{row.text[:place.start()]}to {numbers.get(int(place[1], 16), 'elsewhere')}"


def instructions(objdump: str, path: str) -> Dict[str, List[str]]:
    return {name: without_padding(rows) for name, rows in rows_of(objdump, path).items()}
