"""The data of an object or of an archive with one, section by section, as objdump has them: what code reads as constants, and the
tables by which it jumps. Two assemblers lay them out alike; so their octets are compared, and what they refer to. A place in code
is told by the function and the number of the instruction there, as in instructions.py."""
import re
import subprocess
from typing import Dict, List, NamedTuple, Set, Tuple

from instructions import Row, numbers_of, rows_of

SECTION = re.compile(r"^ *\d+ (\S.*?) +([0-9a-f]{8}) +[0-9a-f]+ +[0-9a-f]+ +[0-9a-f]+ +2\*\*(\d+) +(.*)$")
OF_SECTION = re.compile(r"^(?:RELOCATION RECORDS FOR \[(.*)\]|Contents of section (.*)):$")
OCTETS = re.compile(r"^ [0-9a-f]{4,} ((?:[0-9a-f]{2,8} ){1,4})")
RELOCATION = re.compile(r"^([0-9a-f]{8,16}) R_(\S+) +(\S.*?)([-+]0x[0-9a-f]+)?$")
CODE = re.compile(r"^\.text\.(?:unlikely\.)?")
# By which debuggers and C++ unwind frames: of code, and told by other means.
UNWINDS = ".eh_frame"
# Kinds that tell how far something is from the place itself.
RELATIVE = re.compile(r"PC32|PC64|PREL")
# An instruction's own place is told from its end, so much after the number that it has in it.
TO_END = {"X86_64_PC32": 4, "PC32": 4}


class Data(NamedTuple):
    """A section: on which multiple of octets it lies, its octets (none: zeros), how many, and what it refers to from where."""
    alignment: int
    count: int
    octets: str
    refers: Tuple[Tuple[int, str], ...]


def said(objdump: str, path: str, *words: str) -> List[str]:
    return subprocess.run([objdump, *words, path], stdout=subprocess.PIPE, text=True, check=True).stdout.splitlines()


def by_section(lines: List[str]) -> Dict[str, List[str]]:
    """What is said of each section."""
    parts: Dict[str, List[str]] = {}
    rows: List[str] = []
    for line in lines:
        head = OF_SECTION.match(line)
        if head:
            rows = parts.setdefault(head[1] or head[2], [])
        else:
            rows.append(line)
    return parts


def begins(functions: Dict[str, List[Row]]) -> Dict[str, Set[int]]:
    """The places in each section that instructions name: there tables begin."""
    found: Dict[str, Set[int]] = {}
    for row in (it for rows in functions.values() for it in rows):
        for kind, name, ahead in re.findall(r"(\S+) (\.\S+?)([-+]0x[0-9a-f]+)?(?= |$)", row.refers):
            found.setdefault(name, set()).add(int(ahead or "0", 16) + TO_END.get(kind, 0))
    return found


class Places:
    """How a place is told to which data refer."""

    def __init__(self, functions: Dict[str, List[Row]]) -> None:
        self.numbers = {name: numbers_of(rows) for name, rows in functions.items()}
        self.begins = begins(functions)

    def shown(self, section: str, at: int, kind: str, name: str, ahead: int) -> str:
        """A reference: to data or to what is elsewhere as it is; to code by the number of an instruction, from the beginning of
        the table in which it stands."""
        function = CODE.sub("", name)
        if function not in self.numbers:
            return f"{kind} {name} {ahead}"
        if RELATIVE.search(kind):
            ahead -= at - max((it for it in self.begins.get(section, ()) if it <= at), default=0)
        return f"{kind} {function} {self.numbers[function].get(ahead, 'elsewhere')}"


def constants(objdump: str, path: str) -> Dict[str, Data]:
    """Each section of data."""
    octets, refers = (by_section(said(objdump, path, it)) for it in ("-s", "-r"))
    places = Places(rows_of(objdump, path))
    found = {}
    for line in said(objdump, path, "-hw"):
        section = SECTION.match(line)
        if section and "ALLOC" in section[4] and "CODE" not in section[4] and section[1] != UNWINDS and int(section[2], 16):
            name = section[1]
            own = "".join(it[1].replace(" ", "") for it in map(OCTETS.match, octets.get(name, ())) if it)
            rows = filter(None, map(RELOCATION.match, refers.get(name, ())))
            to = tuple((int(it[1], 16), places.shown(name, int(it[1], 16), it[2], it[3], int(it[4] or "0", 16))) for it in rows)
            found[name] = Data(1 << int(section[3]), int(section[2], 16), own, to)
    return found
