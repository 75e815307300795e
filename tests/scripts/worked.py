"""The worked scripts: what each reads and must write.

A script FOLDER/NAME is either FOLDER/NAME.script, with its transcript beside it in FOLDER/NAME.transcript, or, where it
is a few lines long, a block of the table FOLDER.txt:

    NAME: FAULT LINE          nothing after the colon where it has no fault
    | LINE                    each line of the script
    = LINE                    each line of its transcript, if any

In these lines \\r is a carriage return, \\x and two digits are an octet in hexadecimal, \\{N} after a sign means N of
it in all, and a \\ at the end that no line feed follows. Blank lines of a table say nothing, nor do those that begin
with #. The fault line is what the script must write on standard error, and then its status must be 1; without one,
nothing and 0.
"""
import os
import re
import sys
from typing import Dict, List, NamedTuple, Optional, Tuple

HERE = os.path.dirname(os.path.abspath(__file__))
BUILT = f"{os.path.dirname(os.path.dirname(HERE))}/crates/lapdsim/out/lapdsim"
SECONDS = 60
OWN = "run", "worked.py"
KINDS = ".script", ".transcript"
HEAD, PART = re.compile(rb"([a-z0-9/-]+):(?: (.+))?"), re.compile(rb"[|=](?: |$)")
ESCAPE = re.compile(rb"\\x([0-9A-F]{2})|\\r|(.)\\\{(\d+)\}|\\$", re.S)


class Worked(NamedTuple):
    """A script, and what is wanted of it."""

    text: bytes
    transcript: bytes
    fault: bytes

    def status(self) -> int:
        return 1 if self.fault else 0

    def wanted(self) -> Tuple[bytes, bytes, int]:
        """The transcript, the fault line and the status."""
        return self.transcript, self.fault, self.status()


def content(path: str) -> bytes:
    with open(path, "rb") as it:
        return it.read()


def octets_of(line: bytes) -> bytes:
    """What a line of a table means, with its line feed."""

    def meant(found: "re.Match[bytes]") -> bytes:
        if found[1]:
            return bytes.fromhex(found[1].decode())
        if found[2]:
            return found[2] * int(found[3])
        return b"\r" if found[0] == b"\\r" else b""

    return ESCAPE.sub(meant, line) + (b"" if line.endswith(b"\\") else b"\n")


def rows_of(path: str) -> List[Tuple[str, Worked]]:
    """The scripts of a table, with their names in it."""
    rows: List[Tuple[str, Dict[bytes, bytes]]] = []
    for number, line in enumerate(content(path).split(b"\n"), 1):
        head = HEAD.fullmatch(line)
        if head:
            rows.append((head[1].decode(), {b"|": b"", b"=": b"", b":": head[2] + b"\n" if head[2] else b""}))
        elif rows and PART.match(line) and b"\\" not in ESCAPE.sub(b"", line):
            rows[-1][1][line[:1]] += octets_of(line[2:])
        elif line and not line.startswith(b"#"):
            sys.exit(f"scripts: {path}: line {number} is no part of a script")
    return [(name, Worked(parts[b"|"], parts[b"="], parts[b":"])) for name, parts in rows]


def row_of(mark: str, line: bytes, is_ended: bool = True) -> str:
    """The line of a table that means this line: octets that are no letters by their numbers, long runs of one by how many."""
    escaped = re.sub(rb"[^ -\[\]-~]| $", lambda it: b"\\x%02X" % it[0][0], line)
    shortened = re.sub(rb"([^\\])\1{99,}", lambda it: b"%s\\{%d}" % (it[1], len(it[0])), escaped).decode()
    return (f"{mark} {shortened}" if line else mark) + ("" if is_ended else "\\")


def table_of(scripts: Dict[str, Worked]) -> str:
    """One table of all of them."""
    rows: List[str] = []
    for name, it in scripts.items():
        rows += ["", f"{name}: {it.fault.decode().rstrip()}".rstrip()]
        for mark, text in (("|", it.text), ("=", it.transcript)):
            *lines, rest = text.split(b"\n")
            rows += [row_of(mark, line) for line in lines] + [row_of(mark, rest, False)] * bool(rest)
    return "\n".join(rows).lstrip() + "\n"


def pair_of(base: str) -> Worked:
    return Worked(content(f"{base}.script"), content(f"{base}.transcript"), b"")


def worked(folder: str = HERE) -> Dict[str, Worked]:
    """The scripts below a folder, in the order of their names."""
    files: List[str] = [os.path.relpath(f"{at}/{it}", folder) for at, _, some in os.walk(folder) for it in some]
    names = [it[: -len(".script")] for it in files if it.endswith(".script")]
    tables = [it for it in files if it.endswith(".txt")]
    known = {f"{name}{kind}" for name in names for kind in KINDS} | {*tables, *OWN}
    stray = [it for it in files if it not in known]
    bare = [it for it in names if f"{it}.transcript" not in files]
    if stray or bare:
        sys.exit(f"scripts: {stray[0]} belongs to no script" if stray else f"scripts: {bare[0]} has no transcript")
    found = {it: pair_of(f"{folder}/{it}") for it in names}
    for table in tables:
        for name, row in rows_of(f"{folder}/{table}"):
            name = f"{table[: -len('.txt')]}/{name}"
            if name in found:
                sys.exit(f"scripts: {name} stands there twice")
            found[name] = row
    return {it: found[it] for it in sorted(found)}


def first_difference(wanted: bytes, got: bytes) -> Optional[str]:
    """The number and the two texts of the first line that differs, or None."""
    lines = [it.split(b"\n") for it in (got, wanted)]
    for at in range(max(map(len, lines))):
        pair = [it[at][:120] if at < len(it) else b"<end>" for it in lines]
        if pair[0] != pair[1]:
            return f"line {at + 1}: {pair[0]!r}, wanted {pair[1]!r}"
    return None


def difference(wanted: Tuple[bytes, bytes, int], got: Tuple[bytes, bytes, int]) -> Optional[str]:
    """How what a script wrote, and its status, differ from what is wanted, or None."""
    for what, one, other in zip(("transcript", "fault"), wanted, got):
        if one != other:
            return f"{what}, {first_difference(one, other)}"
    return None if wanted[2] == got[2] else f"status {got[2]}, wanted {wanted[2]}"
