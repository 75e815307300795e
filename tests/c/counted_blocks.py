"""lapd.S for x86-64 with a counter before each block: a stretch of instructions that begins at a label, after a jump or after a call. So
a program that is linked with it knows how many instructions of the library a call takes: `uint64_t lapd_steps`. Padding that is run
through counts too, as it is in the object of lapd.S itself. What the C library does is not counted: each call of it adds COPY.
"""
import re
import subprocess
from typing import Dict, Iterator, List, Tuple

from instructions import PADDING, rows_of

COPY = 1 << 24
ENDS = re.compile(r"(?:j\w+|call\w*|ret\w*|ud2)\b")
GOES_AWAY = re.compile(r"(?:jmp\w*|ret\w*|ud2)\b")
LABEL = re.compile(r'("?)([^"]*)\1:$')
COPIES = re.compile(r"(?:call\w*|jmp\w*)\s+mem(?:cpy|move|set)\b")
# No flag changes, and no register keeps another number.
COUNT = """\tmovq %rax, lapd_kept(%rip)
\tmovq lapd_steps(%rip), %rax
\tleaq {}(%rax), %rax
\tmovq %rax, lapd_steps(%rip)
\tmovq lapd_kept(%rip), %rax"""
END = "\t.comm lapd_kept,8,8\n\t.comm lapd_steps,8,8\n"


def paddings(path: str) -> Dict[str, List[int]]:
    """How much padding stands before each instruction of each function of an object."""
    found: Dict[str, List[int]] = {}
    for name, rows in rows_of("objdump", path).items():
        found[name] = [0]
        for row in rows:
            if PADDING.match(row.text):
                found[name][-1] += 1
            else:
                found[name].append(0)
    return found


def blocks(lines: Iterator[str]) -> Iterator[Tuple[str, List[str]]]:
    """What stands in code: ("block", its lines), or one line that is none: ("label", ..), ("align", ..), ("other", ..)."""
    block: List[str] = []
    for line in lines:
        is_label, is_align = bool(LABEL.match(line)), line.startswith(".p2align")
        if block and (is_label or is_align or line.startswith(".section")):
            yield "block", block
            block = []
        if is_label or is_align or line.startswith(".section") or (not block and line.startswith(".")):
            yield "label" if is_label else "align" if is_align else "other", [line]
            continue
        block.append(line)
        if ENDS.match(line):
            yield "block", block
            block = []
    if block:
        yield "block", block


def instructions_of(block: List[str]) -> List[str]:
    return [it for it in block if not it.startswith(".")]


def agree(name: str, count: int, padding: Dict[str, List[int]]) -> None:
    """The text has as many instructions of a function as the object has."""
    if name and len(padding[name]) != count + 1:
        raise ValueError(f"{name} has {count} instructions, in its object {len(padding[name]) - 1}")


def counted(text: str, padding: Dict[str, List[int]]) -> str:
    """The text with its counters."""
    out, name, at, falls, is_code = [], "", 0, False, False
    for what, lines in blocks(it for it in map(str.strip, text.splitlines()) if it):
        if what == "other" and lines[0].startswith(".section"):
            is_code, falls = '"ax"' in lines[0], False
        elif what == "label" and not lines[0].startswith(".L") and is_code:
            agree(name, at, padding)
            name, at = LABEL.match(lines[0])[2], 0
        elif what == "align" and falls and is_code and padding[name][at]:
            out.append(COUNT.format(padding[name][at]))
        elif what == "block" and is_code:
            those = instructions_of(lines)
            at, falls = at + len(those), not GOES_AWAY.match(those[-1])
            out.append(COUNT.format(len(those) + COPY * any(map(COPIES.match, those))))
        out.extend(lines)
    agree(name, at, padding)
    return "\n".join(out) + "\n" + END


def write_counted(source: str, folder: str) -> str:
    """Writes lapd.S with counters to a folder, and compiles it: the path of its object. What fails is told by an exception."""
    path, plain = f"{folder}/counted.s", f"{folder}/plain.o"
    subprocess.run(["cc", "-c", "-o", plain, source], check=True)
    text = subprocess.run(["cc", "-E", "-P", "-x", "assembler-with-cpp", source], stdout=subprocess.PIPE, text=True, check=True).stdout
    padding = paddings(plain)
    with open(path, "w", encoding="utf-8") as file:
        file.write(counted(text, padding))
    subprocess.run(["cc", "-c", "-o", f"{folder}/counted.o", path], check=True)
    return f"{folder}/counted.o"
