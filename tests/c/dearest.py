"""The dearest frames: those of which lapd_frame of lapd.S takes the most instructions on x86-64 (dearest.c). Every frame comes to a
library whose blocks count (counted_blocks.py). Those that may be the dearest are then counted exactly, by lapd.S as it is, one
instruction after the other (steps.c).
"""
import os
import subprocess
from typing import Dict, List, NamedTuple

from counted_blocks import write_counted

HERE = os.path.dirname(os.path.realpath(__file__))
SIDES = ("network", "terminal")
# So many scenes as if by lot, of each reading and each keeper of timers.
LOTS = 40
# A copy by the C library takes so many instructions at most, which dearest.c tests.
MOST_OF_COPY = 64
SOURCES = [f"{HERE}/{name}.c" for name in ("dearest", "dearest_card", "dearest_scenes")]


class Found(NamedTuple):
    """A frame: its instructions, how many copies its block counts leave out, its number, and the rest in words."""
    steps: int
    copies: int
    number: int
    words: str


def run(*words: str) -> List[str]:
    """The lines that a program prints. If it fails, what it says."""
    ran = subprocess.run(words, stdout=subprocess.PIPE, stderr=subprocess.PIPE, text=True, check=False)
    if ran.returncode:
        raise RuntimeError(f"{' '.join(words[:3])}: status {ran.returncode}: {ran.stderr[:600]}")
    return ran.stdout.splitlines()


def made(lapd: str, folder: str) -> Dict[str, str]:
    """The two programs: one whose blocks count, and one that is stepped through."""
    words = ["cc", "-std=c99", "-O2", "-Wall", "-Wextra", "-Werror", f"-I{lapd}", "-Wl,-z,now"]
    counting, stepped = f"{folder}/dearest-counting", f"{folder}/dearest-stepped"
    run(*words, "-o", counting, *SOURCES, write_counted(f"{lapd}/lapd.S", folder))
    run(*words, "-DSTEPPED", "-o", stepped, *SOURCES, f"{HERE}/steps.c", f"{lapd}/lapd.S")
    return {"counting": counting, "stepped": stepped}


def read(lines: List[str]) -> List[Found]:
    rows = [line.split(" ", 3) for line in lines[:-1]]
    return [Found(int(steps), int(copies), int(number), words) for steps, copies, number, words in rows]


def of_side(programs: Dict[str, str], side: str, lots: int = LOTS) -> List[Found]:
    """The dearest frame of each kind at a side, the dearest first; and last how many frames came."""
    lines = run(programs["counting"], side, str(lots))
    may_be = {it.number: it for it in read(lines)}
    exact = read(run(programs["stepped"], side, str(lots), "only", *map(str, sorted(may_be))))
    for it in exact:
        other = may_be[it.number]
        if not other.steps <= it.steps <= other.steps + MOST_OF_COPY * other.copies:
            raise RuntimeError(f"blocks count {other.steps} instructions, and steps {it.steps}: {it.words}")
    return [*sorted(exact, reverse=True), Found(0, 0, 0, lines[-1])]
