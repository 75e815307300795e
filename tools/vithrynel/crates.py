"""The crates of the repository: what is below one, what of it is proved, what a file was made from, and how long the rest
takes."""
import hashlib
import os
import re
import shutil
import subprocess
import sys
from typing import Dict, List, Optional, Set, Tuple

ROOT = os.path.dirname(os.path.dirname(os.path.dirname(os.path.abspath(__file__))))
# Processor minutes that a first check took for 1,000 lines, over all crates below lapd_c; `rt` uses four processors at
# most.
MINUTES, MOST_PROCESSORS = 0.75, 4


def rows() -> Dict[str, str]:
    """The line of each crate in crates.txt, in its order. A word after the name says what is made of the crate."""
    with open(f"{ROOT}/crates.txt", encoding="utf-8") as lines:
        return {it.partition(":")[0].split()[0]: it for it in lines if ":" in it and not it.startswith("#")}


def uses() -> Dict[str, List[str]]:
    """What each crate uses."""
    return {name: line.partition(":")[2].split() for name, line in rows().items()}


def closure(crates: Dict[str, List[str]], name: str) -> Set[str]:
    """The crate and all of the repository that are below it."""
    return {name}.union(*(closure(crates, it) for it in crates[name] if it in crates))


def rlib(name: str) -> str:
    return f"{ROOT}/crates/{name}/out/rlib/{name}.rlib"


def sources(name: str) -> List[str]:
    folders = [f"{ROOT}/crates/{name}/{it}" for it in ("src", "specs", "proofs")]
    return [f"{at}/{it}" for folder in folders for at, _, those in os.walk(folder) for it in those]


def is_newer(path: str, names: Set[str], *others: str) -> bool:
    """Whether a file or folder is there, and was made after the sources of these crates and some other files were put where
    they stand. (No archive and no copy sets this time of theirs back.)"""
    files = [f"{ROOT}/crates.txt", *others, *(file for it in names for file in sources(it))]
    return os.path.exists(path) and os.path.getmtime(path) >= max(map(os.path.getctime, files))


def unproved(crates: Dict[str, List[str]], names: Set[str]) -> List[str]:
    """The crates of these whose libraries are not there, or older than a source, in the order of crates.txt."""
    return [it for it in crates if it in names and not is_newer(rlib(it), closure(crates, it))]


def sum_of(path: str) -> str:
    with open(path, "rb") as file:
        return hashlib.sha256(file.read()).hexdigest()


def sum_of_sources(crates: Dict[str, List[str]], name: str, *others: str) -> str:
    """A sum of what a crate is made from: the lines of crates.txt, the sources, and some other files."""
    files = [*others, *(file for it in closure(crates, name) for file in sources(it))]
    lines = [(it, crates[it]) for it in closure(crates, name)]
    of = [*map(repr, lines), *(f"{os.path.relpath(it, ROOT)} {sum_of(it)}" for it in files)]
    return hashlib.sha256("\n".join(sorted(of)).encode()).hexdigest()


def note(path: str, made_of: str) -> None:
    """Notes beside a file what it was made from, by the sum of that."""
    with open(f"{path}.sum", "w", encoding="ascii") as file:
        file.write(f"{sum_of(path)} {made_of}\n")


def noted(path: str) -> Optional[str]:
    """What is noted of a file as it is, if anything is."""
    try:
        with open(f"{path}.sum", encoding="ascii") as file:
            own, made_of = file.read().split()
        return made_of if own == sum_of(path) else None
    except (OSError, ValueError):
        return None


def is_current(crates: Dict[str, List[str]], path: str, name: str) -> bool:
    """Whether what was made of a crate is there, and of the sources as they stand: by what is noted of it or else, where `rt`
    made it, by the times of the files, its own and those of the libraries below."""
    below = closure(crates, name) - {name}
    made_of = noted(path)
    if made_of is not None:
        return made_of == sum_of_sources(crates, name)
    return is_newer(path, {name, *below}) and not unproved(crates, below)


def lines_of(name: str) -> int:
    count = 0
    for path in sources(name):
        with open(path, "rb") as file:
            count += file.read().count(b"\n")
    return count


def plan(names: List[str]) -> str:
    """Which crates are to be proved, and about how long that takes on this machine."""
    processors = min(len(os.sched_getaffinity(0)), MOST_PROCESSORS)
    minutes = MINUTES * sum(map(lines_of, names)) / 1000 / processors
    which = f"{len(names)} crates, {names[0]} to {names[-1]}" if len(names) > 1 else names[0]
    time = f"about {minutes:.0f} minutes" if minutes >= 1.5 else "about a minute"
    return f"{which}: {time} on {processors} processor{'s' * (processors > 1)}"


def need_toolchain() -> None:
    """Ends the program where there is no `rt`."""
    if not shutil.which("rt"):
        name = os.path.basename(sys.argv[0])
        sys.exit(f"{name}: `rt` is not in PATH: it is the command of the toolchain that README.md names, which comes first")


def proved(words: List[str], name: str, many: int) -> Tuple[bool, str]:
    """Whether a command proves and builds a crate, and what it says; each crate that it comes to is told meanwhile."""
    how = {"stdin": subprocess.DEVNULL, "stdout": subprocess.PIPE, "stderr": subprocess.STDOUT}
    said, come_to = "", []
    with subprocess.Popen(words, cwd=f"{ROOT}/crates/{name}", text=True, errors="replace", **how) as process:
        for line in process.stdout:
            said += line
            found = re.match(r"rt: chose --jobs \d+ for (\w+)$", line)
            if found and found[1] not in come_to:
                come_to.append(found[1])
                print(f"  {len(come_to)} of {max(many, len(come_to))}: {found[1]}", file=sys.stderr, flush=True)
    return process.returncode == 0, said
