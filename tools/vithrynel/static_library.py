"""Static libraries of the repository: proved and built for a processor. Beside an archive lie the compiler's module that it
was made from, which wasm.py compiles on for WebAssembly; and what the kit's clang made its object of, and by which words,
from which assembly.py has the same as text. Of a program the module alone is of use: `rt` builds the program."""
import contextlib
import fcntl
import os
import re
import shlex
import shutil
import subprocess
import sys
import tempfile
from typing import Dict, Iterator, List, NamedTuple, Set, Tuple

from .crates import (ROOT, closure, is_newer, need_toolchain, note, noted, plan, proved, rlib, sum_of_sources, unproved, uses)


class Processor(NamedTuple):
    """The kit's name of a target, and the first processor of that kind: what is compiled for it runs on each."""
    target: str
    cpu: str


HOST = "x86-64"
PROCESSORS = {HOST: Processor("x86_64-unknown-linux-gnu", "x86-64"),
              "aarch64": Processor("aarch64-unknown-linux-gnu", "generic")}
# What else an archive is made by: its sum covers these.
TABLES = f"{ROOT}/tools/vithrynel/tables.py"
TOOLS = (f"{ROOT}/tools/library", os.path.abspath(__file__), TABLES)
NOT_TRIED = 77


class NotBuilt(Exception):
    """What is told where a library is not built; the status with which a tool ends."""

    def __init__(self, why: str, status: int = 1) -> None:
        super().__init__(why)
        self.status = status


def archive(name: str, processor: str = HOST) -> str:
    out = f"{ROOT}/crates/{name}/out"
    return f"{out}/lib{name}.a" if processor == HOST else f"{out}/{processor}/lib{name}.a"


def module(name: str, processor: str = HOST) -> str:
    """The compiler's module of the archive for a processor, or of a program."""
    return f"{os.path.dirname(archive(name, processor))}/{name}.bc"


def source_of(name: str, processor: str = HOST) -> str:
    """What the kit's clang made the archive's object of, as tables.py left it."""
    return f"{os.path.dirname(archive(name, processor))}/{name}.source"


def words_of(name: str, processor: str = HOST) -> str:
    """The words by which it did so, one a line."""
    return f"{os.path.dirname(archive(name, processor))}/{name}.words"


def beside(name: str, processor: str) -> Dict[str, str]:
    """What is kept of a build beside what is built, by the names that tables.py has."""
    return {"module.bc": module(name, processor), "source": source_of(name, processor), "words": words_of(name, processor)}


def is_program(name: str) -> bool:
    return os.path.exists(f"{ROOT}/crates/{name}/src/main.rt")


def left_of(name: str, processor: str) -> str:
    """What is left of a crate that is built."""
    return module(name) if is_program(name) else archive(name, processor)


def kit() -> str:
    """The folder of the toolchain's kit."""
    said = subprocess.run(["rt", "doc"], stdout=subprocess.PIPE, text=True, check=True)
    return os.path.dirname(said.stdout.strip())


def made_of(crates: Dict[str, List[str]], name: str, processor: str = HOST) -> str:
    """The sum of what an archive is made from."""
    return sum_of_sources(crates, name, *TOOLS) + ("" if processor == HOST else f"-{processor}")


def are_of_gate(crates: Dict[str, List[str]], below: Set[str]) -> bool:
    """Whether `rt ci` left each library below: newer than its sources, and with no stamp, by which `rt lib` knows its own."""
    of_gate = [not os.path.exists(f"{os.path.dirname(rlib(it))}/stamp") for it in below]
    return all(of_gate) and not unproved(crates, below)


def keeping(toolchain: str, folder: str) -> str:
    """A folder like the kit's toolchain, in which tables.py stands for clang; what that keeps is left in the folder above."""
    os.makedirs(f"{folder}/toolchain/bin")
    for name in os.listdir(f"{toolchain}/bin"):
        if name != "clang":
            os.symlink(f"{toolchain}/bin/{name}", f"{folder}/toolchain/bin/{name}")
    os.symlink(f"{toolchain}/lib", f"{folder}/toolchain/lib")
    words = shlex.join([sys.executable, "-B", TABLES, folder, f"{toolchain}/bin/clang"])
    with open(f"{folder}/toolchain/bin/clang", "w", encoding="utf-8") as file:
        file.write(f'#!/bin/sh\nexec {words} "$@"\n')
    os.chmod(f"{folder}/toolchain/bin/clang", 0o755)
    return f"{folder}/toolchain"


def words_of_build(crates: Dict[str, List[str]], name: str, processor: str, toolchain: str, to: str) -> List[str]:
    """The words by which the kit's compiler proves a crate over libraries that are there, and builds it, as `rt` has them."""
    root, below = kit(), closure(crates, name) - {name}
    words = ["--crate-name", name, "src/main.rt" if is_program(name) else "src/lib.rt", "--extern", f"std={root}/rlibs/std.rlib"]
    for it in crates[name]:
        words += ["--extern", f"{it}={rlib(it) if it in below else f'{root}/rlibs/{it}.rlib'}"]
    for folder in [f"{root}/rlibs", *(os.path.dirname(rlib(it)) for it in sorted(below))]:
        words += ["-L", f"dependency={folder}"]
    words += ["--antt-project", f"{root}/rattle/logic/antt-project.json", "--logic-built", f"{root}/logic_built"]
    words += ["--jobs", os.environ.get("RT_JOBS") or str(len(os.sched_getaffinity(0))), "--links", f"{name}="]
    words += [] if is_program(name) else ["--crate-type", "staticlib"]
    words += ["--toolchain", toolchain, "--backend", "llvm"]
    words += [f"--target={PROCESSORS[processor].target}", f"--cpu={PROCESSORS[processor].cpu}", "-o", to]
    # What was checked of the crate itself, by `rt lib`, `rt run` or for the other processor, is not checked again.
    words += ["--incremental", "out/incremental"]
    os.makedirs(f"{ROOT}/crates/{name}/out", exist_ok=True)
    os.makedirs(os.path.dirname(to), exist_ok=True)
    return [f"{root}/bin/rattle", "build", *words]


def compiled(crates: Dict[str, List[str]], name: str, processor: str) -> Tuple[bool, str]:
    """Proves the crate over the libraries below it, which are there, and builds its archive; of a program, an object that is not
    kept."""
    with tempfile.TemporaryDirectory(prefix="toolchain-") as folder:
        toolchain = keeping(f"{kit()}/toolchain", folder)
        to = f"{folder}/program.o" if is_program(name) else archive(name, processor)
        is_built, said = proved(words_of_build(crates, name, processor, toolchain, to), name, 1)
        if is_built:
            for kept, path in beside(name, processor).items():
                shutil.copyfile(f"{folder}/{kept}", path)
        return is_built, said


@contextlib.contextmanager
def alone(name: str) -> Iterator[None]:
    """One builds a crate at a time: tests that need it may run side by side."""
    os.makedirs(f"{ROOT}/crates/{name}/out", exist_ok=True)
    with open(f"{ROOT}/crates/{name}/out/alone", "w", encoding="ascii") as file:
        fcntl.flock(file, fcntl.LOCK_EX)
        yield


def built(name: str, processor: str = HOST, over_gate: bool = False, with_module: bool = False) -> str:
    """Has the archive proved and built where it is not there, made from these sources; its path. With the compiler's module
    beside it, where that is asked for; of a program the module alone. Where `rt` would have to prove crates below, `over_gate`
    ends with NOT_TRIED."""
    crates = uses()
    of, path = made_of(crates, name, processor), left_of(name, processor)

    def is_there() -> bool:
        is_of_these = noted(path) == of or over_gate and is_newer(path, closure(crates, name), *TOOLS)
        return is_of_these and not (with_module and any(noted(it) != of for it in beside(name, processor).values()))

    if not is_there():
        need_toolchain()
        with alone(name):
            if not is_there():
                build(crates, name, processor, over_gate)
    return path


def build(crates: Dict[str, List[str]], name: str, processor: str, over_gate: bool) -> None:
    """Proves and builds it, and notes what it was made from."""
    of, path, below = made_of(crates, name, processor), left_of(name, processor), closure(crates, name) - {name}
    if not are_of_gate(crates, below):
        words = ["rt", "run", "--", "--version"] if is_program(name) else ["rt", "lib"]
        if over_gate:
            raise NotBuilt(f"`{' '.join(words[:2])}` in crates/{name} would have to prove it", NOT_TRIED)
        missing = [*unproved(crates, below), name]
        print(f"library: proves {plan(missing)}", file=sys.stderr, flush=True)
        is_built, said = proved(words, name, len(missing))
        if not is_built:
            raise NotBuilt("\n".join([*said.splitlines()[-8:], "it was not built"]))
    is_built, said = compiled(crates, name, processor)
    if not is_built or not re.search(r"^logic=proved ", said, re.M) or not os.path.exists(path):
        raise NotBuilt("\n".join([*said.splitlines()[-8:], "it was not built"]))
    for it in {path, *beside(name, processor).values()}:
        note(it, of)
