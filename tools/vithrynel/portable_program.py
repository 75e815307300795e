"""The simulator as C99 over lapd.c, which it includes: what united.py has of it beside the library, between parts of c/portable. What
the program asks of its system are imports of the module, which c/portable/host.c has. A function a step:

    loads      the loads and stores that the library has not
    program    the whole file
"""
import re
from typing import List

from .machine import comment, content
from .static_library import NotBuilt
from .united import United

COMMENT = """\
lapdsim.c: the simulator, lapdsim, for each processor, over POSIX's read, write, open and close. lapdsim(1) and lapdsim(5) describe
it. What it has in common with the library stands in lapd.c, which it includes. Written by tools/release of Vithrynel; not to be edited.

    cc -O2 -o lapdsim lapdsim.c

{made}

Parts around the machine hand it octets that are read, take those that it writes, and hand it the words of its command line;
they are the repository's.
"""


def asked(made: United) -> List[str]:
    """What the machine asks of its system, by the names in the module."""
    return sorted(set(re.findall(r"\bhost_(\w+)\(", made.simulator)))


def loads(made: United, library: str) -> str:
    """Those of c/portable/memory.c that lapd.c has not."""
    rows = re.findall(r"^(DEFINE_(?:LOAD|STORE)\((\w+), .*\n)", content("c/portable/memory.c"), re.M)
    return "".join(row for row, name in rows if f"{name}(" in made.simulator and row not in library)


def program(made: United, library: str) -> str:
    """The whole file, over the text of lapd.c."""
    host = content("c/portable/host.c")
    missing = [it for it in asked(made) if f"host_{it}(" not in host]
    if missing:
        raise NotBuilt(f"the program asks its system for {' and '.join(missing)}, which c/portable/host.c has not")
    return "\n".join([
        comment(COMMENT, made.wasm), '#define LAPD_SIMULATOR\n#include "lapd.c"\n', loads(made, library), host,
        "/* ---- What wasm2c made of the proved program beside the library ---- */\n", made.simulators_data, made.simulator,
        content("c/portable/main.c")])
