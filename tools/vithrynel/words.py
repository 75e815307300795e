"""What the tools have in common where they meet their user."""
import os
import sys
from typing import Callable, List

from .program import Fault

HELP_OF_SCRIPT = "a script of docs/FORMAT.md, or - for standard input"
HELP_OF_PROGRAM = "the program lapdsim; by default crates/lapdsim/out/lapdsim, which `rt run` there builds"


def name_of(path: str) -> str:
    """What a script is called in a title."""
    return "standard input" if path == "-" else os.path.basename(path)


def serve(name: str, main: Callable[[List[str]], int]) -> None:
    """Does a tool's work, and ends with its status. A fault is told in one line, with status 1."""
    sys.stdout.reconfigure(encoding="utf-8")
    try:
        status = main(sys.argv[1:])
        sys.stdout.flush()
    except Fault as fault:
        print(f"{name}: {fault}", file=sys.stderr)
        status = 1
    except BrokenPipeError:
        # whoever reads has seen enough
        os.dup2(os.open(os.devnull, os.O_WRONLY), sys.stdout.fileno())
        status = 1
    except KeyboardInterrupt:
        status = 130
    sys.exit(status)
