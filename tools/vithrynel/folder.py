"""What a user takes besides the library and the simulator: examples, tests that a C compiler alone can run, EMBEDDING.md and
LAYER3.md, and what CMake has there. Places that they name are those of the folder that is taken, and not the repository's."""
import os
import sys
from typing import Dict, Tuple

from .crates import ROOT
from .machine import content
from .pages import taken
from .pointers import part

sys.path.insert(0, os.path.join(ROOT, "tests", "scripts"))
from worked import table_of, worked

# What is taken as it is, from folders: their files go into a folder of another name.
FOLDERS = {"examples": "examples/c", "examples/board": "examples/board", "tests": "tests/c/check"}
TAKEN = (".c", ".h", ".ld", ".cmake", "CMakeLists.txt")
FILES = {**{f"tests/{name}{end}": f"tests/c/{name}{end}" for name in ("station", "words", "hdlc") for end in (".c", ".h")},
         "packages.cmake": "c/dist/packages.cmake", "copyright": "c/dist/copyright"}
PAGES = "EMBEDDING.md", "LAYER3.md"
# Places in the repository, and in the folder that is taken.
IN_CODE = (("../../../examples/c/", "../examples/"), ("../../dist", ".."), ("docs/FORMAT.md", "lapdsim.5"))
IN_BOARD = (("/../../dist", "/../.."),)
IN_PAGE = (("../dist/", ""), ("examples/c/", "examples/"), ("-I dist ", "-I . "), ("PYTHONPATH=dist ", "PYTHONPATH=. "),
           ("dist/", ""))


def moved(text: str, places: Tuple[Tuple[str, str], ...]) -> str:
    """A text with places of the folder in place of the repository's."""
    for here, there in places:
        text = text.replace(here, there)
    return text


def page(name: str) -> str:
    """A page of docs/, with links to those that are taken."""
    return taken(moved(content(f"docs/{name}"), IN_PAGE), set(PAGES))


def files() -> Dict[str, bytes]:
    """Each file's octets, by its place."""
    places = dict(FILES)
    for folder, of in FOLDERS.items():
        places.update((f"{folder}/{it}", f"{of}/{it}") for it in sorted(os.listdir(f"{ROOT}/{of}")) if it.endswith(TAKEN))
    found = {name: moved(content(path), IN_BOARD if "/board/" in name else IN_CODE if name.endswith((".c", ".h")) else ())
             for name, path in places.items()}
    found["tests/null.c"] = part()
    found["tests/scripts.txt"] = table_of(worked())
    found.update((it, page(it)) for it in PAGES)
    return {name: text.encode() for name, text in found.items()}
