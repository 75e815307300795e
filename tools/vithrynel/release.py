"""What a user takes, and a C compiler alone can use: the files of dist/. A function a step:

    readme    the page, with the programs that made the files, and the modules that they are made of
    copied    what is copied, and what is written of texts of the repository alone: no toolchain is needed for it
    release   each file's octets, by its name
"""
import hashlib
import os
import tempfile
from typing import Dict, List, Set

from .assembly import assembly, memory
from .crates import ROOT, sum_of
from .folder import files
from .machine import content
from .page import page, version
from .page_module import module_of
from .page_module import NAME as PAGE
from .portable import card_of, exports
from .portable_program import program
from .static_library import HOST, module
from .united import LIBRARY, PROGRAM, united
from .wasm import logic, put, versions

# What is copied, from where.
COPIED = {"lapd.h": "include/lapd.h", "lapd_checked.h": "include/lapd_checked.h", "lapd_memory.h": "include/lapd_memory.h",
          "lapd.hpp": "include/lapd.hpp", "lapd.py": "bindings/python/lapd.py", "lapd.3": "man/lapd.3",
          "lapdsim.1": "man/lapdsim.1", "lapdsim.5": "man/lapdsim.5"}
SUMS = "SHA256SUMS"
# What is written of texts of the repository.
WRITTEN = ("CMakeLists.txt", "lapd_malloc.c")
# What is made of the compiler's modules, and the page that names these.
MADE = ("lapd.S", "lapd.c", "lapdsim.c", "lapd.html", "README")
# The compiler's modules that the files are made of.
MODULES = {"lapd_c": (LIBRARY, HOST), "lapd_c, aarch64": (LIBRARY, "aarch64"), "lapdsim": (PROGRAM, HOST), "lapd_page": (PAGE, HOST)}


def number() -> str:
    """The version, and that none was released yet where lapd.h says so."""
    return version() + ", not released yet" * ("No version was released yet" in content("include/lapd.h"))


def programs() -> List[str]:
    """What makes the files, by what each says of itself: the kit, and two programs that are not the kit's."""
    return [f"Rattle, {logic()}", *versions("wasm-opt", "wasm2c")]


def made_by() -> str:
    return "\n".join(f"    {it}" for it in programs())


def sums() -> str:
    """The modules, by their sums."""
    return "\n".join(f"    {it:15}  {sum_of(module(*MODULES[it]))}" for it in MODULES)


def readme(portable: str) -> str:
    return content("c/dist/README").format(version=number(), memory=portable, tools=made_by(), modules=sums())


def copied() -> Dict[str, bytes]:
    made = {"CMakeLists.txt": content("c/dist/CMakeLists.txt").replace("@VERSION@", version()).encode("ascii"),
            "lapd_malloc.c": memory().encode("ascii"), **files()}
    for name, path in COPIED.items():
        with open(f"{ROOT}/{path}", "rb") as file:
            made[name] = file.read()
    return made


def release(over_gate: bool) -> Dict[str, bytes]:
    """Each file, SHA256SUMS last."""
    made: Dict[str, bytes] = {}
    with tempfile.TemporaryDirectory(prefix="release-") as folder:
        both = united(exports(), folder, over_gate)
        card, portable = card_of(both)
        made["lapd.c"] = card.encode("ascii")
        made["lapdsim.c"] = program(both, card).encode("ascii")
    made["lapd.S"] = assembly(over_gate).encode("ascii")
    made["lapd.html"] = page(module_of(None, over_gate)).encode()
    made.update(copied())
    made["README"] = readme(portable).encode()
    made[SUMS] = "".join(f"{hashlib.sha256(made[it]).hexdigest()}  {it}\n" for it in sorted(made)).encode("ascii")
    return made


def named(to: str) -> Set[str]:
    """What a folder's sums name."""
    if not os.path.exists(f"{to}/{SUMS}"):
        return set()
    with open(f"{to}/{SUMS}", encoding="ascii") as file:
        return {it.rstrip("\n").split("  ", 1)[1] for it in file}


def written(to: str, over_gate: bool = False) -> List[str]:
    """All files in a folder, from which those of an earlier release go that are none any more; their names."""
    made, before = release(over_gate), named(to)
    with tempfile.TemporaryDirectory(prefix="release-") as folder:
        for name, octets in made.items():
            os.makedirs(os.path.dirname(f"{folder}/{name}"), exist_ok=True)
            with open(f"{folder}/{name}", "wb") as file:
                file.write(octets)
        put(folder, list(made), to)
    for name in before - set(made):
        if os.path.exists(f"{to}/{name}"):
            os.remove(f"{to}/{name}")
    return list(made)
