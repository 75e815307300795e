"""From a proved static library of the repository, or a program, to a WebAssembly module, a function a step:

    the compiler's module   what the kit's compiler hands to its clang (static_library.built keeps it)
    for_wasm                the kit's clang compiles it for WebAssembly with addresses of 64 bits: as wide as the kit takes them
    memory_for_wasm         and c/module.c, the functions of memory that the library asks for
    linked                  the kit's linker makes a module of both, with the exports that are asked for; imports are what a
                            program asks of its system, and a library has none
    lowered                 wasm-opt turns its memory to addresses of 32 bits, which each engine takes; arguments stay as they are
"""
import os
import re
import shutil
import subprocess
import tempfile
from typing import Iterable, List

from .crates import ROOT
from .static_library import NotBuilt, built, kit, module

# What a module exports beside its functions: a place for what a caller hands over.
OWN = ("module_take", "module_give")
STACK = 65536
# What the linker tells of where all lies.
MAP = "map"
# The features that every engine has had for years, and wabt's wasm2c takes.
FEATURES = ("bulk-memory", "sign-ext", "mutable-globals")
WITHOUT = ("multivalue", "reference-types", "nontrapping-fptoint", "simd128", "tail-call", "extended-const")
TARGET = ["--no-default-config", "-no-canonical-prefixes", "-fintegrated-cc1", "--target=wasm64-unknown-unknown",
          *(f"-m{it}" for it in FEATURES), *(f"-mno-{it}" for it in WITHOUT)]
SECTIONS = ["-ffunction-sections", "-fdata-sections"]
# What clang says of a target that it was built without.
NO_TARGET = "unable to create target"
# Programs that are not the kit's, and Debian's packages of them.
PACKAGES = {"wasm-opt": "binaryen", "wasm2c": "wabt", "wasm2wat": "wabt"}


def need(*programs: str) -> None:
    """Tells which programs are not there, with their packages."""
    missing = [it for it in programs if not shutil.which(it)]
    if missing:
        packages = " ".join(sorted({PACKAGES[it] for it in missing}))
        raise NotBuilt(f"{' and '.join(missing)} {'is' if len(missing) == 1 else 'are'} not in PATH (Debian: apt-get install {packages})")


def run(words: List[str], folder: str) -> str:
    said = subprocess.run(words, cwd=folder, stdin=subprocess.DEVNULL, stdout=subprocess.PIPE, stderr=subprocess.STDOUT, text=True,
                          errors="replace", check=False)
    if said.returncode:
        lines = said.stdout.strip().splitlines() or [f"status {said.returncode}"]
        raise NotBuilt(f"{os.path.basename(words[0])}: {next((it for it in lines if 'rror' in it), lines[-1])}")
    return said.stdout


def clang() -> str:
    return f"{kit()}/toolchain/bin/clang"


def for_wasm(source: str, folder: str, to: str = "module.o", words: Iterable[str] = ("-c",)) -> str:
    """What clang makes of the compiler's module for WebAssembly: an object, or by other words another file. Its functions name a
    processor that this target has not; clang says so, and goes on."""
    try:
        run([clang(), *TARGET, *SECTIONS, "-Wno-override-module", "-O2", *words, "-x", "ir", source, "-o", to], folder)
    except NotBuilt as fault:
        if NO_TARGET not in str(fault):
            raise
        raise NotBuilt("the kit's clang has no WebAssembly: README.md names a kit whose clang has it") from None
    return f"{folder}/{to}"


def memory_for_wasm(folder: str, words: Iterable[str] = ()) -> str:
    strict = ["-std=c99", "-ffreestanding", "-Wall", "-Wextra", "-Werror"]
    run([clang(), *TARGET, *SECTIONS, *strict, "-O2", *words, "-c", f"{ROOT}/c/module.c", "-o", "memory.o"], folder)
    return f"{folder}/memory.o"


def linked(objects: List[str], exports: Iterable[str], folder: str, stack: int = STACK, has_imports: bool = False) -> str:
    """The module, with addresses of 64 bits. The linker is told by its name for what it links."""
    linker = f"{folder}/wasm-ld"
    os.symlink(clang(), linker)
    words = ["-mwasm64", "--no-entry", "--strip-all", "-z", f"stack-size={stack}", f"-Map={MAP}", *["--allow-undefined"] * has_imports]
    run([linker, *words, *(f"--export={it}" for it in exports), *objects, "-o", "wide.wasm"], folder)
    return f"{folder}/wide.wasm"


def lowered(wide: str, folder: str) -> str:
    features = [f"--enable-{it}" for it in ("memory64", *FEATURES)]
    run(["wasm-opt", *features, "--memory64-lowering", wide, "-o", "module.wasm"], folder)
    return f"{folder}/module.wasm"


def wasm(source: str, exports: Iterable[str], folder: str, stack: int = STACK) -> str:
    """All steps from the compiler's module: the path of module.wasm in the folder, which is to be empty."""
    need("wasm-opt")
    objects = [for_wasm(source, folder), memory_for_wasm(folder)]
    return lowered(linked(objects, exports, folder, stack), folder)


def wasm_of(name: str, exports: Iterable[str], to: str, over_gate: bool = False) -> None:
    """The module of a crate that is a static library, proved, is written to a path: these functions are exported, OWN, and its
    memory."""
    need("wasm-opt")
    built(name, over_gate=over_gate, with_module=True)
    with tempfile.TemporaryDirectory(prefix="wasm-") as folder:
        shutil.copyfile(wasm(module(name), [*exports, *OWN], folder), to)


def put(folder: str, names: List[str], to: str) -> None:
    """Copies files that are done to a folder, and to folders in it, which are made where they are not there: all, or none."""
    parts = [os.path.join(to, os.path.dirname(it), f".{os.path.basename(it)}.part") for it in names]
    try:
        for part in parts:
            os.makedirs(os.path.dirname(part), exist_ok=True)
        for name, part in zip(names, parts):
            shutil.copyfile(f"{folder}/{name}", part)
        for name, part in zip(names, parts):
            os.replace(part, f"{to}/{name}")
    finally:
        for part in filter(os.path.exists, parts):
            os.remove(part)


def logic() -> str:
    """The kit by its logic: what two kits that share it prove is the same."""
    said = subprocess.run(["rt", "version"], stdout=subprocess.PIPE, text=True, check=True).stdout
    return re.search(r"logic \w+", said)[0]


def versions(*programs: str) -> List[str]:
    """What these programs say of themselves."""
    said = []
    for it in programs:
        told = subprocess.run([it, "--version"], stdout=subprocess.PIPE, text=True, check=True).stdout.strip()
        said.append(f"{it} {re.sub(r'^.*version ', '', told)} ({PACKAGES[it]})")
    return said
