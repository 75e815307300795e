"""The proved library as assembler text, and what it asks for in C: lapd.S and lapd_malloc.c. A function a step:

    text        what the kit's clang makes for a processor, as text, of what it made the archive's object of, by the same words
    plain       that text for C's preprocessor: without comments
    assembly    the texts of both processors in one file
    memory      the functions of memory in one file, with a choice of them
"""
import re
import shutil
import subprocess
import tempfile
from typing import Dict, List

from .crates import ROOT, need_toolchain, sum_of
from .machine import content
from .static_library import NotBuilt, PROCESSORS, built, module, source_of, words_of
from .wasm import clang, logic, put

NAME = "lapd_c"
WRITTEN = ("lapd.S", "lapd_malloc.c", "lapd.h", "lapd_checked.h", "lapd_memory.h")
# How C's preprocessor knows a processor, the order of its octets and the width of its addresses; and of ARM the systems that
# keep the register x18 for themselves, which Linux and the BSDs leave to the compiler.
CONDITIONS = {"x86-64": "defined(__x86_64__) && !defined(__ILP32__)",
              "aarch64": "defined(__aarch64__) && !defined(__AARCH64EB__) && !defined(__ILP32__) "
                         "&& !defined(__ANDROID__) && !defined(__Fuchsia__)"}
# Text in place of an object, without what only the kit's own linker reads.
AS_TEXT = ["-S", "-fno-verbose-asm", "-fno-addrsig"]
STRING = re.compile(r'"(?:[^"\\]|\\.)*"')
HEAD = """\
/*
 * lapd.S: the whole of lapd.h as assembler text, for x86-64 and for 64-bit ARM with the low octet first, as ELF has them.
 * Written by tools/assembly of Vithrynel; not to be edited.
 *
 *     cc -O2 -o program program.c lapd.S lapd_malloc.c
 *
 * It may stand in a program or in a shared library. For another processor or system take lapd.c, in place of both files.
 *
 * The code is proved, each function of it, in Rattle ({logic}). Proofs end with the module of Rattle's compiler. From
 * there on all is tested: LLVM's compiler makes this text of it, as it makes the archive of the proved library, and with the
 * same instructions. Functions have the names that they have in Rattle. These are the modules, by SHA-256:
 *
{sums}
 */
"""
ERROR = ('#error "lapd.S is for x86-64 and for little-endian 64-bit ARM, as ELF (of ARM not Android): '
         'compile lapd.c in place of lapd.S and lapd_malloc.c"')


def words_for(processor: str, to: str) -> List[str]:
    """The words by which clang made the archive's object, for text."""
    with open(words_of(NAME, processor), encoding="utf-8") as file:
        words = file.read().splitlines()
    at = words.index("-o")
    del words[at:at + 2]
    words = [source_of(NAME, processor) if it.endswith("/source") else it for it in words if not it.startswith("--sysroot=")]
    return [clang(), *(it for it in words if it != "-c"), *AS_TEXT, "-o", to]


def text(processor: str, over_gate: bool) -> str:
    built(NAME, processor, over_gate, with_module=True)
    with tempfile.TemporaryDirectory(prefix="assembly-") as folder:
        said = subprocess.run(words_for(processor, f"{folder}/lapd.s"), stdin=subprocess.DEVNULL, stdout=subprocess.PIPE,
                              stderr=subprocess.STDOUT, text=True, check=False)
        if said.returncode:
            raise NotBuilt(f"the kit's clang makes no text for {processor}: {said.stdout.strip()[-300:]}")
        with open(f"{folder}/lapd.s", encoding="utf-8") as file:
            return plain(file.read())


def plain(assembler: str) -> str:
    """Without comments and empty lines. What is left has nothing that the preprocessor would take for its own; so a question
    mark is told by its number, as two begin a trigraph."""
    lines = [it.rstrip() for it in assembler.splitlines()]
    lines = [it for it in lines if it and not re.match(r"\s*(#|//)", it)]
    lines = [it.replace("?", r"\077") if re.match(r"\s*\.(asci[iz]|string)\b", it) else it for it in lines]
    for it in lines:
        if re.search(r"#\s|//|/\*|'|\?\?", STRING.sub("", it)):
            raise NotBuilt(f"clang writes a comment or a quote that is not expected: {it.strip()[:80]}")
    return "\n".join(lines) + "\n"


def assembly(over_gate: bool) -> str:
    """lapd.S."""
    texts = {it: text(it, over_gate) for it in PROCESSORS}
    sums = "\n".join(f" *     {it:8} {sum_of(module(NAME, it))}" for it in PROCESSORS)
    parts = [HEAD.format(logic=logic(), sums=sums), "#ifndef __ELF__", ERROR]
    for it in PROCESSORS:
        parts += [f"#elif {CONDITIONS[it]}", texts[it].rstrip("\n")]
    return "\n".join([*parts, "#else", ERROR, "#endif", ""])


def memory() -> str:
    """lapd_malloc.c."""
    return re.sub(r"^@(\S+)@$", lambda it: body(it[1]), content("c/dist/lapd_malloc.c"), flags=re.M)


def body(path: str) -> str:
    """A file of C without its first comment and what it includes."""
    whole = re.sub(r"\A/\*.*?\*/\n", "", content(path), flags=re.S)
    return re.sub(r"^#include .*\n+", "", whole, flags=re.M).strip()


def assembled(over_gate: bool) -> Dict[str, str]:
    """Both files."""
    return {"lapd.S": assembly(over_gate), "lapd_malloc.c": memory()}


def written(to: str, over_gate: bool = False) -> None:
    """Both files and the headers, in a folder."""
    need_toolchain()
    with tempfile.TemporaryDirectory(prefix="assembly-") as folder:
        for name, made in assembled(over_gate).items():
            with open(f"{folder}/{name}", "w", encoding="utf-8") as file:
                file.write(made)
        for name in WRITTEN[2:]:
            shutil.copyfile(f"{ROOT}/include/{name}", f"{folder}/{name}")
        put(folder, list(WRITTEN), to)
