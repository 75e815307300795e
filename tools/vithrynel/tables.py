"""Stands for the kit's clang where an archive is built: tools/vithrynel/static_library.py has `rattle` call it. Each function of
what is compiled gets a table of how its frames are unwound, so that debuggers and profilers see who called. (The kit's
compiler asks for none, as nothing in Rattle unwinds.)

    python3 tables.py FOLDER CLANG WORD..

The module, and of an object what it is made of and the words by which, are left in FOLDER: module.bc, source, words.
"""
import re
import shutil
import subprocess
import sys
from typing import List, Optional

PRINT = ["-S", "-emit-llvm", "-Xclang", "-disable-llvm-passes", "-Xclang", "-emit-llvm-uselists"]
# What stands between the parameters of a function that is defined and its body; and a group of attributes.
DEFINITION = re.compile(r"^define .*\)([^)]*)\{$", re.M)
GROUP = re.compile(r"^attributes (#\d+) = \{ (.*) \}$", re.M)


def with_tables(text: str) -> str:
    """A module as text, in which each function that is defined asks for a table."""
    defined = {it for words in DEFINITION.findall(text) for it in re.findall(r"#\d+", words) or [""]}
    if "" in defined or not defined:
        raise ValueError("a function has no attributes")
    return GROUP.sub(lambda it: f"attributes {it[1]} = {{ {it[2]} uwtable }}" if it[1] in defined else it[0], text)


def source_in(words: List[str]) -> Optional[str]:
    """What is compiled to an object; None where none is made."""
    return next((it for it in words if it.endswith((".bc", ".ll"))), None) if "-c" in words else None


def printed(clang: str, words: List[str], source: str) -> str:
    """What is compiled, as text."""
    if source.endswith(".ll"):
        with open(source, encoding="utf-8") as file:
            return file.read()
    target = [it for it in words if it.startswith(("--target=", "--no-default-config"))]
    said = subprocess.run([clang, *target, "-x", "ir", source, *PRINT, "-o", "-"], stdout=subprocess.PIPE, check=True)
    return said.stdout.decode()


def main(folder: str, clang: str, words: List[str]) -> int:
    for it in words:
        if it.endswith("module.bc"):
            shutil.copyfile(it, f"{folder}/module.bc")
    source = source_in(words)
    if source:
        with open(f"{folder}/source", "w", encoding="utf-8") as file:
            file.write(with_tables(printed(clang, words, source)))
        words = [f"{folder}/source" if it == source else it for it in words]
        with open(f"{folder}/words", "w", encoding="utf-8") as file:
            file.write("".join(f"{it}\n" for it in words))
    return subprocess.run([clang, *words], check=False).returncode


if __name__ == "__main__":
    sys.exit(main(sys.argv[1], sys.argv[2], sys.argv[3:]))
