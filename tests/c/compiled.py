"""What the tests of the C library count, and the compilers by which they make programs with it."""
import os
import shlex
import shutil
import subprocess

HERE = os.path.dirname(os.path.abspath(__file__))
ROOT = os.path.dirname(os.path.dirname(HERE))
STRICT = ["-Wall", "-Wextra", "-Werror"]
# how many tests passed, and how many failed
counted = {True: 0, False: 0}


def check(name, good, why=""):
    counted[bool(good)] += 1
    if not good:
        print(f"c: {name}: {why}")


def skip(what, why, required="CC_TESTS"):
    if os.environ.get(required) == "required":
        check(what, False, f"failed, since {why}")
    else:
        print(f"c: SKIPPED: {what}, since {why}")


def run(words, stdin=None, env=None, given=None, timeout=600, cwd=None):
    """Runs a program, whose input is a file, or octets that are given."""
    source = {"stdin": stdin} if given is None else {"input": given}
    return subprocess.run(words, **source, capture_output=True, env={**os.environ, **(env or {})}, timeout=timeout, cwd=cwd)


def read(path, otherwise=b""):
    try:
        with open(path, "rb") as file:
            return file.read()
    except FileNotFoundError:
        return otherwise


def compilers():
    """Names, and words of those that compile a program with headers here."""
    found = {}
    for name in ("gcc", "clang", "cc"):
        path = shutil.which(name)
        if path and os.path.realpath(path) not in map(lambda it: os.path.realpath(it[0]), found.values()):
            found[name] = [path]
    clang = toolchain_clang()
    return {**found, **({"toolchain": clang} if clang else {})}


def toolchain_clang():
    """The toolchain's clang, which has no headers of its own, with those of gcc; None where one of them isn't there."""
    if not shutil.which("rt") or not shutil.which("gcc"):
        return None
    clang = os.path.dirname(run(["rt", "doc"]).stdout.decode().strip()) + "/toolchain/bin/clang"
    words = [clang, "-isystem", run(["gcc", "-print-file-name=include"]).stdout.decode().strip()]
    return words if os.path.exists(clang) else None


def sanitized(words, folder):
    flags = ["-fsanitize=address,undefined", "-fno-sanitize-recover=all"]
    with open(f"{folder}/empty.c", "w") as file:
        file.write("int main(void) { return 0; }\n")
    said = run([*words, *flags, "-o", f"{folder}/empty", f"{folder}/empty.c"])
    return [*words, *flags] if said.returncode == 0 and run([f"{folder}/empty"]).returncode == 0 else None


class Build:
    """The programs of one compiler, in a folder of its own. Where a runner is named, as an emulator, a program is a script that
    has it run. `each` is what a card takes of a heap besides lapd_card_octets, and `blocks` how many blocks a conversation
    takes at least. `is_one_file` says whether the library is lapd.c."""

    def __init__(self, name, compiler, words, library, folder, runner=(), each=0, blocks=10, stack=()):
        self.name, self.compiler, self.words, self.library = name, compiler, words, library
        self.folder, self.runner = f"{folder}/{name}", runner
        self.each, self.blocks, self.stack, self.is_brief = each, blocks, stack, False
        self.is_one_file = each != 0
        os.makedirs(self.folder)

    def program(self, name, sources, *flags, words=None):
        """Compiles and links a program with the library; None where that fails. Under sanitizers, if no words are given."""
        path = f"{self.folder}/{name}"
        said = run([*(words or self.words), "-std=c99", *STRICT, f"-I{ROOT}/include", f"-I{HERE}", "-O1", "-g", *flags,
                    "-o", path, *sources, self.library])
        check(f"{self.name}: {name} compiles", said.returncode == 0, said.stderr.decode()[:600])
        if said.returncode == 0 and self.runner:
            os.rename(path, f"{path}.program")
            with open(path, "w", encoding="utf-8") as file:
                file.write(f'#!/bin/sh\nexec {shlex.join(self.runner)} {shlex.quote(path)}.program "$@"\n')
            os.chmod(path, 0o755)
        return path if said.returncode == 0 else None
