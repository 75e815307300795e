"""Processors on which the tests of the C library run: their cross compilers and emulators, with the library that a program is
linked with there. `portable` is lapd.c of tools/portable on this machine; on aarch64 it is the library that is proved for it, on
the others lapd.c. `assembly` is lapd.S of tools/assembly on this machine, `assembly-aarch64` on the other processor."""
import os
import re
import shlex
import shutil
import signal
import subprocess
import sys
from typing import NamedTuple, Tuple

from compiled import HERE, ROOT, STRICT, Build, check, compilers, read, run, skip
from stored import in_parallel

sys.path.insert(0, f"{ROOT}/tools")
from vithrynel.header import functions, structs
from vithrynel.static_library import archive, made_of, noted, uses

REQUIRED = "TARGETS"
# lapd.c is long, and a machine may have much to do.
LONG = 900
# What lapd.c asks a C library for: compilers call the first three by themselves, and GCC's own helpers begin with __.
ASKED_FOR = {"memcpy", "memmove", "memset", "abort", "rattle_alloc", "rattle_dealloc"}
# The stack that calls may take where C's locals stand for the machine's: lapd.h says so of lapd_frame_read and lapd_frame_text.
STACK = ("-DMOST=5120", "-DMOST_OF_START=5120", "-DMOST_OF_RESTORE=5120", "-DMOST_OF_TEXT=24576")


class Target(NamedTuple):
    compiler: str
    emulator: Tuple[str, ...]
    packages: str


def cross(triple: str, emulator: str, debian: str) -> Target:
    packages = f"qemu-user gcc-{triple} libc6-dev-{debian}-cross"
    return Target(f"{triple}-gcc", (emulator, "-L", f"/usr/{triple}"), packages)


TARGETS = {"portable": Target("cc", (), "gcc"),
           "aarch64": cross("aarch64-linux-gnu", "qemu-aarch64", "arm64"),
           "arm": cross("arm-linux-gnueabihf", "qemu-arm", "armhf"),
           "powerpc": cross("powerpc-linux-gnu", "qemu-ppc", "powerpc"),
           "s390x": cross("s390x-linux-gnu", "qemu-s390x", "s390x"),
           "riscv64": cross("riscv64-linux-gnu", "qemu-riscv64", "riscv64")}
ASSEMBLY = {"assembly": Target("cc", (), "gcc"), "assembly-aarch64": TARGETS["aarch64"]}


def tool(name, folder):
    """Has tools/portable, tools/module or tools/assembly write to a folder; False where it can't, which is told."""
    said = subprocess.run([f"{ROOT}/tools/{name}", "--over-gate", folder], capture_output=True, text=True, check=False)
    told = said.stderr.strip()
    if said.returncode == 0:
        return True
    if said.returncode == 77 or "apt-get install" in told:
        skip(f"what tools/{name} makes", told, REQUIRED)
    else:
        check(f"tools/{name}", False, told[-600:])
    return False


class Portable:
    """What tools/portable leaves: in a folder that is named, or made once for all targets."""

    def __init__(self, folder, made):
        self.folder = made or f"{folder}/lapd"
        self.is_there = bool(made) or tool("portable", self.folder)
        if self.is_there:
            with open(f"{self.folder}/README", encoding="utf-8") as file:
                self.each = int(re.search(r"lapd_card_octets\(&config\) octets and (\d+) more", file.read())[1])

    def build(self, name, target, folder, level="-O2", flags=()):
        """The tests' programs over lapd.c, with three functions of memory of the tests' own."""
        library, compiler = f"{folder}/lib{name}.a", shutil.which(target.compiler)
        words = [compiler, *flags, "-std=c99", level, *STRICT, "-pedantic", "-DLAPD_OWN_MEMORY", "-c", f"{self.folder}/lapd.c"]
        said = run([*words, "-o", f"{folder}/{name}.o"], timeout=LONG)
        run([re.sub("gcc$|cc$", "ar", target.compiler), "rcs", library, f"{folder}/{name}.o"])
        check(f"{name}: lapd.c compiles", said.returncode == 0, said.stderr.decode()[:600])
        if said.returncode:
            return None
        return Build(name, [compiler], [compiler, *flags], library, folder, target.emulator, each=self.each, blocks=2, stack=STACK)


class Assembly:
    """What tools/assembly leaves: in a folder that is named, or made once for both processors."""

    def __init__(self, folder, made):
        self.folder = made or f"{folder}/assembly"
        self.is_there = bool(made) or tool("assembly", self.folder)

    def build(self, name, target, folder):
        """The tests' programs over lapd.S."""
        library, compiler = f"{folder}/lib{name}.a", shutil.which(target.compiler)
        said = run([compiler, *STRICT, "-c", f"{self.folder}/lapd.S", "-o", f"{folder}/{name}.o"])
        run([re.sub("gcc$|cc$", "ar", target.compiler), "rcs", library, f"{folder}/{name}.o"])
        check(f"{name}: lapd.S is assembled", said.returncode == 0, said.stderr.decode()[:600])
        return Build(name, [compiler], [compiler], library, folder, target.emulator) if said.returncode == 0 else None


def proved_for(name, build):
    """The library that is proved for a processor. Only where it is there, or has to be, for it takes minutes."""
    is_there = noted(archive("lapd_c", name)) == made_of(uses(), "lapd_c", name)
    if not is_there and not build and os.environ.get(REQUIRED) != "required":
        skip(f"{name}", f"its library is not there (tools/library --target {name}, which takes minutes)", REQUIRED)
        return None
    said = subprocess.run([f"{ROOT}/tools/library", "--target", name], capture_output=True, text=True, check=False)
    check(f"tools/library --target {name}", said.returncode == 0, said.stderr[-600:])
    return said.stdout.strip() or None


def build_for(name, portable, assembly, build, folder):
    """What the tests are compiled and run by on a target; None where that can't be, which is told."""
    target = {**TARGETS, **ASSEMBLY}[name]
    missing = [it for it in (target.compiler, *target.emulator[:1]) if not shutil.which(it)]
    if missing:
        skip(name, f"{' and '.join(missing)} {'is' if len(missing) == 1 else 'are'} not there (Debian: apt-get install {target.packages})",
             REQUIRED)
        return None
    if name == "aarch64":
        library = proved_for(name, build)
        compiler = [shutil.which(target.compiler)]
        return library and Build(name, compiler, compiler, library, folder, target.emulator)
    made = assembly() if name in ASSEMBLY else portable()
    return made.build(name, target, folder) if made.is_there else None


def installed(build, folder):
    """A program is linked with what tools/install leaves for a processor, by the flags of pkg-config, and runs."""
    at = f"{folder}/installed-{build.name}"
    said = run([f"{ROOT}/tools/install", "--target", build.name, at])
    check(f"tools/install --target {build.name}", said.returncode == 0, said.stderr.decode()[-600:])
    for name, env in (("lapd", {}), ("lapd-shared", {"LD_LIBRARY_PATH": f"{at}/lib"})):
        told = run(["pkg-config", "--cflags", "--libs", name], env={"PKG_CONFIG_PATH": f"{at}/lib/pkgconfig"})
        run([*build.compiler, "-o", f"{at}/{name}", f"{ROOT}/examples/c/first.c", *shlex.split(told.stdout.decode())])
        words = [*build.runner, *(word for key, value in env.items() for word in ("-E", f"{key}={value}")), f"{at}/{name}"]
        check(f"{build.name}: a program with {name}", os.path.exists(f"{at}/{name}") and run(words).stdout == FIRST, told.stderr.decode())


# ---- What holds of lapd.c and lapd.wasm on this machine ----------------------------------------------------------------

def layouts():
    """The table by which a caller's structs are turned to a module's memory has the numbers that layout.c has."""
    with open(f"{HERE}/layout.c", encoding="utf-8") as file:
        text = file.read()
    sizes = re.findall(r"^OCTETS\((?:struct )?(\w+), (\d+)\);", text, re.M)
    places = re.findall(r"^AT\((?:struct )?(\w+), (\w+), (\d+)\);", text, re.M)
    check("layout.c is read", len(sizes) + len(places) == len(re.findall(r"^(?:OCTETS|AT)\(", text, re.M)) > 20, "rows are not read")
    check("layout.c has each struct", {name for name, octets in sizes} == set(structs()), "another list of structs")
    for name, octets in sizes:
        check(f"the table: {name}", structs()[name].octets == int(octets), structs()[name].octets)
    for name, field, at in places:
        own = {it.name: it.at for it in structs()[name].fields}
        check(f"the table: {name}.{field}", own.get(field) == int(at), own.get(field))


def one_file(portable, folder):
    """lapd.c is the same when it is made again; it is no more than 1.5 MB, and exports what lapd.h declares and nothing else;
    with first.c alone it is a program that says the same, in each way to take memory."""
    again = f"{folder}/again"
    if tool("portable", again):
        for name in ("lapd.c", "lapd.h", "lapd_checked.h", "lapd_memory.h", "README"):
            check(f"{name} is the same when made again", read(f"{again}/{name}") == read(f"{portable.folder}/{name}"), "another file")
    check("the size of lapd.c", os.path.getsize(f"{portable.folder}/lapd.c") <= 1700000, os.path.getsize(f"{portable.folder}/lapd.c"))
    rows = [it.split() for it in run(["nm", f"{folder}/portable.o"]).stdout.decode().splitlines()]
    there = {it[-1] for it in rows if len(it) == 3 and it[-2].isupper()}
    asked = {it[-1] for it in rows if len(it) == 2 and it[0] == "U"}
    wanted = {it.name for it in functions()}
    check("exports of lapd.c", there == wanted, sorted(there ^ wanted))
    check("what lapd.c asks for", asked <= ASKED_FOR, sorted(asked - ASKED_FOR))
    for name, compiler in compilers().items():
        said = run([*compiler, "-std=c99", *STRICT, "-pedantic", "-fsyntax-only", f"{portable.folder}/lapd.c"], timeout=LONG)
        check(f"{name} warns of nothing in lapd.c", said.returncode == 0, said.stderr.decode()[:600])
    small = "-DLAPD_HEAP_OCTETS=20000"
    ways = {"": FIRST, "-DLAPD_MALLOC": FIRST, "-DLAPD_HEAP_OCTETS=120000": FIRST, "-DLAPD_UNTESTED": FIRST, "-DLAPD_SYMBOLS": FIRST,
            small: b"out of memory\n"}
    for flag, (compiled, said) in zip(ways, in_parallel(lambda it: first_with(portable, it, folder), ways)):
        check(f"first.c with lapd.c {flag}", said == ways[flag], f"{compiled} {said}")
    for flag, why in (("-DLAPD_OWN_MEMORY", b""), ("-DLAPD_OWN_MEMORY -DLAPD_CHECKED", b"lapd.c: an access outside of a card or a clock.")):
        said = freed_with(portable, flag, folder)
        check(f"a freed card with lapd.c {flag}", said.returncode == -signal.SIGABRT and said.stderr.startswith(why)
              and bool(said.stderr) == bool(why), said)
    two = run(["cc", "-fsyntax-only", "-DLAPD_HEAP_OCTETS=120000", "-DLAPD_OWN_MEMORY", f"{portable.folder}/lapd.c"], timeout=LONG)
    check("two choices of memory are refused", two.returncode != 0 and b"Choose one" in two.stderr, two.stderr.decode()[:600])
    for octets, is_taken in (("31", False), ("32", True), ("(2 * 16)", True)):
        said = run(["cc", "-fsyntax-only", f"-DLAPD_HEAP_OCTETS={octets}", f"{portable.folder}/lapd.c"], timeout=LONG)
        check(f"a region of {octets} octets", (said.returncode == 0) == is_taken, said.stderr.decode()[:600])


def first_with(portable, flag, folder):
    """What first.c with lapd.c says, compiled quickly; what the compiler says comes first."""
    path = f"{folder}/first{flag}"
    said = run(["cc", f"-I{portable.folder}", "-o", path, f"{ROOT}/examples/c/first.c", f"{portable.folder}/lapd.c", *flag.split()], timeout=LONG)
    ran = run([path]) if said.returncode == 0 else None
    return said.stderr.decode()[:600], ran and ran.stdout + ran.stderr


def freed_with(portable, flag, folder):
    """What a program says that uses a freed card through a copy."""
    path = f"{folder}/freed{flag}"
    said = run(["cc", *flag.split(), f"-I{portable.folder}", "-o", path, f"{HERE}/freed.c", f"{portable.folder}/lapd.c"], timeout=LONG)
    return run([path]) if said.returncode == 0 else said


FIRST = b"0 establish-indication 64\n0 tx 7E008173C4127E\nstored 0 limit 17470\n"


def inside(portable, folder):
    """What lapd.c's own parts decide is what the machine decides (handed.c, which has lapd.c in it)."""
    path = f"{folder}/handed"
    said = run(["cc", "-std=c99", "-O1", *STRICT, f"-I{portable.folder}", "-o", path, f"{HERE}/handed.c"], timeout=LONG)
    check("handed.c compiles", said.returncode == 0, said.stderr.decode()[:600])
    if said.returncode == 0:
        ran = run([path])
        check("what is handed over", ran.returncode == 0, (ran.stdout + ran.stderr).decode()[:600])


def costs(folder):
    """A poll by frames takes at most three times as many instructions as with the proved library."""
    if not shutil.which("valgrind") or not os.path.exists(archive("lapd_c")):
        return skip("what a poll costs", "there is no valgrind, or not the proved library beside lapd.c", REQUIRED)
    native, portable = (a_poll(name, library, folder)
                        for name, library in (("native", archive("lapd_c")), ("portable", f"{folder}/libportable.a")))
    check("what a poll costs", 0 < portable <= 3 * native, f"{portable} instructions, and {native} with the proved library")


def a_poll(name, library, folder):
    """How many instructions a poll takes with a library: what a thousand more of them take."""
    path = f"{folder}/polls-{name}"
    said = run(["cc", "-std=c99", "-O2", *STRICT, f"-I{ROOT}/include", "-o", path, f"{HERE}/polls.c", f"{ROOT}/c/malloc.c", library])
    check(f"polls.c with the {name} library compiles", said.returncode == 0, said.stderr.decode()[:600])
    counted = []
    for polls in (1000, 2000):
        ran = run(["valgrind", "--tool=callgrind", f"--callgrind-out-file={path}.counts", path, str(polls)])
        found = re.search(r"Collected : (\d+)", ran.stderr.decode())
        check(f"{polls} polls with the {name} library", ran.returncode == 0 and found, ran.stderr.decode()[-300:])
        counted.append(int(found[1]) if found else 0)
    return (counted[1] - counted[0]) // 1000


def threads(portable, folder):
    """Cards of several threads have nothing in common, also as they start and end; where the compiler has a sanitizer of
    threads, it says the same."""
    words = ["cc", "-std=c99", "-O0", *STRICT, f"-I{portable.folder}", "-o", f"{folder}/threads"]
    sources = [f"{HERE}/threads.c", f"{portable.folder}/lapd.c", "-lpthread"]
    if run([*words, "-fsanitize=thread", *sources], timeout=LONG).returncode or run([f"{folder}/threads"]).returncode not in (0, 1, 66):
        skip("a sanitizer of threads", "the compiler has none here", REQUIRED)
        run([*words, *sources], timeout=LONG)
    ran = run([f"{folder}/threads"])
    check("threads", ran.returncode == 0, ran.stderr.decode()[:600])


def engine(folder):
    """lapd.wasm in a JavaScript engine: the conversation of first.c, its exports as lapd.d.ts has them, and what it does with
    little memory and with much."""
    node = shutil.which("node")
    if not node:
        skip("lapd.wasm", "there is no node (Debian: apt-get install nodejs)", REQUIRED)
    elif tool("module", f"{folder}/module"):
        said = run([node, f"{HERE}/module.mjs", f"{folder}/module"])
        check("lapd.wasm in node", (said.returncode, said.stdout) == (0, FIRST), (said.stdout + said.stderr).decode()[:600])
        said = run([node, f"{HERE}/limits.mjs", f"{folder}/module/lapd.wasm"])
        check("lapd.wasm with little memory, and with much", said.returncode == 0, (said.stdout + said.stderr).decode()[:600])


def told(name, words, folder, **env):
    """A wrong use is told in one line, and leaves nothing."""
    said = subprocess.run([f"{ROOT}/tools/{name}", "--over-gate", *words], capture_output=True, text=True, check=False,
                          env={**os.environ, **env})
    good = said.returncode not in (0, 77) and said.stderr.count("\n") == 1 and said.stderr.startswith(f"{name}: ")
    check(f"tools/{name} {folder}: a fault", good and not os.path.exists(folder), said.stderr[-300:])


def another_kit(folder):
    """A folder with the `rt` of a kit whose clang has no WebAssembly."""
    at = f"{folder}/kit"
    clang = "error: unable to create target: 'No available targets are compatible with triple \"wasm64\"'\\n1 error generated."
    for path, words in ((f"{at}/rt", f"echo {at}/doc"), (f"{at}/toolchain/bin/clang", f"printf '%b\\n' {shlex.quote(clang)} >&2; exit 1")):
        os.makedirs(os.path.dirname(path), exist_ok=True)
        with open(path, "w", encoding="utf-8") as file:
            file.write(f"#!/bin/sh\n{words}\n")
        os.chmod(path, 0o755)
    return at


def faults(folder):
    """Without its programs, with a kit of other targets, and where it can't write."""
    os.makedirs(f"{folder}/words")
    for name in ("python3", "rt"):
        os.symlink(sys.executable if name == "python3" else shutil.which("rt") or "/none", f"{folder}/words/{name}")
    with open(f"{folder}/file", "w", encoding="ascii"):
        pass
    kit = another_kit(folder)
    for name in ("portable", "module"):
        told(name, [f"{folder}/none"], f"{folder}/none", PATH=f"{folder}/words")
        told(name, [f"{folder}/none"], f"{folder}/none", PATH=f"{kit}:{os.environ['PATH']}")
        told(name, [f"{folder}/file/in"], f"{folder}/file/in")
    os.remove(f"{folder}/words/rt")
    told("assembly", [f"{folder}/none"], f"{folder}/none", PATH=f"{folder}/words")
    told("assembly", [f"{folder}/file/in"], f"{folder}/file/in")
