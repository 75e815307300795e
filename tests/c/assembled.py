"""Parts of the test of dist/ that are of lapd.S, each a function of its own: what assemblers make of it, and what linkers do."""
import os
import re
import shutil
import sys

from compiled import HERE, ROOT, STRICT, check, compilers, read, run, skip
from constants import constants
from instructions import instructions
from stored import in_parallel
from targets import FIRST, LONG, TARGETS

sys.path.insert(0, f"{ROOT}/tools")
from vithrynel.crates import sum_of
from vithrynel.header import defined, functions
from vithrynel.static_library import HOST, archive, module

ASKED_FOR = {"memcpy", "memmove", "memset", "rattle_alloc", "rattle_dealloc", "rattle_realloc"}
HEADER = {it.name for it in functions()}
# Changes of lapd.S, each of which leaves all instructions as they are: a number, a letter, and two ways of a jump.
CHANGES = {"the length of T203": (r"\t\.long\t10000\n", "\t.long\t10001\n"),
           "a letter of a text": (r'"identity assigned"', '"identity assignee"'),
           "where a jump goes": (r"(\t\.long\t\.LBB.*\n)(?!\1)(\t\.long\t\.LBB.*\n)", r"\2\1")}
# The compilers of the other processor, and the prefix of its programs.
CROSS = "aarch64-linux-gnu-"
# What lapd_malloc.c is compiled with, and what first.c says then.
OUT_OF_MEMORY = b"out of memory\n"
MEMORIES = {"": FIRST, "-DLAPD_MALLOC": FIRST, "-DLAPD_HEAP_OCTETS=100000": FIRST, "-DLAPD_SYMBOLS": FIRST,
            "-DLAPD_HEAP_OCTETS=9000": OUT_OF_MEMORY}
# How a program is linked.
LINKS = {"as the compiler has it": (), "position-independent": ("-fPIE", "-pie", "-Wl,-z,text"), "at fixed addresses": ("-fno-pie", "-no-pie"),
         "without shared libraries": ("-static",), "both": ("-static-pie",), "without what is not called": ("-Wl,--gc-sections",)}


def assemblers():
    """Compilers by name, with the processor for which each makes objects and the prefix of its programs."""
    found = {name: (words, HOST, "") for name, words in compilers().items()}
    target = TARGETS["aarch64"]
    if shutil.which(target.compiler):
        found["aarch64"] = ([target.compiler], "aarch64", CROSS)
    else:
        skip("lapd.S on aarch64", f"there is no {target.compiler} (Debian: apt-get install {target.packages})", "TARGETS")
    return found


def objects(dist):
    """What each assembler makes of lapd.S, and that another processor is told of lapd.c."""
    in_parallel(lambda it: an_object(dist, *it), assemblers().items())
    in_parallel(lambda it: changed(dist, *it), CHANGES.items())
    arm = TARGETS["aarch64"].compiler
    for words in (["cc", "-U__x86_64__"], ["cc", "-D__ILP32__"], ["cc", "-U__ELF__"], *[[arm, "-D__ANDROID__"]] * bool(shutil.which(arm))):
        said = run([*words, "-c", f"{dist.files}/lapd.S", "-o", f"{dist.folder}/none.o"])
        is_told = said.returncode != 0 and b"compile lapd.c in place of lapd.S" in said.stderr
        check(f"lapd.S by {' '.join(words)}", is_told, said.stderr.decode()[-300:])


def an_object(dist, name, how):
    words, processor, prefix = how
    path = f"{dist.folder}/{name}.o"
    said = run([*words, *STRICT, "-pedantic", "-O2", "-c", f"{dist.files}/lapd.S", "-o", path])
    check(f"{name}: lapd.S", (said.returncode, said.stderr) == (0, b""), said.stderr.decode()[:600])
    if said.returncode == 0:
        symbols(name, prefix, path)
    if said.returncode == 0 and is_of(dist, processor):
        same_instructions(name, f"{prefix}objdump", archive("lapd_c", processor), path)
        same_constants(name, f"{prefix}objdump", archive("lapd_c", processor), path)


def symbols(name, prefix, path):
    """Only lapd.h's functions are seen from outside; each function has its size, its name and a table, and the stack holds no code."""
    rows = [it.split() for it in run([f"{prefix}nm", path]).stdout.decode().splitlines()]
    there, asked = {it[-1] for it in rows if len(it) > 2 and it[1].isupper()}, {it[-1] for it in rows if it[0] == "U"}
    check(f"{name}: exports of lapd.S", there == HEADER, sorted(there ^ HEADER))
    check(f"{name}: what lapd.S asks for", asked == ASKED_FOR, sorted(asked ^ ASKED_FOR))
    listed = run([f"{prefix}readelf", "-sW", path]).stdout.decode()
    sized = re.findall(r"^ *\d+: [0-9a-f]+ +(\d+) FUNC +(LOCAL|GLOBAL) +DEFAULT +\d+ (.*)$", listed, re.M)
    wrong = [it for it in sized if it[0] == "0" or it[1] == "LOCAL" and "::" not in it[2]]
    check(f"{name}: functions by name and size", len(sized) > len(HEADER) and not wrong, wrong[:5])
    tables = run([f"{prefix}readelf", "--debug-dump=frames", path]).stdout.decode().count(" FDE ")
    check(f"{name}: a table for each function", tables == len(sized), f"{tables} of {len(sized)}")
    sections = run([f"{prefix}readelf", "-SW", path]).stdout.decode()
    stack = re.search(r"\.note\.GNU-stack +PROGBITS +\S+ +\S+ +\S+ +\S+ +(\S*) ", sections)
    check(f"{name}: a stack without code", stack and "X" not in stack[1], stack)


def is_of(dist, processor):
    """Whether lapd.S is of the library that stands here: by the sum of the module, and by the kit."""
    here = module("lapd_c", processor)
    named = re.search(rf"^ \*     {processor} +([0-9a-f]+)$", read(f"{dist.files}/lapd.S").decode(), re.M)
    if not os.path.exists(here):
        skip(f"lapd.S beside the proved library for {processor}", "it is not there (tools/library)", "DIST")
    elif not dist.is_of_this_kit or not named or named[1] != sum_of(here):
        print(f"c: lapd.S is not of the library for {processor} that stands here: its instructions are not compared")
    else:
        return True
    return False


def same_instructions(name, objdump, proved, path):
    """What an assembler makes of the text has the instructions of the proved archive."""
    wanted, found = instructions(objdump, proved), instructions(objdump, path)
    is_same = wanted.keys() == found.keys() and len(wanted) > len(HEADER)
    check(f"{name}: the functions of lapd.S", is_same, sorted(wanted.keys() ^ found.keys())[:5])
    others = [it for it in wanted if wanted[it] != found.get(it)]
    check(f"{name}: the instructions of lapd.S", not others and sum(map(len, wanted.values())) > 10000, others[:5])


def same_constants(name, objdump, proved, path):
    """And its data, with what they refer to."""
    wanted, found = constants(objdump, proved), constants(objdump, path)
    check(f"{name}: the sections of data of lapd.S", wanted.keys() == found.keys(), sorted(wanted.keys() ^ found.keys())[:5])
    others = [it for it in wanted if wanted[it] != found.get(it)]
    check(f"{name}: the data of lapd.S", not others and sum(it.count for it in wanted.values()) > 5000, others[:5])
    lost = [it for it, of in found.items() if any(to.endswith(" elsewhere") for _, to in of.refers)]
    check(f"{name}: what the data of lapd.S refer to", not lost, lost[:5])


def changed(dist, name, change):
    """What lapd.S has as data is told from what a change makes of it, by this test."""
    paths = [f"{dist.folder}/{it}{list(CHANGES).index(name)}" for it in ("as-it-is", "changed")]
    text = read(f"{dist.files}/lapd.S").decode()
    for path, own in zip(paths, (text, re.sub(*change, text, count=1))):
        with open(f"{path}.S", "w", encoding="ascii") as file:
            file.write(own)
        said = run(["cc", "-c", f"{path}.S", "-o", f"{path}.o"])
        check(f"lapd.S with a change of {name} is assembled", said.returncode == 0, said.stderr.decode()[:600])
    (one, two), (these, those) = ([of("objdump", f"{it}.o") for it in paths] for of in (instructions, constants))
    check(f"a change of {name} leaves the instructions", one == two, "others")
    check(f"a change of {name} is told", len([it for it in these if these[it] != those.get(it)]) == 1, "it is not")


# ---- Linked --------------------------------------------------------------------------------------------------------------

def links(dist):
    """Programs in each way to link them, and to take memory; and who called is found through the library."""
    in_parallel(lambda it: links_by(dist, *it), assemblers().items())
    for octets, is_taken in (("31", False), ("32", True), ("(2 * 16)", True)):
        said = run(["cc", "-fsyntax-only", f"-DLAPD_HEAP_OCTETS={octets}", f"{dist.files}/lapd_malloc.c"])
        check(f"lapd_malloc.c: a region of {octets} octets", (said.returncode == 0) == is_taken, said.stderr.decode()[:600])
    for flags in (["-DLAPD_HEAP_OCTETS=100000", "-DLAPD_OWN_MEMORY"], ["-ffreestanding"]):
        said = run(["cc", "-fsyntax-only", *flags, f"{dist.files}/lapd_malloc.c"])
        check(f"lapd_malloc.c with {' '.join(flags)}", said.returncode != 0 and b"where do cards lie?" in said.stderr, said.stderr.decode()[:600])


def links_by(dist, name, how):
    words, processor, prefix = how
    at, runner = f"{dist.folder}/{name}", () if processor == HOST else TARGETS[processor].emulator
    os.makedirs(at)
    for way, flags in LINKS.items() if name != "toolchain" else ():
        said = made(dist, at, words, flags)
        ran = run([*runner, f"{at}/first"]) if said.returncode == 0 else said
        check(f"{name}: a program {way}", ran.stdout == FIRST and not said.stderr, said.stderr.decode()[:600])
    for flag, wanted in MEMORIES.items() if name != "toolchain" else ():
        said = made(dist, at, words, (flag,) if flag else ())
        ran = run([*runner, f"{at}/first"]) if said.returncode == 0 else said
        check(f"{name}: lapd_malloc.c {flag}", ran.stdout + ran.stderr == wanted, (said.stderr + ran.stdout + ran.stderr).decode()[:600])
    if name != "toolchain":
        sources = f"{HERE}/unwound.c", f"{dist.files}/lapd.S"
        said = run([*words, "-std=c99", *STRICT, f"-I{dist.files}", "-o", f"{at}/unwound", *sources])
        ran = run([*runner, f"{at}/unwound"]) if said.returncode == 0 else said
        check(f"{name}: who called is found", ran.returncode == 0, ran.stderr.decode()[:600])
        shared(dist, name, words, prefix, at)


def made(dist, at, words, flags):
    """first.c with lapd.S."""
    if os.path.exists(f"{at}/first"):
        os.remove(f"{at}/first")
    sources = f"{dist.files}/examples/first.c", f"{dist.files}/lapd.S", f"{dist.files}/lapd_malloc.c"
    return run([*words, "-std=c99", *STRICT, "-pedantic", "-O2", *flags, f"-I{dist.files}", "-o", f"{at}/first", *sources], timeout=LONG)


def shared(dist, name, words, prefix, at):
    """A shared library has no relocation in its text, and exports what lapd.h declares and defines."""
    sources = f"{dist.files}/lapd.S", f"{dist.files}/lapd_malloc.c"
    flags = "-O2", "-shared", "-fPIC", "-DLAPD_SYMBOLS", "-Wl,-z,text", "-Wl,-z,defs", f"-I{dist.files}"
    said = run([*words, *flags, "-o", f"{at}/liblapd.so.1", *sources])
    check(f"{name}: a shared library", said.returncode == 0 and not said.stderr, said.stderr.decode()[:600])
    if said.returncode == 0:
        rows = [it.split() for it in run([f"{prefix}nm", "-D", "--defined-only", f"{at}/liblapd.so.1"]).stdout.decode().splitlines()]
        wanted, there = HEADER | set(defined()), {it[-1] for it in rows}
        check(f"{name}: exports of the shared library", there == wanted, sorted(there ^ wanted))
        listed = run([f"{prefix}readelf", "-lW", f"{at}/liblapd.so.1"]).stdout.decode()
        check(f"{name}: the shared library's stack", re.search(r"GNU_STACK .* RW +0x", listed), listed[-600:])


# ---- All tests of the library --------------------------------------------------------------------------------------------

def library(dist):
    """tests/c/run over lapd.S, on this processor, and on aarch64 by an emulator, there briefly."""
    def on(words):
        said = run([f"{HERE}/run", *words, "--lapd", dist.files, "--lapdsim", dist.lapdsim], timeout=4 * LONG)
        check(f"tests/c/run {' '.join(words)}", said.returncode == 0, (said.stdout + said.stderr).decode()[-1200:])
    if not os.path.exists(dist.lapdsim):
        return skip("all tests of the library over lapd.S", "there is no proved program beside which they run", "DIST")
    in_parallel(on, [["--on", "assembly"], ["--on", "assembly-aarch64", "--briefly"]])
    return None


PARTS = (objects, links, library)
