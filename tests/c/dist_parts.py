"""Parts of the test of dist/, each a function of its own: what a user does with these files."""
import concurrent.futures
import functools
import os
import re
import resource
import shutil
import subprocess
import sys
from typing import NamedTuple

from compiled import HERE, ROOT, STRICT, check, compilers, read, run, sanitized, skip
from stored import answer, in_parallel, worked
from targets import FIRST, TARGETS

# lapdsim.c and lapd.c are long, and a machine may have much to do.
LONG = 900
C99 = ["-std=c99", *STRICT, "-pedantic"]
# What README.md begins with; tests/examples runs those with a dollar, too.
COMMANDS = ("$ cc -O2 -I dist -o first examples/c/first.c dist/lapd.S dist/lapd_malloc.c && ./first",
            "cc -o lapdsim dist/lapdsim.c && ./lapdsim run < crates/lapdsim/stdin")
# And then: tests.
TESTS = "cmake -S dist -B built && cmake --build built && (cd built && ctest)"
# Programs of examples/c with their files; first.c and wire.c are played, as they ask for no line.
EXAMPLES = {"first": (), "loop": (), "wire": ("trace",), "terminal": ("linecard", "trace"), "clock": ("trace",), "exchange": ("linecard", "pcap", "trace"),
            "hardware": ("linecard", "pcap", "trace"), "misdn": ("dchannel", "linecard", "pcap", "trace"),
            "dahdi": ("dchannel", "linecard", "pcap", "trace"), "standby": ()}
# Parts of examples/c that are no programs.
PARTS_OF_EXAMPLES = {"dchannel", "linecard", "pcap", "trace", "gateway"}
# A card that a program with little memory can't have, of a script and as lapd.h counts.
LARGEST = b"card 64 8 127 127 16 16 8192 260 10 127\nstored\n"
LITTLE = 5000  # KB of addresses: enough for a small card


class Dist(NamedTuple):
    """The files, a folder of the part's own, the proved program, the folder of what is compiled once for all parts, and whether
    the kit that is here made the files."""
    files: str
    folder: str
    lapdsim: str
    built: str
    is_of_this_kit: bool = True


def shell(command, folder, **env):
    return subprocess.run(["bash", "-ec", command], cwd=folder, capture_output=True, env={**os.environ, **env}, timeout=LONG, check=False)


def seconds():
    """The processor time of all programs that have ended."""
    spent = resource.getrusage(resource.RUSAGE_CHILDREN)
    return spent.ru_utime + spent.ru_stime


# ---- As a new user ------------------------------------------------------------------------------------------------------

def without_rt(folder):
    """A PATH in which all of the system is but `rt`."""
    at = f"{folder}/words"
    os.makedirs(at)
    for it in ("/usr/bin", "/bin"):
        for name in os.listdir(it):
            if name != "rt" and not os.path.lexists(f"{at}/{name}"):
                os.symlink(f"{it}/{name}", f"{at}/{name}")
    return at


def clean_folder(dist):
    """What README.md and dist/README say to do, pasted into a shell."""
    path, clone = without_rt(dist.folder), f"{dist.folder}/clone"
    for name in ("crates/lapdsim", "examples/c"):
        shutil.copytree(f"{ROOT}/{name}", f"{clone}/{name}", ignore=shutil.ignore_patterns("out"))
    shutil.copytree(dist.files, f"{clone}/dist")
    check("no rt is in PATH", shutil.which("rt", path=path) is None, path)
    before = seconds()
    for command, wanted in zip(COMMANDS, (FIRST, read(f"{ROOT}/crates/lapdsim/stdout"))):
        check(f"README.md has {command}", f"\n    {command}".encode() in read(f"{ROOT}/README.md"), "it doesn't")
        said = shell(re.sub(r"^\$ ", "", command), clone, PATH=path)
        check(command, (said.returncode, said.stdout) == (0, wanted), (said.stdout + said.stderr).decode()[-600:])
    took = seconds() - before
    print(f"c: both commands of README.md took {took:.1f} s of processor time")
    own_tests(clone, path)
    shown = re.findall(r"^    (cc \S.*?)(?:  .*)?$", read(f"{dist.files}/README").decode(), re.M)
    check("dist/README shows three commands", len(shown) == 3, shown)
    for command in shown:
        said = shell(command, f"{clone}/dist", PATH=path)
        good = said.stdout == FIRST if "first" in command else b" 0 failed" in said.stdout if "check" in command else said.stdout.startswith(b"lapdsim plays LAPD")
        check(command, said.returncode == 0 and good, (said.stdout + said.stderr).decode()[-600:])
    said = shell("sha256sum --strict --quiet -c SHA256SUMS", dist.files, PATH=path)
    check("sha256sum -c SHA256SUMS", said.returncode == 0, said.stdout.decode()[:600])


def own_tests(clone, path):
    """README.md's command of tests."""
    check(f"README.md has {TESTS}", f"\n    {TESTS}".encode() in read(f"{ROOT}/README.md"), "it doesn't")
    if not shutil.which("cmake"):
        skip(TESTS, "there is no CMake (Debian: apt-get install cmake)", "CMAKE")
        return
    before = seconds()
    said = shell(TESTS, clone, PATH=path)
    took = seconds() - before
    check(TESTS, said.returncode == 0 and b"100% tests passed" in said.stdout, (said.stdout + said.stderr).decode()[-600:])
    print(f"c: the tests of README.md took {took:.1f} s of processor time")


# ---- Examples -----------------------------------------------------------------------------------------------------------

def examples(dist):
    """Each example over lapd.c, by each compiler; and each as C++17 with lapd.hpp."""
    names = {it[:-2] for it in os.listdir(f"{ROOT}/examples/c") if it.endswith(".c")}
    check("the examples", names == {*EXAMPLES, *PARTS_OF_EXAMPLES}, sorted(names ^ {*EXAMPLES, *PARTS_OF_EXAMPLES}))
    in_parallel(lambda it: examples_by(dist, *it), compilers().items())
    for name in ("g++", "clang++"):
        if not shutil.which(name):
            skip(f"examples as C++17 by {name}", "it is not installed")
            continue
        # They are programs in C: initializers by name, of which clang++ warns, and what -Wextra says of these.
        words = [name, "-x", "c++", "-std=c++17", "-Wall", "-Werror", *["-Wno-c++20-designator"] * (name == "clang++"),
                 f"-I{dist.files}", "-include", "lapd.hpp", "-fsyntax-only"]
        for it in sorted(names):
            said = run([*words, f"{ROOT}/examples/c/{it}.c"])
            check(f"{name}: {it}.c as C++17", said.returncode == 0, said.stderr.decode()[:600])


def examples_by(dist, name, compiler):
    words, at = [*compiler, *C99, "-O1", f"-I{dist.files}"], f"{dist.folder}/{name}"
    os.makedirs(at)
    said = run([*words, "-c", f"{dist.files}/lapd.c", "-o", f"{at}/lapd.o"], timeout=LONG)
    check(f"{name}: lapd.c", said.returncode == 0, said.stderr.decode()[:600])
    for it, others in EXAMPLES.items():
        said = run([*words, "-o", f"{at}/{it}", *(f"{ROOT}/examples/c/{one}.c" for one in (it, *others)), f"{at}/lapd.o"], timeout=LONG)
        check(f"{name}: {it}.c over lapd.c", said.returncode == 0, said.stderr.decode()[:600])
    said = run([*words, "-c", "-o", f"{at}/gateway.o", f"{ROOT}/examples/c/gateway.c"])
    check(f"{name}: gateway.c", said.returncode == 0, said.stderr.decode()[:600])
    check(f"{name}: first over lapd.c", run([f"{at}/first"]).stdout == FIRST, "other lines")
    said = run([f"{HERE}/wire", f"{at}/wire"])
    check(f"{name}: wire over lapd.c", said.returncode == 0, (said.stdout + said.stderr).decode()[:600])


# ---- The simulator ------------------------------------------------------------------------------------------------------

@functools.lru_cache(None)
def simulator(dist_files, built, name, compiler, flags=("-O2",)):
    """lapdsim.c as a program; None where it does not compile."""
    path = f"{built}/lapdsim-{name}"
    said = run([*compiler, *C99, *flags, "-o", path, f"{dist_files}/lapdsim.c"], timeout=LONG)
    check(f"{name}: lapdsim.c compiles", said.returncode == 0, said.stderr.decode()[:600])
    return path if said.returncode == 0 else None


def simulators(dist):
    """By each compiler, and under the sanitizers of each that has them."""
    builds = {}
    for name, compiler in compilers().items():
        builds[name] = (tuple(compiler), ("-O2",))
        strict = sanitized(compiler, dist.folder)
        if strict:
            builds[f"{name} sanitized"] = (tuple(strict), ("-O0", "-g"))
        elif name != "toolchain":  # whose clang has none, as tests/c/run says
            skip(f"sanitizers of {name}", "it has none here")
    with concurrent.futures.ThreadPoolExecutor(os.cpu_count()) as pool:
        made = pool.map(lambda it: (it, simulator(dist.files, dist.built, it.replace(" ", "-"), *builds[it])), builds)
    return {name: path for name, path in made if path}


def plays(dist):
    """All stored scripts; and what the proved program says of itself."""
    if os.path.exists(dist.lapdsim):
        wrong = [name for name, it in worked().items() if answer([dist.lapdsim, "run"], it.text) != it.wanted()]
        check("the proved program plays the scripts", not wrong, wrong)
    for name, path in simulators(dist).items():
        play_stored(name, [path])
        for words in (["--help"], ["--version"], ["limits", "64", "8", "16", "8192", "260"], ["frame", "00817F"], ["run", "it"]):
            is_same = not os.path.exists(dist.lapdsim) or answer([path, *words], b"") == answer([dist.lapdsim, *words], b"")
            check(f"{name}: lapdsim {' '.join(words)}", is_same, "other words than those of the proved program")


def play_stored(name, words):
    scripts = worked()
    good = in_parallel(lambda it: answer([*words, "run"], it.text) == it.wanted(), scripts.values())
    for script, is_good in zip(scripts, good):
        check(f"{name}, lapdsim.c: tests/scripts/{script}", is_good, "another transcript, fault line or status")


def tests_of_program(dist):
    """What is tested of the proved program holds of this one, line by line, on streams and over devices that fail."""
    path = simulator(dist.files, dist.built, "gcc", *by_first())
    for name in ("program", "streams", "devices", "hostile") if path else ():
        said = run([f"{ROOT}/tests/{name}", path], timeout=LONG)
        check(f"tests/{name} with lapdsim.c", said.returncode == 0, (said.stdout + said.stderr).decode()[-600:])


def by_first():
    """The first compiler, with its flags."""
    return tuple(next(iter(compilers().values()))), ("-O2",)


def processors(dist):
    """All stored scripts on each other processor."""
    in_parallel(lambda it: on_processor(dist, it), [it for it in TARGETS if it != "portable"])


def on_processor(dist, name):
    target = TARGETS[name]
    missing = [it for it in (target.compiler, *target.emulator[:1]) if not shutil.which(it)]
    if missing:
        skip(f"{name}: lapdsim.c", f"{' and '.join(missing)} {'is' if len(missing) == 1 else 'are'} not there (Debian: apt-get install {target.packages})",
             "TARGETS")
        return
    path = simulator(dist.files, dist.built, name, (target.compiler,))
    if path:
        play_stored(name, [*target.emulator, path])


# ---- Memory -------------------------------------------------------------------------------------------------------------

def limits(dist):
    """Refused memory is told, and never taken for room: under a limit of addresses, and in an engine whose memory may not grow."""
    path = simulator(dist.files, dist.built, "gcc", *by_first())
    if path:
        for limit, wanted in ((LITTLE, (b"", b"out of memory\n", 1)), ("unlimited", (b"stored 0 limit 2232192\n", b"", 0))):
            ran = subprocess.run(["bash", "-c", f'ulimit -v {limit} && exec "$0" run', path], input=LARGEST, capture_output=True, check=False)
            got = ran.stdout, ran.stderr, ran.returncode
            check(f"the largest card in {limit} KB", got == wanted, got)
        small = worked()["conversation/call"]
        ran = subprocess.run(["bash", "-c", f'ulimit -v {LITTLE} && exec "$0" run', path], input=small.text, capture_output=True, check=False)
        check("a conversation in little memory", (ran.stdout, ran.stderr, ran.returncode) == small.wanted(), ran.stderr.decode()[-300:])
    node = shutil.which("node")
    if not node:
        skip("programs in an engine of little memory", "there is no node (Debian: apt-get install nodejs)", "PAGE")
        return
    said = run([node, f"{HERE}/limits.mjs", f"{dist.files}/lapd.html"], timeout=LONG)
    check("the page's program in an engine of little memory", said.returncode == 0, (said.stdout + said.stderr).decode()[-600:])


def threads(dist):
    """32 threads over lapd.c with malloc, under the sanitizer of threads where the compiler has it."""
    words = ["cc", "-std=c99", "-O1", *STRICT, f"-I{dist.files}", "-o", f"{dist.folder}/threads", f"{HERE}/threads.c", f"{dist.files}/lapd.c", "-lpthread"]
    said = run([*words, "-fsanitize=thread"], timeout=LONG)
    if said.returncode:
        skip("the sanitizer of threads", "the compiler has none here")
        said = run(words, timeout=LONG)
    check("threads.c compiles", said.returncode == 0, said.stderr.decode()[:600])
    ran = run([f"{dist.folder}/threads"], timeout=LONG)
    check("32 threads", ran.returncode == 0, ran.stderr.decode()[:600])


# ---- Python -----------------------------------------------------------------------------------------------------------

def python(dist):
    """lapd.py over the shared library that dist/README has made of lapd.S, or of lapd.c, beside it: all stored scripts."""
    at, code = f"{dist.folder}/python", (
        "import sys; sys.dont_write_bytecode = True; sys.path[:0] = sys.argv[1:]; import lapd, scripted; from worked import worked; "
        "scripts = worked(); print(lapd.__file__, sum(scripted.play(it.text) == it.wanted() for it in scripts.values()) - len(scripts))")
    shutil.copytree(dist.files, at)
    command = re.search(r"cc -O2 -shared .*? lapd\.S lapd_malloc\.c", read(f"{at}/README").decode())
    check("dist/README shows a shared library", command, "no command")
    for source in ("lapd.S lapd_malloc.c", "lapd.c") if command else ():
        said = shell(command[0].replace("lapd.S lapd_malloc.c", source), at)
        check(f"a shared library of {source}", said.returncode == 0, said.stderr.decode()[:600])
        ran = run([sys.executable, "-c", code, at, HERE, f"{ROOT}/tests/scripts"], env={"LAPD_LIBRARY": ""})
        check(f"lapd.py over {source}", ran.stdout.decode() == f"{at}/lapd.py 0\n", (ran.stdout + ran.stderr).decode()[-600:])
        os.remove(f"{at}/liblapd.so.1")


PARTS = (clean_folder, examples, plays, tests_of_program, processors, limits, threads, python)
