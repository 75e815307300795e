"""Parts of the test of dist/ that are of the whole folder, each a function of its own: its tests, CMake, and packages."""
import os
import re
import shutil
import sys

from compiled import HERE, ROOT, STRICT, check, compilers, read, run, skip
from stored import in_parallel, worked
from targets import FIRST, LONG, TARGETS

sys.path[:0] = [f"{ROOT}/tests/scripts", f"{ROOT}/tools"]
from vithrynel.header import defined, functions
from worked import rows_of

C99 = ["-std=c99", *STRICT, "-pedantic", "-O1"]
PARTS_OF_CHECK = ("scripts", "facing", "wrong", "null", "first")
# Libraries that are wrong, by the call that is another, and the parts that have to tell it.
WRONG = {"lapd_pull": ("scripts first", "uint32_t @(lapd_card *c, uint32_t l, uint8_t *o, lapd_report *r)",
                       "uint32_t s = !(c, l, o, r); *o ^= s == LAPD_OK; return s;"),
         "lapd_frame": ("scripts facing", "uint32_t @(lapd_card *c, uint32_t l, const uint8_t *o, size_t n, lapd_report *r)",
                        "uint32_t s = !(c, l, o, n, r); if (r->delivered) r->contents[0] ^= 1; return s;"),
         "lapd_next_link": ("wrong", "uint32_t @(lapd_card *c, uint32_t l, uint8_t *p, lapd_link *k)",
                            "uint32_t s = !(c, l, p, k); return s == LAPD_WRONG_LINE ? LAPD_NO_CARD : s;"),
         "lapd_stored": ("wrong", "uint32_t @(lapd_card *c, uint32_t *o)", "uint32_t s = !(c, o); *o = s ? 1 : *o; return s;")}


# ---- The tests that a user runs ------------------------------------------------------------------------------------------

def scripts_of(dist):
    """scripts.txt has the worked scripts, and nothing else."""
    found = rows_of(f"{dist.files}/tests/scripts.txt")
    check("tests/scripts.txt", len(found) == len(dict(found)) and dict(found) == worked(), "other scripts than tests/scripts has")


def code(dist, name):
    return [f"{dist.files}/{it}" for it in {"lapd.S": ("lapd.S", "lapd_malloc.c"), "lapd.c": ("lapd.c",)}[name]]


def parts(dist):
    return [f"{dist.files}/tests/{it}" for it in sorted(os.listdir(f"{dist.files}/tests")) if it.endswith(".c")]


def built(dist, name, *words):
    """check, by a compiler and more; None if it doesn't compile."""
    path = f"{dist.folder}/check-{name.replace(' ', '-')}"
    said = run([*words, f"-I{dist.files}", "-o", path, *parts(dist)], timeout=LONG)
    check(f"{name}: check compiles", said.returncode == 0, said.stderr.decode()[:600])
    return path if said.returncode == 0 else None


def passes(dist, name, path, *runner):
    said = path and run([*runner, path, f"{dist.files}/tests/scripts.txt"], timeout=LONG)
    check(f"{name}: check passes", said and said.returncode == 0 and b" 0 failed" in said.stdout, said and (said.stdout + said.stderr).decode()[-600:])


def checked(dist):
    """check passes over lapd.S with each compiler and on 64-bit ARM, and over lapd.c; and it tells what is wrong."""
    ways = {name: ([*words, *C99, *code(dist, "lapd.S")], ()) for name, words in compilers().items()}
    ways["lapd.c"] = (["cc", *C99, *code(dist, "lapd.c")], ())
    target = TARGETS["aarch64"]
    if all(map(shutil.which, (target.compiler, target.emulator[0]))):
        ways["aarch64"] = ([target.compiler, *C99, *code(dist, "lapd.S")], target.emulator)
    else:
        skip("check on aarch64", f"its compiler or its emulator is not there (Debian: apt-get install {target.packages})", "TARGETS")
    in_parallel(lambda it: passes(dist, it, built(dist, it, *ways[it][0]), *ways[it][1]), ways)
    path = f"{dist.folder}/check-{next(iter(compilers()))}"
    if os.path.exists(path):
        of_words(dist, path)
        of_wrong_tables(dist, path)
    of_wrong_libraries(dist)


def of_words(dist, path):
    table = f"{dist.files}/tests/scripts.txt"
    for words, status in (([], 2), (["--help"], 0), ([table, "other"], 2), ([f"{table}.none"], 2), ([f"{dist.files}/lapd.h"], 2),
                          *(([table, it], 0) for it in PARTS_OF_CHECK)):
        said = run([path, *words])
        check(f"check {' '.join(words)}", said.returncode == status, (said.stdout + said.stderr).decode()[-300:])


def of_wrong_tables(dist, path):
    """A transcript, a fault line and a script that are others are told by the name of the script."""
    text, wrong = read(f"{dist.files}/tests/scripts.txt").decode(), f"{dist.folder}/wrong.txt"
    for old, new in (("= 0 error 64 F\n", "= 0 error 64 G\n"), (": line 1: unknown word\n", ": line 2: unknown word\n"), ("| assign 0 64\n", "| assign 0 65\n"),
                     ("| stored\n", "")):
        check(f"scripts.txt has {old.strip()}", old in text, "no such line")
        with open(wrong, "w", encoding="ascii") as file:
            file.write(text.replace(old, new, 1))
        name = re.findall(r"^([\w/-]+):", text[:text.index(old) + len(old)], re.M)[-1]
        said = run([path, wrong, "scripts"])
        check(f"check tells of another {name}", said.returncode == 1 and f"check: {name}: ".encode() in said.stdout, said.stdout.decode()[-300:])
    with open(wrong, "w", encoding="ascii") as file:
        file.write(text[:len(text) // 4])
    check("check tells that scripts are missing", run([path, wrong, "scripts"]).returncode in (1, 2), "it passes")


def of_wrong_libraries(dist):
    """Of a library in which one call is another; and where null pointers are not looked at."""
    objects = f"{dist.folder}/objects"
    os.makedirs(objects)
    said = run(["sh", "-ec", 'cd "$0" && cc -O1 "-I$1" -c "$1"/tests/*.c "$1/lapd.S" "$1/lapd_malloc.c"', objects, dist.files], timeout=LONG)
    check("check compiles, file by file", said.returncode == 0, said.stderr.decode()[:600])
    found = [f"{objects}/{it}" for it in sorted(os.listdir(objects))]

    def tells(name):
        asked, head, body = WRONG[name]
        source = f"{dist.folder}/{name}.c"
        with open(source, "w", encoding="ascii") as file:
            real, wrap = (head.replace("@", f"__{it}_{name}") for it in ("real", "wrap"))
            file.write(f'#include "lapd.h"\n{real};\n{wrap};\n{wrap} {{ {body.replace("!", f"__real_{name}")} }}\n')
        path = linked(f"check-{name}", f"-Wl,--wrap={name}", source, *found)
        for part in asked.split() if path else ():
            said = run([path, f"{dist.files}/tests/scripts.txt", part], timeout=LONG)
            check(f"check {part} tells of a wrong {name}", said.returncode in (1, 3), said.stdout.decode()[-300:])

    def linked(name, *words):
        path = f"{dist.folder}/{name}"
        said = run(["cc", f"-I{dist.files}", "-o", path, *words], timeout=LONG)
        check(f"{name} is linked", said.returncode == 0, said.stderr.decode()[:600])
        return path if said.returncode == 0 else None

    in_parallel(tells, WRONG)
    path = linked("check-without-looking", "-DLAPD_CHECKED_H", f"{dist.files}/tests/null.c", *(it for it in found if not it.endswith("/null.o")))
    check("check null tells of null pointers that are not looked at", path and run([path, f"{dist.files}/tests/scripts.txt", "null"]).returncode != 0, "it passes")


# ---- CMake ----------------------------------------------------------------------------------------------------------------

PROJECT = """\
cmake_minimum_required(VERSION 3.14)
project(program LANGUAGES {language})
{found}
add_executable(first first.{ending})
target_link_libraries(first PRIVATE {target})
"""
FETCHED = """\
include(FetchContent)
FetchContent_Declare(lapd URL "file://{folder}/dist.tar.gz")
FetchContent_MakeAvailable(lapd)"""
FOUND = "find_package(lapd 1.0 CONFIG REQUIRED)"
# What says by itself that it was compiled with LAPD_CHECKED, or without.
ASKS = '#include "lapd.h"\n#if {}defined(LAPD_CHECKED)\n#error "LAPD_CHECKED"\n#endif\n'
PROVED, TESTED = b"lapd: takes lapd.S, the proved code", b"lapd: takes lapd.c, which is made of the proved code, and tested"
# A compiler that says that its objects are none of ELF.
NO_ELF = "-DCMAKE_C_FLAGS=-U__ELF__"


def cmake(dist):
    """Programs with lapd::lapd and its kind, in each way; what is said of the code; and what ctest runs."""
    if not shutil.which("cmake"):
        skip("CMake over dist/", "there is no CMake (Debian: apt-get install cmake)", "CMAKE")
        return
    said = run(["tar", "-czf", f"{dist.folder}/dist.tar.gz", "-C", os.path.dirname(dist.files), os.path.basename(dist.files)])
    check("an archive of dist/", said.returncode == 0, said.stderr.decode())
    added, fetched = f'add_subdirectory("{dist.files}" lapd)', FETCHED.format(folder=dist.folder)
    ways = {"add_subdirectory": (added, "C", "lapd", PROVED),
            "a project in C++ alone": (added, "CXX", "lapd", PROVED),
            "a shared library": (added, "C", "lapd", PROVED, "-DBUILD_SHARED_LIBS=ON"),
            "lapd::shared": (added, "C", "shared", PROVED),
            "a region": (added, "C", "lapd", PROVED, "-DLAPD_HEAP_OCTETS=100000"),
            "FetchContent": (fetched, "C", "lapd", PROVED),
            "FetchContent in C++ alone": (fetched, "CXX", "lapd", PROVED)}
    in_parallel(lambda it: cmake_by(dist, it, *ways[it]), ways)
    # What is configured alone: lapd.c takes long to compile.
    for flags in (("-DLAPD_CODE=portable",), (NO_ELF,)):
        said = run(["cmake", "-S", dist.files, "-B", f"{dist.folder}/{flags[0]}", *flags])
        check(f"CMake with {flags[0]}: which code", said.returncode == 0 and TESTED in said.stdout, (said.stdout + said.stderr).decode()[-600:])
    for flags, told in ((("-DLAPD_CODE=proved", NO_ELF), b"take LAPD_CODE=portable"), (("-DLAPD_CODE=other",), b"none of auto, proved and portable")):
        said = run(["cmake", "-S", dist.files, "-B", f"{dist.folder}/{flags[0]}", *flags])
        words = b" ".join(said.stderr.split())
        check(f"CMake with {' '.join(flags)}", said.returncode != 0 and told in words, said.stderr.decode()[-600:])


def cmake_by(dist, name, found, language, target, told, *flags):
    at, ending = f"{dist.folder}/{name.replace(' ', '-').replace(':', '')}", {"C": "c", "CXX": "cpp"}[language]
    os.makedirs(at)
    shutil.copy(f"{ROOT}/examples/c/first.c", f"{at}/first.{ending}")
    with open(f"{at}/CMakeLists.txt", "w", encoding="utf-8") as file:
        file.write(PROJECT.format(found=found, language=language, ending=ending, target=f"lapd::{target}"))
    said = run(["cmake", "-S", at, "-B", f"{at}/build", *flags], timeout=LONG)
    check(f"CMake, {name}: which code", told in said.stdout, said.stdout.decode()[-600:])
    said = said if said.returncode else run(["cmake", "--build", f"{at}/build"], timeout=LONG)
    check(f"CMake, {name}", said.returncode == 0, (said.stdout + said.stderr).decode()[-600:])
    if said.returncode == 0:
        check(f"CMake, {name}: the program", run([f"{at}/build/first"]).stdout == FIRST, "other lines")


def made(dist, name, *flags):
    """The folder by itself, with its tests; where it was built, or None."""
    at = f"{dist.folder}/{name}"
    said = run(["cmake", "-S", dist.files, "-B", at, *flags], timeout=LONG)
    said = said if said.returncode else run(["cmake", "--build", at], timeout=LONG)
    check(f"CMake, {name}", said.returncode == 0, (said.stdout + said.stderr).decode()[-600:])
    return at if said.returncode == 0 else None


def tested(at, name, count):
    said = run(["sh", "-c", 'cd "$0" && ctest --output-on-failure', at], timeout=LONG)
    told = f"100% tests passed, 0 tests failed out of {count}".encode()
    check(f"ctest, {name}", said.returncode == 0 and told in said.stdout, (said.stdout + said.stderr).decode()[-600:])


def ctest(dist):
    """By itself, and without functions of memory; on 64-bit ARM; and over lapd.c."""
    if not shutil.which("ctest"):
        skip("ctest in dist/", "there is no CMake (Debian: apt-get install cmake)", "CMAKE")
        return
    target, ways = TARGETS["aarch64"], {"alone": (6,), "own": (5, "-DLAPD_OWN_MEMORY=ON"), "portable": (6, "-DLAPD_CODE=portable")}
    if all(map(shutil.which, (target.compiler, target.emulator[0]))):
        ways["aarch64"] = (6, "-DCMAKE_SYSTEM_NAME=Linux", "-DCMAKE_SYSTEM_PROCESSOR=aarch64", f"-DCMAKE_C_COMPILER={target.compiler}",
                           f"-DCMAKE_CROSSCOMPILING_EMULATOR={';'.join(target.emulator)}", "-DLAPD_CODE=proved")
    else:
        skip("ctest on aarch64", f"its compiler or its emulator is not there (Debian: apt-get install {target.packages})", "TARGETS")
    for name, (count, *flags) in ways.items():
        at = made(dist, name, *flags)
        if at:
            tested(at, name, count)


# ---- Installed ------------------------------------------------------------------------------------------------------------

EXPORTS = {it.name for it in functions()} | set(defined())


def targets_of(path):
    """The targets that a package's files name."""
    text = "".join(read(f"{path}/{it}").decode() for it in os.listdir(path) if it.endswith(".cmake"))
    return set(re.findall(r"add_library\((lapd::\w+) ", text))


def installed(dist):
    """What CMake installs: each file; one list of targets with what tools/install leaves; programs by CMake and pkg-config."""
    if not shutil.which("cmake"):
        skip("what CMake installs", "there is no CMake (Debian: apt-get install cmake)", "CMAKE")
        return
    at, to = made(dist, "built", "-DLAPD_TESTS=OFF"), f"{dist.folder}/a prefix"
    if not at:
        return
    said = run(["cmake", "--install", at, "--prefix", to])
    check("CMake installs", said.returncode == 0, (said.stdout + said.stderr).decode()[-600:])
    there = {os.path.relpath(f"{folder}/{it}", to) for folder, _, those in os.walk(to) for it in those}
    examples = {f"share/lapd/{os.path.relpath(f'{folder}/{it}', dist.files)}" for folder, _, those in os.walk(f"{dist.files}/examples")
                for it in those}
    wanted = examples | {f"include/{it}" for it in ("lapd.h", "lapd_checked.h", "lapd_memory.h", "lapd.hpp")} | {
        f"lib/{it}" for it in ("liblapd.a", "liblapd-static.a", "liblapd_card.a", "liblapd.so", "liblapd.so.1", "liblapd.so.1.0")} | {
        "lib/pkgconfig/lapd.pc", "lib/pkgconfig/lapd-shared.pc", "share/lapd/lapd.py", "share/lapd/lapd_malloc.c",
        "share/doc/lapd/EMBEDDING.md", "share/doc/lapd/LAYER3.md", "share/man/man3/lapd.3"}
    check("what CMake installs", {it for it in there if not it.startswith("lib/cmake/lapd/")} == wanted, sorted(there ^ wanted))
    check("lapd(3) names no simulator that is not there", b"lapdsim" not in read(f"{to}/share/man/man3/lapd.3"), "it does")
    check("one list of targets", targets_of(f"{to}/lib/cmake/lapd") == targets_of(f"{ROOT}/c/cmake") == {"lapd::lapd", "lapd::shared", "lapd::card"},
          f"{targets_of(f'{to}/lib/cmake/lapd')} and {targets_of(f'{ROOT}/c/cmake')}")
    rows = run(["nm", "-D", "--defined-only", f"{to}/lib/liblapd.so.1"]).stdout.decode().splitlines()
    check("exports of CMake's shared library", {it.split()[-1] for it in rows} == EXPORTS, rows)
    by_packages(dist, to)


def by_packages(dist, to):
    where = f"-DCMAKE_PREFIX_PATH={to}"
    for target in ("lapd", "shared"):
        cmake_by(dist, f"installed {target}", FOUND, "C", target, b"", where)
    for kind, negated in (("Debug", "!"), ("Release", "")):
        at = f"{dist.folder}/{kind}"
        os.makedirs(at)
        with open(f"{at}/first.c", "w", encoding="ascii") as file:
            file.write(ASKS.format(negated) + "int main(void) { return lapd_version() != LAPD_VERSION; }\n")
        with open(f"{at}/CMakeLists.txt", "w", encoding="ascii") as file:
            file.write(PROJECT.format(found=FOUND, language="C", ending="c", target="lapd::lapd"))
        said = run(["cmake", "-S", at, "-B", f"{at}/build", where, f"-DCMAKE_BUILD_TYPE={kind}"])
        said = said if said.returncode else run(["cmake", "--build", f"{at}/build"])
        check(f"LAPD_CHECKED of CMake, {kind}", said.returncode == 0, (said.stdout + said.stderr).decode()[-600:])
    for name in ("lapd", "lapd-shared"):
        words = f'eval cc -o first-{name} "{ROOT}/examples/c/first.c" $(pkg-config --cflags --libs {name}) "-Wl,-rpath,\'$0/lib\'"'
        said = run(["sh", "-ec", f'cd "{dist.folder}" && {words}', to], env={"PKG_CONFIG_PATH": f"{to}/lib/pkgconfig"})
        check(f"pkg-config {name}", said.returncode == 0, said.stderr.decode()[:600])
        if said.returncode == 0:
            check(f"pkg-config {name}: the program", run([f"{dist.folder}/first-{name}"]).stdout == FIRST, "other lines")
            needs = b"[liblapd.so.1]" in run(["readelf", "-d", f"{dist.folder}/first-{name}"]).stdout
            check(f"pkg-config {name}: which library", needs == (name == "lapd-shared"), needs)


# ---- Debian's packages ------------------------------------------------------------------------------------------------------

# Who made the packages of this test: at a host that mail can be sent to, as lintian wants it.
MAINTAINER = "A Packager <packager@debian.org>"
# What the folder has of each package, for dpkg.
PACKAGES = {"liblapd1": "liblapd.so.1", "liblapd-dev": "lapd.h", "lapdsim": "bin/lapdsim"}


def packages(dist):
    """liblapd1, liblapd-dev and lapdsim: dpkg installs them in a root of its own, a program is made there, and lintian is content."""
    missing = [it for it in ("cpack", "dpkg", "dpkg-deb") if not shutil.which(it)]
    if missing:
        skip("Debian's packages", f"there is no {' and no '.join(missing)}", "CMAKE")
        return
    at = made(dist, "built", "-DLAPD_SIMULATOR=ON", "-DLAPD_TESTS=OFF", "-DCMAKE_INSTALL_PREFIX=/usr", "-DCMAKE_BUILD_TYPE=Release",
              f"-DLAPD_MAINTAINER={MAINTAINER}")
    said = at and run(["sh", "-c", 'cd "$0" && cpack -G DEB', at], timeout=LONG)
    check("cpack -G DEB", said and said.returncode == 0, said and (said.stdout + said.stderr).decode()[-600:])
    found = [f"{at}/{it}" for it in sorted(os.listdir(at)) if it.endswith(".deb")] if at else []
    names = [run(["dpkg-deb", "-f", it, "Package"]).stdout.decode().strip() for it in found]
    check("Debian's packages", sorted(names) == sorted(PACKAGES), names)
    if sorted(names) == sorted(PACKAGES):
        by_dpkg(dist, found)
        by_lintian(found)


def by_dpkg(dist, found):
    root = f"{dist.folder}/root"
    os.makedirs(f"{root}/var/lib/dpkg/info")
    os.makedirs(f"{root}/var/lib/dpkg/updates")
    open(f"{root}/var/lib/dpkg/status", "w", encoding="ascii").close()
    force = "--force-depends,not-root,bad-path,script-chrootless"
    said = run(["dpkg", f"--root={root}", f"--log={root}/log", force, "-i", *found])
    check("dpkg -i", said.returncode == 0, (said.stdout + said.stderr).decode()[-600:])
    listed = run(["dpkg", f"--root={root}", "-l"]).stdout.decode()
    check("dpkg -l", len(re.findall(r"^ii +(?:liblapd1|liblapd-dev|lapdsim)\b", listed, re.M)) == len(PACKAGES), listed)
    pc = run(["sh", "-c", 'find "$0" -name lapd-shared.pc', root]).stdout.decode().strip()
    words = run(["pkg-config", "--cflags", "--libs", "lapd-shared"], env={"PKG_CONFIG_PATH": os.path.dirname(pc)}).stdout.decode().split()
    said = run(["cc", "-o", f"{dist.folder}/of-debian", f"{root}/usr/share/lapd/examples/first.c", *words])
    check("a program with liblapd-dev", said.returncode == 0, said.stderr.decode()[:600])
    ran = said.returncode == 0 and run([f"{dist.folder}/of-debian"], env={"LD_LIBRARY_PATH": f"{os.path.dirname(pc)}/.."})
    check("the program with liblapd1", ran and ran.stdout == FIRST, ran and ran.stderr.decode()[-300:])
    copyright_of = [read(f"{root}/usr/share/doc/{it}/copyright").decode() for it in PACKAGES]
    check("no licence means no right to use", all("No licence means no right to use" in it for it in copyright_of), copyright_of)
    said = run(["dpkg", f"--root={root}", f"--log={root}/log", force, "-r", *PACKAGES])
    left = [it for _, _, those in os.walk(f"{root}/usr") for it in those]
    check("dpkg -r", said.returncode == 0 and not left, (said.stdout + said.stderr).decode()[-600:] + str(left))


def by_lintian(found):
    if not shutil.which("lintian"):
        skip("what lintian says", "it is not installed (Debian: apt-get install lintian)", "CMAKE")
        return
    said = run(["lintian", "--tag-display-limit", "0", "-I", *found], timeout=LONG)
    check("lintian says nothing", said.returncode == 0 and not said.stdout.strip(), said.stdout.decode()[-1200:])


# ---- The page ---------------------------------------------------------------------------------------------------------------

def embedding(dist):
    """EMBEDDING.md and LAYER3.md name what is there, and the first program runs; lapd.3 names libraries that are there."""
    named = re.findall(r"\]\(([^)\s#]*)", read(f"{dist.files}/LAYER3.md").decode())
    check("LAYER3.md names what is there", named and all(os.path.exists(f"{dist.files}/{it}") for it in named), named)
    text = read(f"{dist.files}/EMBEDDING.md").decode()
    links = re.findall(r"\]\(([^)\s#]*)", text)
    missing = [it for it in [*links, *re.findall(r"`((?:examples|dist|tests|tools|docs|include|man)/[\w./-]+)`", text)] if not os.path.exists(f"{dist.files}/{it}")]
    check("EMBEDDING.md names what is there", links and not missing, missing)
    check("EMBEDDING.md names no folder of the repository", not re.search(r"^    .*\bdist\b", text, re.M), "dist")
    shown = re.findall(r"^    (cc .*&& \./first)$", text, re.M)
    check("EMBEDDING.md shows a program", shown, "none")
    for command in shown:
        at = f"{dist.folder}/files"
        shutil.copytree(dist.files, at, dirs_exist_ok=True)
        said = run(["sh", "-ec", f'cd "$0" && {command}', at], timeout=LONG)
        check(f"EMBEDDING.md: {command}", said.stdout == FIRST, (said.stdout + said.stderr).decode()[-600:])
    for name in sorted(it for it in os.listdir(f"{dist.files}/examples") if "." in it):
        named = re.findall(r"(?<=[ /])(\.\./\S+|\w+\.[cS])(?= |$)", "".join(re.findall(r"^ \* +(cc .*)$", read(f"{dist.files}/examples/{name}").decode(), re.M)))
        missing = [it for it in named if not os.path.exists(f"{dist.files}/examples/{it}")]
        check(f"what {name} is compiled with is there", not missing, missing)


PARTS = (scripts_of, checked, embedding, cmake, ctest, installed, packages)
