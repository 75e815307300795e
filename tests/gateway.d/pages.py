"""README.md of gateway/: each of its commands runs, and the log is what it shows; and the examples, the manuals and their words."""
import os
import re
import shutil
import signal
import subprocess
import time

from checks import Missing, check, each
from program import ROOT, STRICT, Gateway, free_port, group, run, server

README = f"{ROOT}/gateway/README.md"
# What a test can't do as it stands: packages are there by tests/setup, and dpkg installs in a root of its own (packaged.py).
ELSEWHERE = ("sudo apt-get install", "lapd-gateway --check", "sudo systemctl")
LIMIT_SECONDS = 120


def text_of(path):
    with open(path, encoding="utf-8") as file:
        return file.read()


def commands():
    """Blocks of commands, in order."""
    return [block.replace("    ", "", 1).replace("\n    ", "\n").splitlines()
            for block in re.findall(r"(?:^    \S.*\n)+", text_of(README), re.M)]


def as_shown(text):
    """A log without its times; what happens at both ends at the same moment may come in another order."""
    return sorted(re.sub(r"^\d\d:\d\d:\d\d\.\d\d\d ", "", text, flags=re.M).splitlines())


def readme(place):
    """All commands in a folder that looks like the repository."""
    if not os.path.exists("/usr/include/libpri.h"):
        raise Missing("there is no libpri.h (libpri-dev)")
    folder = place.folder("readme")
    for name in ("gateway", "dist"):
        os.symlink(f"{ROOT}/{name}", f"{folder}/{name}")
    blocks = commands()
    lines = [it for block in blocks for it in block]
    check("README.md has its commands", len(lines) >= 11
          and all(any(word in it for it in lines) for word in ("cpack", "telephone lines 1 0", "--check")), lines)
    script = "\n".join(it for it in lines if not it.startswith(ELSEWHERE) and "package" not in it)
    script = script.replace(" ./iua &", " ./iua >exchange.log 2>&1 & exchange=$!")
    script = script.replace("house.conf &", "house.conf >gateway.log 2>&1 & gateway=$!\nsleep 0.5")
    begun = time.monotonic()
    said = run(["timeout", "-k", "1", str(LIMIT_SECONDS), "bash", "-ec", f"{script}\nwait $exchange; kill $gateway; wait $gateway"],
               cwd=folder)
    check("the commands of README.md", said.returncode == 0, (said.stdout + said.stderr).decode()[-1500:])
    check("they take less than ten minutes", time.monotonic() - begun < 600, time.monotonic() - begun)
    shown = re.search(r"^```\n(.*?)^```$", text_of(README), re.M | re.S)[1]
    found = text_of(f"{folder}/exchange.log")
    check("the log is what README.md shows", as_shown(found) == as_shown(shown), found)
    packing = [it for it in lines if "cpack" in it]
    said = run(["bash", "-ec", "\n".join(packing)], timeout=300, cwd=folder)
    check("the package of README.md", said.returncode == 0
          and [it for it in os.listdir(f"{folder}/package") if it.endswith(".deb")], said.stderr[-600:])


def examples(place):
    """The examples compile without a warning; two programs of frames.c join a line of one gateway to a line of another."""
    folder = place.folder("examples")
    for name in ("frames", *["telephone"] * os.path.exists("/usr/include/libpri.h")):
        for compiler in ("gcc", "clang"):
            if shutil.which(compiler):
                said = run([compiler, *STRICT, "-o", f"{folder}/{name}", f"{ROOT}/gateway/examples/{name}.c",
                            *["-lpri"] * (name == "telephone")])
                check(f"{name}.c by {compiler}", said.returncode == 0, said.stderr.decode()[-600:])
    for words in ([f"{folder}/frames"], [f"{folder}/frames", "/nowhere", "1", "2", "3"], [f"{folder}/telephone", "/nowhere", "0"]):
        said = run(words) if os.path.exists(words[0]) else None
        check(f"{words[1:]} is told", said is None or said.returncode in (1, 2) and said.stderr.count(b"\n") == 1, said)
    one = Gateway(place.program, f"{folder}/one", group("a", 5, 1, "primary"), server("all", 0, 9), state=False)
    two = Gateway(place.program, f"{folder}/two", group("a", 6, 1, "primary", side="user"), server("all", 0, 9), state=False)
    with one, two:
        ports = [free_port() for _ in range(2)]
        joined = [subprocess.Popen([f"{folder}/frames", it.lines, iid, *map(str, at)]) for it, iid, at in
                  ((one, "5", ports), (two, "6", ports[::-1]))]
        up = one.wait_until(lambda it: it.get('link_state{line="5",sapi="0",tei="0"}', 0) >= 7)
        check("frames.c joins two gateways", up and two.wait_until(lambda it: it.get('link_state{line="6",sapi="0",tei="0"}',
                                                                                     0) >= 7), one.log)
        one.stop()
        check("frames.c ends with its gateway", joined[0].wait(5) == 0, "it does not")
        joined[1].send_signal(signal.SIGTERM)
        joined[1].wait()


def manuals(place):
    """mandoc and groff find nothing to tell in the manuals."""
    pages = [f"{ROOT}/gateway/{it}" for it in ("lapd-gateway.8", "lapd-gateway.conf.5")]
    if not shutil.which("mandoc"):
        raise Missing("there is no mandoc")
    said = run(["mandoc", "-Tlint", *pages])
    told = [it for it in said.stdout.decode().splitlines() if "referenced manual not found" not in it]
    check("mandoc -T lint", not told, told)
    for page in pages if shutil.which("groff") else ():
        for columns in (76, 80):
            said = run(["groff", "-t", "-mandoc", "-Tutf8", "-ww", f"-rLL={columns}n", page])
            check(f"groff of {os.path.basename(page)}", not said.stderr, said.stderr[-500:])


def pages(place):
    """README.md's commands and log, the examples, and the manuals."""
    each(place, readme, examples, manuals)
