"""Calls of terminals that nobody here wrote, and of our own, through the gateway to the exchange of its examples."""
import re
import subprocess
import sys

from checks import Missing, check, each, say
from program import ROOT, Ends, Gateway, group, run, server

EXCHANGE = [sys.executable, f"{ROOT}/gateway/examples/exchange.py"]
LIBPRI_LINES, CALLS, LONG_CALLS = 4, 40, 400


class Exchange:
    """The exchange of the examples; what it says goes to a file, which nobody has to read meanwhile."""

    def __init__(self, gateway, *words):
        self.path = f"{gateway.folder}/exchange"
        with open(self.path, "w", encoding="utf-8") as file:
            self.process = subprocess.Popen([*EXCHANGE, *map(str, words), gateway.iua], stdout=file, stderr=file)

    def end(self, seconds):
        """Waits for its end; what it said."""
        try:
            self.status = self.process.wait(seconds)
        except subprocess.TimeoutExpired:
            self.process.kill()
            self.status = self.process.wait()
        with open(self.path, encoding="utf-8") as file:
            return file.read()


def libpri(place):
    """libpri's terminals on both kinds of lines: each call is answered, and ends."""
    said = run(["cc", "-fsyntax-only", "-include", "libpri.h", "-x", "c", "/dev/null"])
    if said.returncode:
        raise Missing("there is no libpri.h (libpri-dev)")
    phones = place.compiled("phones", "-lpri", library=False)
    calls = (LONG_CALLS if place.is_long else CALLS) // (2 * LIBPRI_LINES)
    sections = [group("basic", 0, LIBPRI_LINES, "basic"), group("primary", 100, LIBPRI_LINES, "primary"), server("all", 0, 199)]
    with Gateway(place.program, place.folder("calls-libpri"), *sections) as gateway:
        it = Exchange(gateway, "--calls", 2 * LIBPRI_LINES * calls, "--seconds", 120)
        runs = [subprocess.Popen([phones, gateway.lines, str(first), str(LIBPRI_LINES), kind, str(calls)], stdout=subprocess.PIPE,
                                 text=True)
                for first, kind in ((0, "basic"), (100, "primary"))]
        told = [it.communicate(timeout=120)[0].strip() for it in runs]
        said = it.end(120)
        errors = gateway.metric("errors_total")
    of_each = LIBPRI_LINES * calls
    wanted = f"libpri: lines {LIBPRI_LINES} made {of_each} answered {of_each} ended {of_each}"
    check("libpri's calls", told == [wanted] * 2 and [it.returncode for it in runs] == [0, 0], (told, said[-1500:]))
    check("libpri's calls at the exchange", it.status == 0 and said.count("< SETUP") == 2 * LIBPRI_LINES * calls
          and errors == 0, (said[-800:], errors))
    say(f"calls: {2 * LIBPRI_LINES * calls} of libpri's calls, on basic and primary rate lines")


def own(place):
    """The exchange calls lines of both kinds, and one of them another."""
    sections = [group("basic", 0, 2, "basic"), group("primary", 100, 2, "primary"), server("all", 0, 199)]
    with Gateway(place.program, place.folder("calls-own"), *sections) as gateway:
        with Ends(place.compiled("ends"), gateway.lines, 0, 2, "basic"), Ends(place.compiled("ends"), gateway.lines, 100, 2,
                                                                              "primary"):
            it = Exchange(gateway, "--call", 0, 1, 100, 101, "--hold", 0.2, "--calls", 4, "--seconds", 20)
            said = it.end(30)
    names = re.findall(r"[<>] ([A-Z ]+?),?$", said, re.M)
    check("the exchange's own calls", it.status == 0 and "calls that are over: 4" in said and names.count("CONNECT") == 4
          and names.count("RELEASE COMPLETE") == 4, said[-1500:])


def faults(place):
    """The exchange says in a sentence what is wrong."""
    said = run([*EXCHANGE, "--help"])
    check("exchange --help", said.returncode == 0 and b"WHERE" in said.stdout, said)
    said = run([*EXCHANGE, "/nowhere/iua"])
    check("exchange: no gateway", said.returncode == 1 and said.stderr.startswith(b"exchange: /nowhere/iua: ")
          and said.stderr.count(b"\n") == 1, said)
    with Gateway(place.program, place.folder("calls-faults"), group("all", 0, 1, "basic"), server("all", 0, 9)) as gateway:
        it = Exchange(gateway)
        gateway.wait_until(lambda values: values.get("processes_up") == 1, 30.0)
        gateway.stop()
        said = it.end(10)
        check("exchange: the gateway ends", it.status == 1
              and said.endswith("exchange: the gateway has ended the association\n"), said[-500:])


def calls(place):
    """Calls of libpri's terminals and of our own, through the gateway to gateway/examples/exchange.py."""
    each(place, libpri, own, faults)
