"""The stored scripts, played through the C library."""
import concurrent.futures
import os
import sys

from compiled import HERE, ROOT, STRICT, check, read, run

sys.path.insert(0, f"{ROOT}/tests/scripts")
from worked import worked

PLAY = [f"{HERE}/{it}.c" for it in ("play", "station", "words", "hdlc", "memory")]


def answer(words, script):
    """What a program writes on a script, and its status."""
    ran = run(words, given=script)
    return ran.stdout, ran.stderr, ran.returncode


class Turned:
    """The stored scripts with a pull after each octet that comes, and what lapdsim says of them."""

    def __init__(self, compiler, lapdsim, folder):
        self.lapdsim, self.turn = lapdsim, f"{folder}/turn"
        said = run([*compiler, "-std=c99", *STRICT, f"-I{ROOT}/include", "-o", self.turn,
                    *[f"{HERE}/{it}.c" for it in ("turn", "words", "hdlc")]])
        check("turn compiles", said.returncode == 0, said.stderr.decode()[:600])
        self.of = dict(in_parallel(self.made, worked().items())) if said.returncode == 0 else {}
        octets = sum(want[0].count(b" tx ") for _, want in self.of.values())
        check("turns", octets > 10000, f"only {octets} octets are pulled")

    def made(self, stored):
        name, script = stored
        turned = answer([self.turn], script.text)[0]
        return name, (turned, answer([self.lapdsim, "run"], turned))


def in_parallel(work, many):
    with concurrent.futures.ThreadPoolExecutor(os.cpu_count()) as pool:
        return list(pool.map(work, many))


def play_all(build, turned):
    play = build.program("play", PLAY)
    if not play:
        return
    own = {name: (it.text, it.wanted()) for name, it in worked().items()}
    check(f"{build.name}: scripts that change lengths", any(b"\ntimers " in script for script, _ in own.values()), "none does")
    ways = [("", [play], own), (", at a card with its own timers", [play, "--timed"], own)]
    if not build.is_brief:
        ways += [(", pulled by lapd_exchange", [play, "--exchange"], own),
                 (", in turns by lapd_exchange", [play, "--exchange"], turned.of),
                 (", in turns at a card with its own timers", [play, "--timed", "--exchange"], turned.of)]
    for way, words, plays in ways:
        good = in_parallel(lambda it: answer(words, plays[it][0]) == plays[it][1], plays)
        for name, is_good in zip(plays, good):
            check(f"{build.name}: tests/scripts/{name}{way}", is_good, "another transcript, fault line or status")
    refuse_each(build, [play], build.blocks)
    refuse_each(build, [play, "--timed"], 1 if build.is_one_file else build.blocks)


def refuse_each(build, play, blocks):
    """Each allocation of a conversation is refused in turn; there are more than so many."""
    script, counts = f"{ROOT}/tests/scripts/conversation/call.script", f"{build.folder}/counts"
    number = 0
    while True:
        number += 1
        with open(script, "rb") as source:
            got = run(play, source, {"REFUSED_ALLOCATION": str(number), "ALLOCATIONS": counts})
        taken, given = map(int, read(counts, b"0 1").split())
        check(f"{build.name}: allocation {number} refused", taken == given, f"{taken} blocks taken, {given} given back")
        if got.returncode == 0:
            break
        check(f"{build.name}: allocation {number} refused", (got.stdout, got.stderr) == (b"", b"out of memory\n"),
              got.stderr.decode())
    check(f"{build.name}: allocations", number > blocks, f"only {number - 1} were refused")
