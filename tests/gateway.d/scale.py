"""Eight gateways and one process of a server over all their lines."""
import contextlib
import os
import signal
import time

import program
from checks import check, say
from judge import judged as verdict_of, rows_of
from judged import Process
from program import Ends, Gateway, group, run, server

GATEWAYS, LINES, RATE, SECONDS, SETTLE, MOST_SETTLE = 8, 128, 2, 4, 600, 60


def in_namespace(place, folder, at):
    """A program that runs in a network namespace of its own, and its address there."""
    name, near, far = f"scale{at}", f"10.10.{at}.1", f"10.10.{at}.2"
    for words in (f"ip netns add {name}", f"ip link add near{at} type veth peer name far{at} netns {name}",
                  f"ip address add {near}/24 dev near{at}", f"ip link set near{at} up",
                  f"ip netns exec {name} ip address add {far}/24 dev far{at}",
                  f"ip netns exec {name} ip link set far{at} up", f"ip netns exec {name} ip link set lo up"):
        said = run(words.split())
        check(words, said.returncode == 0, said.stderr)
    path = f"{folder}/program"
    with open(path, "w", encoding="ascii") as file:
        file.write(f'#!/bin/sh\nexec ip netns exec {name} {place.program} "$@"\n')
    os.chmod(path, 0o755)
    return path, far


def begun(place, folder, at):
    """One of the gateways. Over SCTP it is in a network of its own."""
    os.makedirs(folder, exist_ok=True)
    first, words, binary = at * LINES, {}, place.program
    if program.transport == "sctp":
        binary, address = in_namespace(place, folder, at)
        words = {"sctp": address}
    it = Gateway(binary, folder, group("all", first, LINES, "primary"), server("all", first, first + LINES - 1), **words)
    if program.transport == "sctp":
        it.iua = f"{address}:{it.port_of_iua}"
    return it


def scale(place):
    """Eight gateways of 128 lines, in namespaces if IUA goes over SCTP, and one process of a server over all: each message once."""
    folder = place.folder("scale")
    with contextlib.ExitStack() as stack:
        gateways = [stack.enter_context(begun(place, f"{folder}/{at}", at)) for at in range(GATEWAYS)]
        own = Process(gateways[0], folder, 1, "active", where=",".join(it.iua for it in gateways), rate=RATE, octets=40,
                      until=time.monotonic() + 3600)
        ends = [Ends(place.compiled("ends"), it.lines, at * LINES, LINES, "primary", rate=RATE, octets=40, seconds=SECONDS,
                     settle=SETTLE, record=f"{folder}/record-ends-{at}") for at, it in enumerate(gateways)]
        for it in ends:
            it.up()
        time.sleep(SECONDS + 1)
        open(f"{folder}/quiet", "w", encoding="ascii").close()
        verdict = settled(folder)
        counts = [it.stop() for it in ends]
        own.end(signal.SIGTERM)
    lines = GATEWAYS * LINES
    both_ways = [verdict.counts[it] for it in ("came up", "came down")]
    check("scale: nothing is lost, and nothing comes twice", not verdict.faults and not verdict.counts["twice"], verdict)
    check("scale: messages both ways on all lines", min(both_ways) > lines * RATE, verdict.counts)
    check("scale: all links stay up", all(it["established"] == LINES and not it["released"] for it in counts), counts)
    check("scale: they end well", all(it.statuses == [0] for it in gateways), [it.statuses for it in gateways])
    say(f"scale: {GATEWAYS} gateways of {LINES} lines and one process: {verdict.counts['came up']} messages up, "
        f"{verdict.counts['came down']} down")


def settled(folder):
    """The verdict, once nothing is missing any more."""
    end = time.monotonic() + MOST_SETTLE
    while True:
        ends = sorted((row for at in range(GATEWAYS) for row in rows_of(f"{folder}/record-ends-{at}")), key=lambda it: it.moment)
        verdict = verdict_of(ends, [rows_of(f"{folder}/record-1-{at}") for at in range(GATEWAYS)])
        if not verdict.faults or time.monotonic() > end:
            return verdict
        time.sleep(1)
