"""Runs at random, each by a seed: losses on the lines, and processes that are killed, hung and started anew, as the gateway is.
The judge looks at both ends."""
import collections
import concurrent.futures
import os
import random
import signal
import subprocess
import sys
import time

from checks import check, say
from judge import judged as verdict_of, rows_of, spoiled
from program import HERE, Ends, Gateway, group, server

FIRST, SECONDS, SETTLE, MOST_SETTLE = 0, 6, 120, 60
T200_MS = 1000  # if it is less than a machine is late, contents may be lost without a word (docs/LAYER3.md)
SEEDS, LONG_SEEDS, AT_A_TIME = 6, 60, 3


class Process:
    """A process of server.py."""

    def __init__(self, gateway, folder, source, role, before=(), where=None, **words):
        self.path, self.source, self.role = f"{folder}/record-{source}", source, role
        self.process = subprocess.Popen([*before, sys.executable, f"{HERE}/server.py", where or gateway.iua, self.path, str(source),
                                         role,
                                         *(f"{name}={value}" for name, value in words.items())])

    def note(self, event):
        with open(self.path, "a", encoding="ascii") as file:
            file.write(f"{int(time.monotonic() * 1e6)} {event} 0 0 0 0\n")

    def end(self, sign):
        """Ends it by a signal."""
        self.process.send_signal(sign)
        self.process.wait()
        if sign == signal.SIGKILL:
            self.note("killed")

    def wait_for(self, event, seconds=30):
        """Waits until it has written this down."""
        end = time.monotonic() + seconds
        while not any(row.event == event for row in self.rows):
            if time.monotonic() > end:
                raise RuntimeError(f"process {self.source} does not tell {event}")
            time.sleep(0.01)

    @property
    def rows(self):
        """What it wrote down; nothing if it was ended before it began."""
        return rows_of(self.path) if os.path.exists(self.path) else []


class Plan:
    """What a run is like."""

    def __init__(self, seed):
        chance = random.Random(seed)
        self.seed, self.chance = seed, chance
        self.kind = chance.choice(("basic", "primary"))
        self.mode = chance.choice(("override", "override", "loadshare"))
        self.lines = chance.choice((1, 4, 16, 40))
        self.loss = chance.choice((0, 0, 10, 50))
        self.rate = chance.choice((10, 20, 50)) if self.lines < 40 else 10
        self.octets = chance.choice((19, 60, 260))
        self.cut = chance.choice((0, 0, 3))
        self.pending = chance.choice((20000, 20000, 300))
        self.establish = chance.choice(("yes", "no"))
        self.acts = sorted(((round(chance.uniform(0.5, SECONDS - 1), 2), chance.choice(ACTS)) for _ in range(chance.randint(1, 3))),
                           key=lambda it: it[0])

    def __str__(self):
        return (f"seed {self.seed}: {self.lines} lines, {self.kind}, {self.mode}, loss {self.loss} of 1000, {self.rate} a second, "
                f"cut {self.cut}, T(r) {self.pending}, "
                + (", ".join(f"{act.__name__} at {moment}" for moment, act in self.acts) or "calm"))


class Run:
    def __init__(self, place, folder, plan):
        self.place, self.folder, self.plan, self.processes = place, folder, plan, []
        self.is_release_told = plan.pending < 1000  # what waits for a next process is given up soon
        sections = [group("all", FIRST, plan.lines, plan.kind, t200=T200_MS, establish=plan.establish),
                    server("all", 0, 999, mode=plan.mode, pending=plan.pending)]
        self.gateway = Gateway(place.program, folder, *sections)

    def process(self, role):
        plan = self.plan
        it = Process(self.gateway, self.folder, len(self.processes) + 1, role, rate=plan.rate, lines=plan.lines if plan.acts else 0,
                     octets=plan.octets,
                     until=self.stop, mode=2 if plan.mode == "loadshare" else 1)
        self.processes.append(it)
        return it

    def next(self):
        """Another process, in place of one that ends."""
        self.process("active" if self.plan.mode == "loadshare" else "standby")

    def living(self):
        return [it for it in self.processes if it.process.poll() is None]

    def play(self):
        """What the judge has to say at its end."""
        plan, self.stop = self.plan, time.monotonic() + 3600
        with self.gateway:
            self.process("active").wait_for("active")
            self.next()
            self.processes[1].wait_for("joined")
            ends = Ends(self.place.compiled("ends"), self.gateway.lines, FIRST, plan.lines, plan.kind, rate=plan.rate,
                        octets=plan.octets,
                        seconds=SECONDS, settle=SETTLE, loss=plan.loss, cut=plan.cut, seed=plan.seed, t200=T200_MS,
                        record=f"{self.folder}/record-ends").up()
            begun = time.monotonic()
            for moment, act in plan.acts:
                time.sleep(max(0, begun + moment - time.monotonic()))
                act(self)
            time.sleep(max(0, begun + SECONDS + 0.5 - time.monotonic()))
            self.settled()
            self.counts = ends.stop()
            for it in self.living():
                it.end(signal.SIGTERM)
        return self.verdict()

    def verdict(self):
        self.records = rows_of(f"{self.folder}/record-ends"), [it.rows for it in self.processes]
        return verdict_of(*self.records, self.is_release_told)

    def settled(self):
        """Waits until nothing is missing any more. What the processes send ends now."""
        open(f"{self.folder}/quiet", "w", encoding="ascii").close()
        end = time.monotonic() + MOST_SETTLE
        time.sleep(1.0)
        while self.verdict().faults and time.monotonic() < end:
            time.sleep(0.5)


# ---- What happens ------------------------------------------------------------------------------------------------------

def kill_one(run):
    """The oldest process is killed, and a new one waits in its place."""
    run.living()[0].end(signal.SIGKILL)
    run.next()


def end_one(run):
    run.living()[0].end(signal.SIGTERM)
    run.next()


def hang_one(run):
    """It hangs for longer than the gateway waits."""
    it = run.living()[0]
    it.process.send_signal(signal.SIGSTOP)
    time.sleep(2.5)
    it.process.send_signal(signal.SIGCONT)


def restart(run):
    """The gateway ends and starts anew."""
    run.gateway.stop()
    time.sleep(run.plan.chance.choice((0, 0, 0.5)))
    run.gateway.start()


def kill_gateway(run):
    """The gateway is killed: what it has acknowledged is lost, and links are established anew."""
    run.is_release_told = True
    run.gateway.stop(signal.SIGKILL)
    run.gateway.start()


ACTS = (kill_one, kill_one, end_one, hang_one, restart, restart, kill_gateway)

def one(place, seed):
    """A run, and what the judge has to say of it."""
    run = Run(place, place.folder(f"judged-{seed}"), Plan(seed))
    verdict = run.play()
    statuses = [it for it in run.gateway.statuses if it not in (0, -signal.SIGKILL)]
    check(f"{run.plan}", not verdict.faults and not statuses and verdict.counts["came up"] > 0 and verdict.counts["came down"] > 0,
          f"{verdict}\n{statuses} {run.counts}")
    return verdict.counts


def calm(place):
    """A run in which nothing happens: the judge finds nothing, and each fault that its records are spoiled with."""
    plan = Plan(0)
    plan.kind, plan.mode, plan.lines, plan.loss, plan.cut, plan.acts, plan.rate, plan.pending, plan.establish = (
        "primary", "override", 4, 0, 0, [], 20, 20000, "no")
    run = Run(place, place.folder("judged-calm"), plan)
    verdict = run.play()
    ends, records = run.records
    check("a calm run", not verdict.faults and not verdict.counts["twice"] and not verdict.counts["missing, told"], verdict)
    for what, kinds, (of_ends, of_processes) in spoiled(ends, records):
        found = {it[0] for it in verdict_of(of_ends, of_processes).faults}
        check(f"the judge tells {what}", found & {*kinds}, found)


def judged(place):
    """Runs at random by seeds, with a judge at both ends; and the judge over records that are spoiled."""
    calm(place)
    seeds = range(1, 1 + (LONG_SEEDS if place.is_long else SEEDS))
    with concurrent.futures.ThreadPoolExecutor(AT_A_TIME) as runs:
        total = sum(runs.map(lambda seed: one(place, seed), seeds), collections.Counter())
    say(f"judged: {len(seeds)} seeds: " + ", ".join(f"{name} {value}" for name, value in sorted(total.items())))
