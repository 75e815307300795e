"""Two gateways of which one stands by: the active one is killed again and again under traffic, and nobody at the lines notices."""
import os
import signal
import time

from checks import check, say
from judge import judged as verdict_of, rows_of
from judged import Process
from program import Ends, Gateway, group, server

LINES, RATE, KILLS, LONG_KILLS, LOSS = 16, 20, 5, 50, 10
FOLLOWS, GOES_ON = "the standby follows the active process", "the active process is gone, and the standby goes on"
LATE_SECONDS, MOST_SECONDS = 60, 20


class Pair:
    """Two processes with one configuration. Who is first in `both` is active."""

    def __init__(self, place, folder, *sections):
        self.path = f"{os.path.abspath(folder)}/standby"
        self.first = Gateway(place.program, f"{folder}/0", *sections, words=["--standby"], standby=self.path)
        self.place, self.folder, self.both, self.count = place, folder, [self.first], 1
        self.first.start()
        self.add()

    def add(self):
        """Another one, which follows the active one."""
        it = Gateway(self.place.program, f"{self.folder}/{self.count}", words=["--standby"])
        it.file, it.iua, it.lines, it.port = self.first.file, self.first.iua, self.first.lines, self.first.port
        self.count += 1
        it.start()
        self.both.append(it)
        return self.wait(it, FOLLOWS)

    def wait(self, it, words):
        end = time.monotonic() + LATE_SECONDS
        while words not in it.log:
            if time.monotonic() > end:
                raise RuntimeError(f"a standby does not tell: {words}\n{it.log[-2000:]}")
            time.sleep(0.005)
        return it

    def kill(self):
        """The active process is killed; how long it takes until the other goes on."""
        begun = time.monotonic()
        self.both.pop(0).stop(signal.SIGKILL)
        self.wait(self.both[0], GOES_ON)
        return time.monotonic() - begun

    def end(self):
        """The standby first, so that it does not go on."""
        return [it.stop() for it in self.both[::-1]]


def under_traffic(place, folder, loss, kills):
    """Kills under traffic both ways: the verdict, what the ends counted, the statuses, and the longest gap."""
    sections = [group("all", 0, LINES, "primary"), server("all", 0, 99, pending=20000)]
    pair = Pair(place, folder, *sections)
    own = Process(pair.first, folder, 1, "active", rate=RATE, lines=LINES, octets=60, until=time.monotonic() + 3600)
    own.wait_for("active")
    ends = Ends(place.compiled("ends"), pair.first.lines, 0, LINES, "primary", rate=RATE, octets=60, loss=loss,
                record=f"{folder}/record-ends").up()
    gaps = []
    for _ in range(kills):
        time.sleep(0.4)
        gaps.append(pair.kill())
        pair.add()
    open(f"{folder}/quiet", "w", encoding="ascii").close()
    ends.process.send_signal(signal.SIGUSR1)
    end = time.monotonic() + MOST_SECONDS
    time.sleep(1)
    while verdict_of(rows_of(f"{folder}/record-ends"), [own.rows]).faults and time.monotonic() < end:
        time.sleep(0.5)
    counts = ends.stop()
    own.end(signal.SIGTERM)
    statuses = pair.end()
    return verdict_of(rows_of(f"{folder}/record-ends"), [own.rows]), counts, statuses, max(gaps)


def standby(place):
    """The active one of two gateways is killed again and again under traffic: no link goes down, nothing is lost at the lines."""
    kills = LONG_KILLS if place.is_long else KILLS
    for loss in (0, LOSS):
        verdict, counts, statuses, gap = under_traffic(place, place.folder(f"standby-{loss}"), loss, kills)
        what = f"{kills} kills, {loss} frames of 1000 lost"
        check(f"standby: {what}: nothing is lost", not verdict.faults and verdict.counts["came up"] > 100, verdict)
        check(f"standby: {what}: no link goes down", counts["released"] == 0 and (loss or counts["established"] == LINES), counts)
        check(f"standby: {what}: no line's connection ends", counts["joined"] == LINES, counts)
        check(f"standby: {what}: they end well", statuses == [0, 0], statuses)
        say(f"standby: {what}: the other goes on within {gap * 1000:.0f} ms; {verdict}")
