"""A process of a server, for the judge: it takes numbered messages and sends its own, and writes down what came and went.

    server.py WHERE[,WHERE..] RECORD SOURCE active|standby [rate=N] [each=N] [lines=N] [octets=N] [until=N] [nap=MS] [mode=N]

SOURCE is its number in the messages that it sends, from 1 on. An active process becomes active as it joins; a standby as the
server is pending, or if it stays inactive. It joins again if the association ends. As it becomes active it asks for the TEIs of all
lines, and for their links: what the server was told before is not told again. It sends at a rate on each link that is up, `each`
messages at a time, until a moment of the monotonic clock, or until there is a file `quiet` beside RECORD. It naps after each
message that came. With several gateways RECORD-0 is of the first, and each has a source of its own, from SOURCE on.

Each line of RECORD is `MOMENT EVENT LINE SOURCE NUMBER OCTETS`, as ends.c writes them, and stands there before the next thing
happens, so that a process that is killed has told all. It ends at SIGTERM."""
import os
import random
import signal
import struct
import sys
import threading
import time

sys.dont_write_bytecode = True
sys.path.insert(0, os.path.dirname(os.path.abspath(__file__)))
import iua

NUMBERED = struct.Struct(">BHIIQ")  # numbered.h
MARK = 0x41
AT_A_TIME = 64
PATIENCE_SECONDS = 0.3


def numbered(source, line, number, octets):
    head = NUMBERED.pack(MARK, source, line, number, int(time.monotonic() * 1e6))
    return head + bytes([number & 255]) * (octets - len(head))


def read_numbered(octets):
    """Source, line, number and moment; None of another message."""
    if octets is None or len(octets) < NUMBERED.size or octets[0] != MARK:
        return None
    return NUMBERED.unpack_from(octets)[1:]


class Process:
    def __init__(self, where, record, source, role, **words):
        self.where, self.source, self.role = where, int(source), role
        self.words = {"rate": 0, "each": 1, "lines": 0, "octets": NUMBERED.size, "until": 0, "nap": 0, "mode": iua.OVERRIDE,
                      **{name: float(value) for name, value in words.items()}}
        self.quiet = f"{os.path.dirname(record)}/quiet"
        self.record = os.open(record, os.O_WRONLY | os.O_CREAT | os.O_APPEND, 0o644)
        self.up, self.sent, self.own, self.chance = {}, {}, None, random.Random(source)
        self.next = time.monotonic()
        self.take_over = float("inf")  # when a standby becomes active

    def note(self, event, line=0, source=0, number=0, octets=0):
        os.write(self.record, f"{int(time.monotonic() * 1e6)} {event} {line} {source} {number} {octets}\n".encode())

    def join(self):
        try:
            self.own = iua.Association(self.where)
            self.own.up()
            self.note("joined")
            if self.role == "active":
                self.activate()
        except (OSError, TimeoutError):
            self.own = None
            time.sleep(0.02)

    def activate(self):
        self.take_over = float("inf")
        self.own.send("active", iua.number(iua.MODE, int(self.words["mode"])))

    def leave(self):
        self.note("ended")
        self.own.close()
        self.own, self.up = None, {}

    def took(self, came):
        if came.name == "data-indication":
            found = read_numbered(came.data)
            if found is not None:
                self.note("came", came.iid, found[0], found[2], len(came.data))
            if self.words["nap"]:
                time.sleep(self.words["nap"] / 1000)
        elif came.name in ("establish-indication", "establish-confirm"):
            self.up[came.iid] = came.tei
            self.note("up" if came.name == "establish-indication" else "confirmed", came.iid)
        elif came.name == "tei-indication" and came.tei_status == 0 and came.iid not in self.up:
            self.own.send("establish-request", iua.link(came.iid, came.tei))
        elif came.name in ("release-indication", "release-confirm"):
            self.up.pop(came.iid, None)
            self.note("down", came.iid)
        elif came.name == "active-ack":
            self.note("active")
            for line in range(int(self.words["lines"])):
                self.own.send("tei-query", iua.link(line, 127))
        elif came.name == "notify":
            self.notified(came.status)
        elif came.name == "error":
            self.note("error", came.iid or 0, 0, came.error)

    def notified(self, status):
        if status == (iua.OTHER, iua.ALTERNATE):
            self.up = {}
            self.note("replaced")
        elif status == (iua.CHANGED, iua.PENDING) and self.role == "standby":
            self.activate()
        elif status[0] == iua.CHANGED and self.role == "standby":
            self.take_over = time.monotonic() + PATIENCE_SECONDS if status[1] == iua.INACTIVE else float("inf")

    def send(self):
        """What is due, on each link that is up. What the socket does not take is sent later."""
        now = time.monotonic()
        if not self.words["rate"] or now >= self.words["until"] or now < self.next or os.path.exists(self.quiet):
            return
        self.next = max(self.next + 1 / self.words["rate"], now - 0.5)
        for line, tei in [*self.up.items()] * int(self.words["each"]):
            self.send_one(line, tei)

    def send_one(self, line, tei):
        number = self.sent.get(line, 0) + 1
        octets = self.chance.randint(NUMBERED.size, max(NUMBERED.size, int(self.words["octets"])))
        self.note("sent", line, self.source, number, octets)
        self.sent[line] = number
        self.own.send("data-request", iua.link(line, tei), iua.data(numbered(self.source, line, number, octets)))

    def run(self):
        while True:
            if self.own is None:
                self.join()
                continue
            try:
                if time.monotonic() > self.take_over:
                    self.activate()
                self.send()
                for _ in range(AT_A_TIME):
                    came = self.own.next(0.005)
                    if came is None:
                        self.leave()
                        break
                    self.took(came)
            except TimeoutError:
                pass
            except OSError:
                self.leave()


def main():
    words = dict(it.split("=") for it in sys.argv[5:])
    where, record, source, role = sys.argv[1:5]
    if "," in where:
        all_of_them = [Process(it, f"{record}-{at}", int(source) + at, role, **words) for at, it in enumerate(where.split(","))]
    else:
        all_of_them = [Process(where, record, source, role, **words)]

    def over(*_):
        for it in all_of_them:
            it.note("stopped")
        os._exit(0)
    signal.signal(signal.SIGTERM, over)
    for it in all_of_them[1:]:
        threading.Thread(target=it.run, daemon=True).start()
    all_of_them[0].run()


if __name__ == "__main__":
    main()
