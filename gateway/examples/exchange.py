#!/usr/bin/env python3
"""A small exchange over lapd-gateway: a call controller that has layer 3 of all lines, by IUA (RFC 4233).

    exchange.py [--call LINE..] [--calls N] [--hold SECONDS] [--mode MODE] [--id NUMBER] [--seconds N] WHERE

WHERE is the path of the gateway's Unix socket, or HOST or HOST:PORT of SCTP (port 9900). A called number that is the number of a
line rings there; any other is answered by the exchange itself. --call makes a call to each of these lines, holds it for a while
(--hold, 1 s), and clears it. The exchange ends after so many calls (--calls) or seconds, or at SIGINT.

It logs one line an event on standard output. Each call is Q.931's: SETUP, CALL PROCEEDING, ALERTING, CONNECT, CONNECT
ACKNOWLEDGE, DISCONNECT, RELEASE, RELEASE COMPLETE. A link with TEI 0 is a primary rate access, whose call references have two
octets; every other link is of a basic access, where a call is offered to all terminals at once. A controller of a product has
Q.931's timers, too: this one gives a leg ten seconds to answer."""
import argparse
import select
import socket
import struct
import sys
import time

# ---- IUA ---------------------------------------------------------------------------------------------------------------

UP, UP_ACK, BEAT, BEAT_ACK, ACTIVE, ACTIVE_ACK = (3, 1), (3, 4), (3, 3), (3, 6), (4, 1), (4, 3)
ERROR, NOTIFY = (0, 0), (0, 1)
DATA_REQUEST, DATA_INDICATION, UNIT_REQUEST, ESTABLISH_REQUEST = (5, 1), (5, 2), (5, 3), (5, 5)
ESTABLISH_CONFIRM, ESTABLISH_INDICATION, RELEASE_CONFIRM, RELEASE_INDICATION = (5, 6), (5, 7), (5, 9), (5, 10)
LINE, DLCI, BEAT_DATA, MODE, ERROR_CODE, STATUS, DATA, IDENTIFIER = 1, 5, 9, 11, 12, 13, 14, 17
STATES = {(1, 2): "inactive", (1, 3): "active", (1, 4): "pending", (2, 1): "too few are active", (2, 2): "another is active"}
MODES = {"override": 1, "loadshare": 2}
SCTP, STREAMS, PORT, MOST = 132, 65, 9900, 8192


def parameter(tag, value):
    return struct.pack(">HH", tag, 4 + len(value)) + value + bytes(-len(value) % 4)


def word(tag, value):
    return parameter(tag, struct.pack(">I", value))


class Gateway:
    """The association with the gateway."""

    def __init__(self, where):
        self.is_sctp = not where.startswith(("/", "."))
        if self.is_sctp:
            host, port = where.rsplit(":", 1) if where.count(":") == 1 else (where, PORT)
            family, _, _, _, address = socket.getaddrinfo(host, int(port), type=socket.SOCK_STREAM)[0]
            self.socket = socket.socket(family, socket.SOCK_STREAM, SCTP)
            self.socket.setsockopt(SCTP, 2, struct.pack("HHHH", STREAMS, STREAMS, 0, 0))  # SCTP_INITMSG
            self.socket.setsockopt(SCTP, 3, 1)                                            # SCTP_NODELAY
        else:
            address = where
            self.socket = socket.socket(socket.AF_UNIX, socket.SOCK_SEQPACKET)
        self.socket.connect(address)

    def send(self, kind, *parameters, line=None):
        body = b"".join(parameters)
        octets = struct.pack(">BBBBI", 1, 0, *kind, 8 + len(body)) + body
        if self.is_sctp:  # payload protocol 1; stream 0 for management, else one for each line
            stream = 0 if line is None else 1 + line % (STREAMS - 1)
            self.socket.sendmsg([octets], [(SCTP, 2, struct.pack("=HHIII", stream, 0, socket.htonl(1), 0, 0))])
        else:
            self.socket.send(octets)

    def about(self, kind, line, tei, data=None):
        """A message about a link."""
        dlci = parameter(DLCI, bytes([0, tei << 1 | 1, 0, 0]))
        self.send(kind, word(LINE, line), dlci, *[parameter(DATA, data)] * (data is not None), line=line)

    def next(self, seconds):
        """The kind and the parameters of the next message; None: none came. EOFError at the end of the association."""
        if not select.select([self.socket], [], [], max(0, seconds))[0]:
            return None
        octets = self.socket.recv(MOST)
        if not octets:
            raise EOFError
        found, at = {}, 8
        while at < len(octets):
            tag, size = struct.unpack_from(">HH", octets, at)
            found[tag] = octets[at + 4:at + size]
            at += (size + 3) // 4 * 4
        return (octets[2], octets[3]), found


# ---- Q.931 -------------------------------------------------------------------------------------------------------------

NAMES = {0x01: "ALERTING", 0x02: "CALL PROCEEDING", 0x05: "SETUP", 0x07: "CONNECT", 0x0D: "SETUP ACKNOWLEDGE",
         0x0F: "CONNECT ACKNOWLEDGE", 0x45: "DISCONNECT", 0x4D: "RELEASE", 0x5A: "RELEASE COMPLETE", 0x7D: "STATUS"}
TYPES = {name: number for number, name in NAMES.items()}
BEARER, CAUSE, CHANNEL, CALLING, CALLED = 0x04, 0x08, 0x18, 0x6C, 0x70
SPEECH = bytes([0x80, 0x90, 0xA3])
NORMAL, NO_ANSWER, NO_ROUTE, PICKED_UP = 16, 18, 3, 26
ANSWER_SECONDS, ALL_TERMINALS = 10, 127


def element(kind, value):
    return bytes([kind, len(value)]) + value


def cause(number):
    return element(CAUSE, bytes([0x80, 0x80 | number]))


def read_q931(octets):
    """Reference, whether its giver sent the message, type, and elements by their kinds; None if it is none of call control."""
    if len(octets) < 4 or octets[0] != 8 or octets[1] not in (1, 2) or len(octets) < 3 + octets[1]:
        return None
    size, found, at = octets[1], {}, 3 + octets[1]
    reference = int.from_bytes(octets[2:2 + size], "big")
    while at < len(octets):
        length = 0 if octets[at] & 0x80 else 1 + octets[at + 1] if at + 1 < len(octets) else 1
        found.setdefault(octets[at], octets[at + 2:at + 1 + length])
        at += 1 + length
    return reference & ~(1 << 8 * size - 1), not reference >> 8 * size - 1, octets[2 + size], found


class Leg:
    """One end of a call: a reference on a link. Who `is_caller` gave the reference. `other` is the end that it is joined to."""

    def __init__(self, line, tei, reference, is_caller):
        self.line, self.tei, self.reference, self.is_caller = line, tei, reference, is_caller
        self.other = None
        self.state = "calling"

    def __str__(self):
        return f"line {self.line} TEI {self.tei} call {self.reference}"


class Exchange:
    def __init__(self, gateway, words):
        self.gateway, self.words, self.legs, self.up, self.made, self.over = gateway, words, [], set(), 0, 0
        self.due = []  # (moment, leg) of what is cleared then
        self.begins = None

    def log(self, *what):
        print(time.strftime("%H:%M:%S") + f".{int(time.time() * 1000) % 1000:03}", *what, flush=True)

    # ---- What the exchange sends

    def say(self, leg, name, *elements, tei=None):
        size = 2 if leg.tei == 0 else 1
        reference = leg.reference | (leg.is_caller << 8 * size - 1)
        octets = bytes([8, size]) + reference.to_bytes(size, "big") + bytes([TYPES[name]]) + b"".join(elements)
        to = leg.tei if tei is None else tei
        self.log(f"line {leg.line} TEI {to} call {leg.reference}: > {name}")
        self.gateway.about(UNIT_REQUEST if to == ALL_TERMINALS else DATA_REQUEST, leg.line, to, octets)

    def channel(self, leg):
        return element(CHANNEL, bytes([0xA9, 0x83, 0x81]) if leg.tei == 0 else bytes([0x89]))

    def offer(self, line, called):
        """A leg to a line: to its exchange by TEI 0, or to all its terminals."""
        is_primary = (line, 0) in self.up
        leg = Leg(line, 0 if is_primary else ALL_TERMINALS, 1 + self.made % 100, False)
        self.made += 1
        self.legs.append(leg)
        self.say(leg, "SETUP", element(BEARER, SPEECH), self.channel(leg), element(CALLED, b"\x81" + called.encode()))
        self.due.append((time.monotonic() + ANSWER_SECONDS, leg))
        return leg

    def clear(self, leg, number):
        """The exchange clears a leg by itself."""
        if leg.tei == ALL_TERMINALS:  # nobody has answered
            self.remove(leg)
        elif leg.state not in ("clearing", "over"):
            leg.state = "clearing"
            self.say(leg, "DISCONNECT", cause(number))

    def remove(self, leg):
        """A leg is gone, and the other one is cleared; with the last the call is over."""
        if leg.state == "over":
            return
        leg.state = "over"
        self.legs.remove(leg)
        if leg.other is None or leg.other.state == "over":
            self.over += 1
        else:
            self.clear(leg.other, NORMAL)

    # ---- What comes

    def setup(self, leg, elements):
        called = elements.get(CALLED, b"\x81")[1:].decode("ascii", "replace")
        self.legs.append(leg)
        self.log(f"{leg}: < SETUP, called {called or 'nobody'}")
        self.say(leg, "CALL PROCEEDING", self.channel(leg))
        if called.isdigit() and any(line == int(called) != leg.line for line, _ in self.up):
            leg.other = self.offer(int(called), called)
            leg.other.other = leg
        else:
            leg.state = "connected"
            self.say(leg, "CONNECT", self.channel(leg))

    def answered(self, leg):
        """The called end has answered, and so has the exchange to the caller."""
        leg.state = "connected"
        self.say(leg, "CONNECT ACKNOWLEDGE")
        if leg.other is not None:
            leg.other.state = "connected"
            self.say(leg.other, "CONNECT", self.channel(leg.other))
        else:
            self.due.append((time.monotonic() + self.words.hold, leg))

    def of_leg(self, leg, name):
        self.log(f"{leg}: < {name}")
        if name == "ALERTING" and leg.other is not None:
            self.say(leg.other, "ALERTING")
        elif name == "CONNECT" and leg.state == "calling":
            self.answered(leg)
        elif name == "DISCONNECT":
            leg.state = "clearing"
            self.say(leg, "RELEASE")
        elif name == "RELEASE":
            self.say(leg, "RELEASE COMPLETE")
            self.remove(leg)
        elif name == "RELEASE COMPLETE":
            self.remove(leg)

    def called_up(self, line, tei, octets):
        """A message of call control came."""
        read = read_q931(octets)
        if read is None:
            self.log(f"line {line} TEI {tei}: < {octets.hex()}, which is not of call control")
            return
        reference, is_caller, kind, elements = read
        name = NAMES.get(kind, f"message {kind:02X}")
        leg = next((it for it in self.legs if (it.line, it.reference, it.is_caller) == (line, reference, is_caller)
                    and it.tei in (tei, ALL_TERMINALS)), None)
        if leg is not None and leg.tei == ALL_TERMINALS and name in ("ALERTING", "CONNECT"):
            leg.tei = tei  # the first that answers has the call
        if leg is None and name == "SETUP":
            self.setup(Leg(line, tei, reference, True), elements)
        elif leg is not None:
            self.of_leg(leg, name)
        elif name not in ("RELEASE COMPLETE", "STATUS"):
            self.log(f"line {line} TEI {tei} call {reference}: < {name}, of no call here")
            self.say(Leg(line, tei, reference, is_caller), "RELEASE COMPLETE", cause(PICKED_UP if name == "CONNECT" else 81))

    def link(self, kind, line, tei):
        if kind in (ESTABLISH_CONFIRM, ESTABLISH_INDICATION):
            self.log(f"line {line} TEI {tei}: link up")
            self.up.add((line, tei))
        else:
            self.log(f"line {line} TEI {tei}: link down")
            self.up.discard((line, tei))
            for leg in [it for it in self.legs if (it.line, it.tei) == (line, tei)]:
                self.remove(leg)

    def took(self, kind, found):
        """One message of the gateway's."""
        if kind == BEAT:
            self.gateway.send(BEAT_ACK, parameter(BEAT_DATA, found.get(BEAT_DATA, b"")))
        elif kind == UP_ACK:
            self.gateway.send(ACTIVE, word(MODE, MODES[self.words.mode]))
        elif kind == ACTIVE_ACK:
            self.log("active")
            self.begins = time.monotonic() + 0.5  # what is up already is told first
        elif kind == NOTIFY:
            state = struct.unpack(">HH", found[STATUS])
            self.log("server:", STATES.get(state, state))
            if state == (1, 4):
                self.gateway.send(ACTIVE, word(MODE, MODES[self.words.mode]))
        elif kind == ERROR:
            self.log("error", *struct.unpack(">I", found[ERROR_CODE]))
        elif kind[0] == 5:
            line, tei = *struct.unpack(">I", found[LINE]), found[DLCI][1] >> 1
            if kind == DATA_INDICATION:
                self.called_up(line, tei, found[DATA])
            elif kind in (ESTABLISH_CONFIRM, ESTABLISH_INDICATION, RELEASE_CONFIRM, RELEASE_INDICATION):
                self.link(kind, line, tei)

    # ---- The loop

    def on_time(self):
        now = time.monotonic()
        if self.begins is not None and self.begins <= now:
            self.begins = None
            for line in self.words.call:
                self.offer(line, str(line))
        for moment, leg in [it for it in self.due if it[0] <= now]:
            self.due.remove((moment, leg))
            if leg.state == "connected" and leg.other is None:
                self.clear(leg, NORMAL)
            elif leg.state == "calling":
                self.log(f"{leg}: nobody answers")
                self.clear(leg, NO_ANSWER)

    def run(self):
        self.gateway.send(UP, *[word(IDENTIFIER, it) for it in [self.words.id] if it is not None])
        end = time.monotonic() + self.words.seconds
        while time.monotonic() < end and (self.words.calls is None or self.over < self.words.calls):
            self.on_time()
            came = self.gateway.next(min(0.1, end - time.monotonic()))
            if came is not None:
                self.took(*came)
        self.log("calls that are over:", self.over)


def main():
    words = argparse.ArgumentParser(description=__doc__, formatter_class=argparse.RawDescriptionHelpFormatter)
    words.add_argument("--call", type=int, nargs="+", default=[], metavar="LINE", help="call these lines")
    words.add_argument("--calls", type=int, metavar="N", help="end after so many calls")
    words.add_argument("--hold", type=float, default=1, metavar="SECONDS", help="how long its own calls last")
    words.add_argument("--mode", choices=MODES, default="override", help="as the gateway has it of this server")
    words.add_argument("--id", type=int, metavar="NUMBER", help="its ASP identifier, if the gateway asks for one")
    words.add_argument("--seconds", type=float, default=float("inf"), metavar="N", help="end after so many seconds")
    words.add_argument("where", metavar="WHERE", help="a path, HOST or HOST:PORT")
    words = words.parse_args()
    try:
        Exchange(Gateway(words.where), words).run()
    except EOFError:
        sys.exit("exchange: the gateway has ended the association")
    except OSError as why:
        sys.exit(f"exchange: {words.where}: {why}")
    except KeyboardInterrupt:
        pass


if __name__ == "__main__":
    main()
