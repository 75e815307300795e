"""Each message of a line, both ways, with what it does there."""
import time

import iua
from checks import check
from iua import Association, data, link, number
from peer import DISC, UA, Frame, Peer
from program import Gateway, group, server

BY_MANAGEMENT, BY_LAYER1, BY_OTHER = 0, 1, 3
ASSIGNED, UNASSIGNED = 0, 1


class Line:
    """What is told of one line, by an association that is active."""

    def __init__(self, gateway, log, iid):
        self.own, self.iid = Association(gateway.iua, log), iid

    def __enter__(self):
        self.own.begin(iua.OVERRIDE)
        return self

    def __exit__(self, *_):
        self.own.close()

    def send(self, name, *parameters, tei=0, sapi=0):
        self.own.send(name, link(self.iid, tei, sapi), *parameters)

    def next(self, timeout=8.0):
        """The next message of this line; None if none comes."""
        try:
            found = self.own.next(timeout)
            while found is not None and found.iid != self.iid:
                found = self.own.next(timeout)
        except TimeoutError:
            return None
        return found

    def came(self, what, name, **wanted):
        """The next message of this line is this one."""
        found = self.next()
        good = found is not None and found.name == name and all(getattr(found, key) == value for key, value in wanted.items())
        check(f"{what}: {name} {wanted}", good, found)

    def quiet(self, seconds):
        return [it for it in self.own.quiet(seconds) if it is not None and it.iid == self.iid]


def primary(gateway, log):
    """A link at primary rate, from its establishment by either end to its release by either end, and by layer 1."""
    with Line(gateway, log, 100) as own, Peer(gateway.lines, 100) as peer:
        own.send("establish-request")
        peer.accept()
        own.came("establish", "establish-confirm", sapi=0, tei=0)
        own.send("establish-request")
        own.came("establish once more", "establish-confirm")
        for octets in (b"", b"x", bytes(260)):
            own.send("data-request", data(octets))
        check("data go out", peer.serve(0.3) == [b"", b"x", bytes(260)], peer.heard[-3:])
        for octets in (b"y", bytes(range(256))):
            peer.send(octets)
            own.came("data come in", "data-indication", data=octets)
        own.send("unit-request", data(b"unit"))
        check("unit data go out", peer.want("UI").data == b"unit", "")
        peer.command(0x03, poll=False, data=b"unit back")
        own.came("unit data come in", "unit-indication", data=b"unit back")
        own.send("data-request", data(b"last"))
        own.send("release-request", number(iua.REASON, BY_MANAGEMENT))
        check("what was asked for before the release goes first", peer.serve(0.5) == [b"last"], peer.heard[-3:])
        own.came("release", "release-confirm")
        own.send("release-request", number(iua.REASON, BY_MANAGEMENT))
        own.came("release once more", "release-confirm")
        peer.establish()
        own.came("the other end establishes", "establish-indication")
        peer.command(DISC)
        own.came("the other end releases", "release-indication", reason=BY_OTHER)
        peer.establish()
        own.came("the other end establishes again", "establish-indication")
        peer.put(b"D")
        own.came("layer 1 is lost", "release-indication", reason=BY_LAYER1)
        peer.put(b"U")
        peer.accept(8.0)
        own.came("layer 1 is back: the link is established anew", "establish-indication")
        peer.close()
        own.came("the connection ends", "release-indication", reason=BY_LAYER1)


def refused(gateway, log):
    """Nobody answers, and who answers refuses."""
    with Line(gateway, log, 101) as own, Peer(gateway.lines, 101) as peer:
        own.send("establish-request")
        frame = peer.want("SABME")
        peer.response(0x0F, 0, 0, frame.poll)  # DM
        own.came("DM answers", "release-indication", reason=BY_OTHER)
        own.send("establish-request")
        begun = time.monotonic()
        own.came("nobody answers", "release-indication", reason=BY_OTHER)
        check("after N200 repeats", 0.3 < time.monotonic() - begun < 4, time.monotonic() - begun)
        own.send("establish-request")
        own.send("release-request", number(iua.REASON, BY_MANAGEMENT))
        peer.serve(1.0)
        names = [it.name for it in own.quiet(0.3)]
        check("a release is asked for while the link comes up", names[-1:] == ["release-confirm"], names)


def waits(gateway, log):
    """Data for a link that is being established wait, and go out when it is up."""
    with Line(gateway, log, 102) as own, Peer(gateway.lines, 102) as peer:
        own.send("establish-request")
        sent = [b"%d" % it for it in range(20)]
        for octets in sent:
            own.send("data-request", data(octets))
        peer.accept()
        check("what waits goes out in order", peer.serve(0.5) == sent, peer.heard[-3:])


def frames_in(peer, seconds):
    """The kinds of frames that come in so many seconds."""
    found, end = [], time.monotonic() + seconds
    while time.monotonic() < end:
        try:
            found.append(peer.next(end - time.monotonic()))
        except TimeoutError:
            break
    return [it.kind for it in found if isinstance(it, Frame)]


def away(gateway, log):
    """What a server asks for while layer 1 is away goes once as it is back, however often T200 ran out meanwhile."""
    with Line(gateway, log, 103) as own, Peer(gateway.lines, 103, first=b"D") as peer:
        own.send("establish-request")
        own.send("data-request", data(b"kept"))
        check("no frame goes while layer 1 is away", frames_in(peer, 2.5) == [], peer.heard)
        peer.put(b"U")
        found = frames_in(peer, 0.3)
        check("layer 1 is back: one SABME goes", found == ["SABME"], found)
        peer.begin(0, 0)
        peer.response(UA)
        own.came("it is answered", "establish-confirm")
        check("data that waited go out", peer.serve(0.3) == [b"kept"], peer.heard[-3:])
        peer.put(b"D")
        own.came("layer 1 is lost", "release-indication", reason=BY_LAYER1)
    with Line(gateway, log, 104) as own, Peer(gateway.lines, 104, first=b"D") as peer:
        own.send("establish-request")
        own.came("layer 1 does not come", "release-indication")
        peer.put(b"U")
        found = frames_in(peer, 0.3)
        check("nothing goes of an establishment that was given up", found == [], found)
        peer.establish()
        own.came("the other end establishes", "establish-indication")
    with Line(gateway, log, 105) as own, Peer(gateway.lines, 105, first=b"D") as peer:
        own.send("unit-request", data(b"unit"))
        time.sleep(0.3)
        peer.put(b"U")
        check("unit data that waited go out at once", frames_in(peer, 0.3) == ["UI"], peer.heard)


def basic(gateway, log):
    """TEI management, and both services of basic access."""
    with Line(gateway, log, 0) as own, Peer(gateway.lines, 0) as peer:
        tei = peer.ask_tei()
        own.came("a TEI is assigned", "tei-indication", tei=tei, tei_status=ASSIGNED)
        for asked, status in ((tei, ASSIGNED), (120, UNASSIGNED)):
            own.send("tei-request", tei=asked)
            own.came("a TEI is asked for", "tei-confirm", tei=asked, tei_status=status)
        other = peer.ask_tei(0x4321)
        own.came("another TEI is assigned", "tei-indication", tei=other, tei_status=ASSIGNED)
        own.send("tei-query", tei=127)
        for it in sorted((tei, other)):
            own.came("all TEIs are asked for", "tei-indication", tei=it, tei_status=ASSIGNED)
        for sapi in (0, 16):
            peer.establish(sapi, tei)
            own.came(f"SAPI {sapi} is up", "establish-indication", sapi=sapi, tei=tei)
            peer.send(b"in", sapi, tei)
            own.came(f"SAPI {sapi}: data come in", "data-indication", sapi=sapi, tei=tei, data=b"in")
            own.send("data-request", data(b"out"), tei=tei, sapi=sapi)
            frame = peer.want("I")
            check(f"SAPI {sapi}: data go out", (frame.sapi, frame.tei, frame.data) == (sapi, tei, b"out"), frame)
            peer.vr[sapi, tei] = 1
            peer.supervise(0x01, sapi, tei)
        own.send("unit-request", data(b"for all"), tei=127)
        frame = peer.want("UI")
        check("unit data for all", (frame.tei, frame.data) == (127, b"for all"), frame)
        peer.manage(7, 0, tei)  # the terminal has its TEI verified: there is a check, and nobody answers
        found = [it for it in own.quiet(4.0)]
        names = [(it.name, it.sapi, it.tei_status) for it in found]
        check("a TEI is removed: status and releases", ("tei-indication", 0, UNASSIGNED) in names
              and {("release-indication", 0, None), ("release-indication", 16, None)} <= {*names}, names)


def own_sapi(gateway, log):
    """A second service with another SAPI."""
    with Line(gateway, log, 300) as own, Peer(gateway.lines, 300) as peer:
        peer.establish(12, 0)
        own.came("SAPI 12", "establish-indication", sapi=12, tei=0)


def user(gateway, log):
    """The user's side of a line."""
    with Line(gateway, log, 400) as own, Peer(gateway.lines, 400, is_user=False) as network:
        own.send("establish-request")
        network.accept()
        own.came("the user's side", "establish-confirm", sapi=0, tei=0)
        network.send(b"to the user")
        own.came("the user's side", "data-indication", data=b"to the user")


def terminal(gateway, log):
    """A line whose other end is the network: the gateway asks it for a TEI."""
    with Line(gateway, log, 500) as own, Peer(gateway.lines, 500, is_user=False) as network:
        frame = network.want("UI", timeout=5.0)
        check("a terminal asks for a TEI", frame.data[3] == 1, frame.octets)
        network.put(network.address(63, 127, True) + bytes([0x03, 0x0F, *frame.data[1:3], 2, 77 << 1 | 1]))
        own.came("it gets one", "tei-indication", tei=77, tei_status=ASSIGNED)
        own.send("establish-request", tei=77)
        network.accept()
        own.came("its link", "establish-confirm", tei=77)


def established(gateway, log):
    """Links that are set by hand are established by the program itself, until a server asks for a release."""
    with Line(gateway, log, 600) as own, Peer(gateway.lines, 600) as peer:
        peer.accept()
        own.came("at the start", "establish-indication")
        peer.command(DISC)
        own.came("the other end releases", "release-indication")
        peer.accept(8.0)
        own.came("it is established again", "establish-indication")
        own.send("release-request", number(iua.REASON, BY_MANAGEMENT))
        peer.serve(0.5)
        own.came("the server releases", "release-confirm")
        check("then it stays down", not [it for it in peer.serve(1.5)] and own.quiet(0.1) == [], peer.heard[-2:])


def messages(place):
    """Each message of IUA, both ways, at primary rate, at basic access with both services, and on each side."""
    sections = [group("basic", 0, 2, "basic"), group("primary", 100, 1, "primary", establish="no"),
                group("quick", 101, 1, "primary", establish="no", t200=200, n200=2),
                group("more", 102, 1, "primary", establish="no"), group("away", 103, 1, "primary", establish="no"),
                group("gone", 104, 2, "primary", establish="no", t200=200, n200=2),
                group("sapi", 300, 1, "primary", establish="no", sapi=12),
                group("user", 400, 1, "primary", side="user", establish="no"),
                group("terminal", 500, 1, "basic", side="terminal"), group("by-hand", 600, 1, "primary"), server("all", 0, 999)]
    with Gateway(place.program, place.folder("messages"), *sections, beat=10000) as gateway:
        for test in (primary, refused, waits, away, basic, own_sapi, user, terminal, established):
            test(gateway, place.log)
        check("all is counted", gateway.metric("iua_errors_sent_total") == 0, gateway.metrics())
    check("the gateway ends well", gateway.statuses == [0], gateway.statuses)
