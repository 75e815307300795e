"""The states of processes and of servers, and what each is told of them."""
import time

import iua
from checks import check
from iua import Association, data, lines, link
from peer import Peer
from program import Gateway, group, server

DOWN, INACTIVE, ACTIVE, PENDING = 1, 2, 3, 4
REPLACED = (iua.OTHER, iua.ALTERNATE)
T_R_MS = 400


def changed(state):
    return iua.CHANGED, state


class Watch:
    """A process, and what it is told of servers."""

    def __init__(self, gateway, log):
        self.own = Association(gateway.iua, log)
        self.gateway = gateway

    def __enter__(self):
        return self

    def __exit__(self, *_):
        self.own.close()

    def told(self, what, wanted, timeout=8.0):
        """The next notification, or that it is an acknowledgement by its name."""
        came = self.own.want("notify", "error", *[wanted] * isinstance(wanted, str), timeout=timeout)
        found = came and (came.status if came.name == "notify" else came.name)
        check(f"{what}: {wanted}", found == wanted, came)
        return came

    def ask(self, what, name, answer, *parameters):
        self.own.send(name, *parameters)
        return self.told(what, answer)


def state_is(gateway, what, state, name="one"):
    good = gateway.wait_until(lambda it: it.get(f'server_state{{server="{name}"}}') == state)
    check(f"{what}: the server's state is {state}", good, gateway.metrics())


def one_process(gateway, log):
    """Each step of a process that is alone."""
    state_is(gateway, "before all", DOWN)
    with Watch(gateway, log) as one:
        state_is(gateway, "an association alone", DOWN)
        one.ask("down before up", "down", "down-ack")
        one.ask("up", "up", "up-ack")
        one.told("up", changed(INACTIVE))
        state_is(gateway, "up", INACTIVE)
        one.ask("up once more", "up", "up-ack")
        one.told("up once more", changed(INACTIVE))
        one.ask("inactive while it is inactive", "inactive", "inactive-ack")
        ack = one.ask("active", "active", "active-ack", iua.number(iua.MODE, iua.OVERRIDE))
        check("active: mode and range", (ack.mode, ack.range) == (iua.OVERRIDE, [(0, 9)]), ack)
        one.told("active", changed(ACTIVE))
        state_is(gateway, "active", ACTIVE)
        one.ask("active once more", "active", "active-ack")
        one.ask("inactive", "inactive", "inactive-ack")
        one.told("inactive", changed(PENDING))
        state_is(gateway, "inactive", PENDING)
        begun = time.monotonic()
        one.told("T(r) is over", changed(INACTIVE))
        check("T(r)", 0.5 * T_R_MS < (time.monotonic() - begun) * 1000 < 3 * T_R_MS, time.monotonic() - begun)
        one.ask("active again", "active", "active-ack", lines(0, 3))
        one.told("active again", changed(ACTIVE))
        one.ask("active: down", "down", "down-ack")
        state_is(gateway, "down while it was active", PENDING)
        state_is(gateway, "down, and T(r) is over", DOWN)
        one.ask("up at last", "up", "up-ack")
        one.told("up at last", changed(INACTIVE))
    state_is(gateway, "the association ends", DOWN)


def a_link(gateway, iid):
    peer = Peer(gateway.lines, iid)
    peer.establish()
    return peer


def override(gateway, log):
    """The second that becomes active takes all lines, and each way in which it leaves."""
    with a_link(gateway, 0) as peer, Watch(gateway, log) as one, Watch(gateway, log) as two:
        for it in (one, two):
            it.ask("up", "up", "up-ack")
            it.told("up", changed(INACTIVE))
        one.ask("one is active", "active", "active-ack")
        for it in (one, two):
            it.told("one is active", changed(ACTIVE))
        check("one is told of the link", one.own.want("establish-indication").iid == 0, "")
        two.ask("two is active", "active", "active-ack")
        one.told("two is active", REPLACED)
        found = two.own.want("establish-indication")
        check("two is told of the link, as one has not vouched for it", found is not None and found.iid == 0, found)
        two.ask("two asks for the link", "establish-request", "establish-confirm", link(0))
        one.ask("one asks all the same", "data-request", "error", link(0), data(b"x"))
        peer.send(b"for two")
        check("data go to two", two.own.want("data-indication").data == b"for two", "")
        check("and not to one", one.own.quiet(0.2) == [], "")
        two.ask("two is inactive", "inactive", "inactive-ack")
        for it in (one, two):
            it.told("two is inactive", changed(PENDING))
        peer.supervise(0x01, is_command=True, final=1)
        check("the link is busy while the server is pending", peer.want("RNR") is not None, "")
        one.ask("one is active again", "active", "active-ack")
        for it in (one, two):
            it.told("one is active again", changed(ACTIVE))
        check("the link is ready again", peer.want("RR", timeout=1.0) is not None, "")
        two.ask("two is active again", "active", "active-ack")
        one.told("two is active again", REPLACED)
        two.own.close()
        one.told("the association of two ends", changed(PENDING))
        one.told("T(r) is over", changed(INACTIVE))
        state_is(gateway, "T(r) is over", INACTIVE)


def loadshare(gateway, log):
    """Each line has one process; what has a link up stays, and what leaves is shared."""
    peers = [a_link(gateway, 20 + it) for it in range(2)]
    with Watch(gateway, log) as one, Watch(gateway, log) as two:
        for it in (one, two):
            it.own.up()
        one.own.activate(iua.LOADSHARE, lines(20, 27))
        first = [one.own.want("establish-indication").iid for _ in peers]
        check("one has all lines", sorted(first) == [20, 21], first)
        two.own.activate(iua.LOADSHARE, lines(20, 27))
        peers += [a_link(gateway, 22 + it) for it in range(6)]
        time.sleep(0.2)
        shares = [[it.iid for it in process.own.quiet(0.3) if it.name == "establish-indication"] for process in (one, two)]
        check("the lines are shared", sorted(shares[0] + shares[1]) == [*range(22, 28)] and len(shares[1]) >= 3, shares)
        for iid, peer in enumerate(peers, 20):
            peer.send(b"%d" % iid)
        came = [[it.iid for it in process.own.quiet(0.3) if it.name == "data-indication"] for process in (one, two)]
        check("what comes goes to the process of its line", sorted(came[0]) == sorted([20, 21, *shares[0]])
              and sorted(came[1]) == sorted(shares[1]), came)
        two.own.send("data-request", link(20), data(b"from two"))
        check("a request of any active process is taken", peers[0].want("I").data == b"from two", "")
        one.own.close()
        two.own.quiet(0.2)
        for iid, peer in enumerate(peers, 20):
            peer.send(b"%d" % iid)
        moved = sorted(it.iid for it in two.own.quiet(0.5) if it.name == "data-indication")
        check("the lines of one go to two", moved == [*range(20, 28)], moved)
        state_is(gateway, "two is left", ACTIVE, "two")
    for it in peers:
        it.close()


def retained(place, log):
    """What a process has not vouched for goes to the next one; or it does not, if the server is to have nothing twice."""
    for retain, wanted in (("yes", [b"1", b"2", b"3"]), ("no", [])):
        sections = [group("one", 0, 1, "primary", establish="no"), server("one", 0, 9, retain=retain)]
        with Gateway(place.program, place.folder(f"states-retain-{retain}"), *sections, beat=10000) as gateway, \
                Watch(gateway, log) as one, Watch(gateway, log) as two, a_link(gateway, 0) as peer:
            one.own.begin()
            two.own.up()
            one.own.want("establish-indication")
            for octets in (b"1", b"2", b"3"):
                peer.send(octets)
                one.own.want("data-indication")
            one.own.close()
            two.own.activate()
            found = [it.data for it in two.own.quiet(0.3) if it.name == "data-indication"]
            check(f"retain = {retain}: what goes to the next process", found == wanted, found)
            peer.send(b"4")
            found = two.own.want("data-indication")
            check(f"retain = {retain}: what comes then", found is not None and found.data == b"4", found)


def too_late(place, log):
    """No process comes within T(r): what waits is given up, and links that lose contents are released."""
    sections = [group("one", 0, 2, "primary", establish="no"), server("one", 0, 9, pending=T_R_MS)]
    with Gateway(place.program, place.folder("states-late"), *sections, beat=10000) as gateway, \
            a_link(gateway, 0) as peer, a_link(gateway, 1) as other:
        with Watch(gateway, log) as one:
            one.own.begin()
            peer.send(b"lost")
            one.own.want("data-indication")
        frame = peer.want("DISC", timeout=5.0)
        check("T(r) is over: the link that lost contents is released", frame is not None, gateway.log)
        peer.response(0x63, 0, 0, True)
        check("and no other", other.want("DISC", timeout=0.5) is None, "another is, too")
        check("what is lost is counted", gateway.metric("messages_lost_total") == 1, gateway.metrics())
        with Watch(gateway, log) as two:
            two.own.begin()
            found = [(it.name, it.iid) for it in two.own.quiet(0.5) if it.iid is not None]
            check("the next process is told of the link that is left alone", found == [("establish-indication", 1)], found)


def many(gateway):
    """No more than 32 associations."""
    kept = [Association(gateway.iua) for _ in range(32)]
    answered = [it.up() for it in kept]
    check("32 associations", all(it is not None and it.name == "up-ack" for it in answered), answered)
    with Association(gateway.iua) as more:
        check("one more is closed at once", more.has_ended(), "it is not")
    kept[0].close()
    good = gateway.wait_until(lambda it: it["associations"] == 31)
    with Association(gateway.iua) as again:
        check("a place is free again", good and again.up().name == "up-ack", gateway.metrics()["associations"])
    for it in kept:
        it.close()


def states(place):
    """The states of processes and servers, override and load share, and what each process is told."""
    sections = [group("one", 0, 4, "primary", establish="no"), group("two", 20, 8, "primary", establish="no"),
                server("one", 0, 9, pending=T_R_MS)]
    with Gateway(place.program, place.folder("states"), *sections, beat=10000) as gateway:
        one_process(gateway, place.log)
        override(gateway, place.log)
        gateway.wait_until(lambda it: it['server_state{server="one"}'] == DOWN)
        many(gateway)
    with Gateway(place.program, place.folder("states-shared"), *sections, server("two", 20, 29, mode="loadshare"),
                 beat=10000) as gateway:
        loadshare(gateway, place.log)
    retained(place, place.log)
    too_late(place, place.log)
    check("the gateway ends well", gateway.statuses == [0], gateway.statuses)
