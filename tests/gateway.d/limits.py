"""Slow servers, dead lines and bursts: what waits is limited, and lines that have nothing to do with it go on."""
import signal
import struct
import time

import iua
from checks import Lateness, check, each, say
from iua import Association, data, link, message, parameter
from judge import judged as verdict_of, rows_of
from judged import Process
from peer import RNR, RR, UI, Peer
from program import Ends, Gateway, group, server
from server import numbered

HIGH_OCTETS, FULL_OCTETS, HOLD_SECONDS, QUEUED = 65536, 1 << 20, 1.0, 64
SLACK = 16384  # what was on its way as a limit was reached
MOST_ASSOCIATION, MOST_HELD, MOST_BELOW = 1 << 20, 512 << 10, 48 << 20
ENOUGH = 20  # lines whose links were released


def slow_server(place):
    """A server that naps: links are busy, what waits stays below its limit, and nothing is lost."""
    folder, lines = place.folder("limits-slow"), 64
    with Gateway(place.program, folder, group("all", 0, lines, "primary"), server("all", 0, 99), beat=4000) as gateway:
        slow = Process(gateway, folder, 1, "active", nap=2)
        slow.wait_for("active")
        ends = Ends(place.compiled("ends"), gateway.lines, 0, lines, "primary", rate=50, octets=60, seconds=4, settle=600,
                    record=f"{folder}/record-ends").up()
        most, most_busy = 0, 0
        for _ in range(30):
            time.sleep(0.1)
            values = gateway.metrics()
            most = max(most, values.get("queued_octets", 0))
            most_busy = max(most_busy, sum(value for name, value in values.items() if name.startswith("link_busy")))
        end = time.monotonic() + 90
        time.sleep(2)
        while verdict_of(rows_of(f"{folder}/record-ends"), [slow.rows]).faults and time.monotonic() < end:
            time.sleep(1)
        counts = ends.stop()
        values = gateway.metrics()
        slow.end(signal.SIGTERM)
    verdict = verdict_of(rows_of(f"{folder}/record-ends"), [slow.rows])
    check("a slow server: nothing is lost", not verdict.faults and not verdict.counts["missing, told"], verdict)
    check("a slow server: links are busy", most_busy > 0 and counts["busy"] > 0, (most_busy, counts))
    check("a slow server: what waits is limited", 0 < most < 2 * HIGH_OCTETS, most)
    check("a slow server keeps its association", values["takeovers_total"] == 0, values["takeovers_total"])


def stuck_server(place):
    """A server that reads nothing for longer than the gateway waits is ended, and the gateway serves the next."""
    with Gateway(place.program, place.folder("limits-stuck"), group("all", 0, 1, "primary", establish="no"),
                 server("all", 0, 9)) as gateway:
        with Association(gateway.iua) as own, Peer(gateway.lines, 0) as peer:
            own.begin()
            own.answers = False
            peer.establish()
            with Lateness() as late:
                begun = time.monotonic()
                check("who answers no heartbeat is ended", own.has_ended(4.0), "it is not")
                seconds = time.monotonic() - begun
            check("within two seconds", seconds < 2.5 + 5 * late.seconds, (seconds, late.seconds))
            with Association(gateway.iua) as other:
                other.begin()
                check("the next is told of the link", other.want("establish-indication") is not None, "")


def dead_line(place):
    """The end of one line takes frames and acknowledges nothing. The association waits for it 1 s at most; then its link is
    released, and all others go on."""
    folder, sent = place.folder("limits-dead"), 200
    with Gateway(place.program, folder, group("all", 0, 4, "primary", establish="no", t200=400), server("all", 0, 9)) as gateway:
        ends = Ends(place.compiled("ends"), gateway.lines, 1, 3, "primary", rate=1, record=f"{folder}/record-ends").up()
        with Association(gateway.iua) as own, Peer(gateway.lines, 0) as dead:
            own.begin()
            dead.establish()
            for _ in range(4):
                own.want("establish-indication")
            dead.supervise(RNR, is_command=True)
            with Lateness() as late:
                begun = time.monotonic()
                for number in range(sent):
                    for line in range(4):
                        own.send("data-request", link(line), data(numbered(1, line, number + 1, 40)))
                released = own.want("release-indication", timeout=8.0)
                after = time.monotonic() - begun
                own.quiet(1.0)
            values, slack = gateway.metrics(), 0.5 + 5 * late.seconds
        ends.stop()
    came = [row for row in rows_of(f"{folder}/record-ends") if row.event == "came" and row.source == 1]
    last = max(row.moment for row in came) / 1e6 - begun if came else 99
    check("a dead line: all comes to the others", len(came) == 3 * sent, len(came))
    check("a dead line: the others wait 1 s at most", last < HOLD_SECONDS + slack, (last, slack))
    check("a dead line is released, by the gateway itself", released is not None and (released.iid, released.reason) == (0, 0) and
          after < HOLD_SECONDS + 2.0 + slack, (after, slack, released))
    check("a dead line is counted", values["links_released_total"] == 1 and values["reads_held_total"] >= 1, values)


def burst(place):
    """All lines send at once, more than their windows: all comes, each once and in order."""
    lines, each_line = (1000, 20) if place.is_long else (200, 20)
    folder = place.folder("limits-burst")
    with Gateway(place.program, folder, group("all", 0, lines, "primary"), server("all", 0, 999), beat=4000) as gateway:
        own = Process(gateway, folder, 1, "active")
        own.wait_for("active")
        ends = Ends(place.compiled("ends"), gateway.lines, 0, lines, "primary", burst=each_line, octets=200,
                    record=f"{folder}/record-ends").up()
        end = time.monotonic() + 40
        while sum(row.event == "came" for row in own.rows) < lines * each_line and time.monotonic() < end:
            time.sleep(0.2)
        counts = ends.stop()
        values = gateway.metrics()
        own.end(signal.SIGTERM)
    verdict = verdict_of(rows_of(f"{folder}/record-ends"), [own.rows])
    came = sorted(row.moment for row in own.rows if row.event == "came")
    sent = sorted(row.moment for row in rows_of(f"{folder}/record-ends") if row.event == "sent")
    check("a burst: all comes", not verdict.faults and verdict.counts["came up"] == lines * each_line and not counts["released"],
          verdict)
    check("a burst: the association stays", values["takeovers_total"] == 0, values)
    say(f"limits: {len(came)} messages on {lines} lines at once are with the server after {(came[-1] - sent[0]) / 1e6:.2f} s")


def flood(place):
    """A server that asks for more than all lines take: nothing grows beyond its limit, and what was not sent is told."""
    with Gateway(place.program, place.folder("limits-flood"), group("all", 0, 8, "primary", establish="no", t200=100),
                 server("all", 0, 9)) as gateway:
        with Association(gateway.iua) as own:
            peers = [Peer(gateway.lines, it) for it in range(8)]
            own.begin()
            for it in peers:
                it.establish()
                it.supervise(RNR, is_command=True)
            own.socket.settimeout(0.5)
            most, released, end = 0, set(), time.monotonic() + 4
            while time.monotonic() < end:
                try:
                    for number in range(400):
                        own.send("data-request", link(number % 8), data(bytes(200)))
                except OSError:
                    pass
                for came in own.quiet(0.01):
                    released |= {came.iid} if came is not None and came.name == "release-indication" else set()
                most = max(most, gateway.metric("queued_octets"))
            for it in peers:
                it.close()
        check("a flood: what waits is limited", most <= 8 * QUEUED * (200 + 64) + 2 * SLACK, most)
        check("a flood: links that lose contents are released", released, "none is")
    check("a flood: the gateway ends well", gateway.statuses == [0], gateway.statuses)


def probe(line, own, peer, count):
    """A message each way on a link that has nothing to do with what else happens; how many seconds both took."""
    begun = time.monotonic()
    peer.send(b"up %d" % count)
    came = own.want("data-indication", timeout=8.0)
    own.send("data-request", link(line), data(b"down %d" % count))
    frame = peer.want("I")
    peer.vr[0, 0] = (count + 1) % 128
    peer.supervise(RR)
    good = came is not None and frame is not None and (came.data, frame.data) == (b"up %d" % count, b"down %d" % count)
    return time.monotonic() - begun if good else float("inf")


def lines_of(first, last):
    return parameter(iua.RANGE, struct.pack(">II", first, last))


def silent_server(place):
    """A server's process reads nothing, and unit data keep coming, which no link holds back: at 1 MB its association ends. What
    waits for the next is limited, too. A line of another server goes on."""
    folder, sent = place.folder("limits-silent"), 6000
    with Gateway(place.program, folder, group("all", 0, 2, "primary", establish="no"), server("loud", 0, 0), server("calm", 1, 1),
                 beat=60000) as gateway:
        with Association(gateway.iua) as silent, Association(gateway.iua) as own, Peer(gateway.lines, 0) as loud, \
                Peer(gateway.lines, 1) as calm:
            for it, line in ((silent, 0), (own, 1)):
                it.up()
                it.activate(iua.OVERRIDE, lines_of(line, line))
            calm.establish()
            own.want("establish-indication")
            most, held, worst = 0, 0, 0.0
            with Lateness() as late:
                for number in range(sent):
                    loud.command(UI, poll=False, data=numbered(1, 0, number, 250))
                    if number % 100 == 0:
                        worst = max(worst, probe(1, own, calm, number // 100))
                        values = gateway.metrics()
                        most = max(most, values.get('association_octets{association="0"}', 0))
                        held = max(held, values.get('server_held_octets{server="loud"}', 0))
            values = gateway.metrics()
            check("a silent server: its association ends at 1 MB", silent.has_ended() and MOST_ASSOCIATION / 2 < most
                  < MOST_ASSOCIATION + SLACK, most)
            check("and it is told why", "does not vouch for what it was sent" in gateway.log, gateway.log[-800:])
            check("what waits for its next process is limited", MOST_HELD / 2 < held < MOST_HELD + SLACK, held)
            check("what was given up is counted", values["units_dropped_total"] > sent / 4, values["units_dropped_total"])
            check("a line of another server waits 1 s at most", worst < HOLD_SECONDS + 5 * late.seconds, (worst, late.seconds))
            with Association(gateway.iua) as other:
                other.up()
                other.activate(iua.OVERRIDE, lines_of(0, 0))
                found = other.want("unit-indication")
                check("the next process has what waited", found is not None and found.iid == 0, found)


def all_queues(place):
    """Contents wait in front of thousands of links: at 48 MB in all no more are taken. Links that lose contents are released, which
    is told, and what is left to 64 MB keeps a line of another server going."""
    count, teis, each_link = 1000, 4, QUEUED - 1
    with Gateway(place.program, place.folder("limits-all"), group("many", 0, count, "primary", establish="no", terminals=teis,
                 teis=f"0-{teis - 1}", t200=600000), group("calm", count, 1, "primary", establish="no"),
                 server("many", 0, count - 1), server("calm", count, count), beat=60000) as gateway:
        with Association(gateway.iua) as own, Association(gateway.iua) as other, Peer(gateway.lines, count) as calm:
            for it, first, last in ((own, 0, count - 1), (other, count, count)):
                it.up()
                it.activate(iua.OVERRIDE, lines_of(first, last))
            calm.establish()
            other.want("establish-indication")
            most, worst, released, probes = 0, 0.0, set(), 0
            with Lateness() as late:
                for line in range(count):
                    for tei in range(teis):
                        own.send("establish-request", link(line, tei))
                        octets = message("data-request", link(line, tei), data(bytes(260)))
                        for _ in range(each_link):
                            own.put(octets)
                    if line % 10 == 0:
                        worst = max(worst, probe(count, other, calm, probes))
                        probes += 1
                        released |= {it.iid for it in own.quiet(0) if it.name == "release-indication" and it.reason == 0}
                    if line % 100 == 50:
                        most = max(most, gateway.metric("queued_octets"))
                    if len(released) > ENOUGH:
                        break
            values = gateway.metrics()
            most = max(most, values["queued_octets"])
        check("all queues: contents in front of links have a limit", MOST_BELOW - SLACK < most < MOST_BELOW + 2 * SLACK, most)
        check("all queues: links that lose contents are released, and told", len(released) > ENOUGH
              and values["messages_lost_total"] > ENOUGH, (len(released), values["messages_lost_total"]))
        check("all queues: all associations stay", values["associations"] == 2 and values["takeovers_total"] == 0, values)
        check("all queues: a line of another server waits 1 s at most", worst < HOLD_SECONDS + 5 * late.seconds,
              (worst, late.seconds))
    check("all queues: the gateway ends well", gateway.statuses == [0], gateway.statuses)


def quiet_sockets(place):
    """Connections that say nothing, or something else, are no harm."""
    with Gateway(place.program, place.folder("limits-quiet"), group("all", 0, 1, "primary", establish="no"),
                 server("all", 0, 9)) as gateway:
        kept = [Peer(gateway.lines, 77, first=b"x" * at) for at in range(8)]
        check("a line that is not there: the connection ends",
              all(it.want("none", timeout=1.0) is None and closed(it) for it in kept), "")
        with Association(gateway.iua) as own, Peer(gateway.lines, 0) as peer:
            own.begin(iua.OVERRIDE)
            peer.establish()
            with Peer(gateway.lines, 0) as second:
                check("a second connection takes the place of the first", closed(peer), "it does not")
                check("and layer 1 was lost", own.want("release-indication").reason == 1, "")
                second.accept()
                check("the second has the line", own.want("establish-indication").iid == 0, "")


def closed(peer):
    try:
        while peer.next(2.0) is not None:
            pass
    except TimeoutError:
        return False
    return True


def limits(place):
    """Servers that are slow, stuck or silent, a dead line, a burst, a flood: what waits is limited, others go on within 1 s."""
    each(place, slow_server, stuck_server, silent_server, dead_line, burst, flood, all_queues, quiet_sockets)
