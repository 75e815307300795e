"""What SCTP alone has, and lines of the kernel's drivers: in the machine of machine.py."""
import os
import signal
import time

import iua
from calls import Exchange
from checks import Lateness, check, each, say
from errors import answers
from iua import Association, data, link, message, number
from judge import judged as verdict_of, rows_of
from judged import Process
from peer import Peer
from program import Ends, Gateway, group, run, server
from takeover import PROCESSES

CUT_SECONDS = 1.5
OTHER_PAYLOAD = 3  # M3UA


def streams(place):
    """Streams, the payload protocol, several addresses and IPv6."""
    sections = [group("all", 100, 4, "primary", establish="no"), server("all", 0, 999)]
    with Gateway(place.program, place.folder("sctp-streams"), *sections, beat=10000, sctp="127.0.0.1, ::1") as gateway:
        with Association(gateway.iua) as own:
            for name in ("beat", "up", "down", "tei-query", "notify"):
                found = [it.error for it in answers(own, message(name, *[link(100)] * (name == "tei-query")), stream=3)
                         if it.name == "error"]
                check(f"error 9, {name} on stream 3", found == [9], found)
            check("ASP Up on stream 0", own.up().name == "up-ack", "")
            check("ASP Active on stream 0", own.activate(1).name == "active-ack", "")
            own.put(message("data-request", link(100), data(b"x")), 1, OTHER_PAYLOAD)
            found = [it for it in answers(own, message("beat")) if it.name == "error"]
            check("a message of another payload protocol is passed over", not found, found)
            for iid in range(100, 104):
                with Peer(gateway.lines, iid) as peer:
                    peer.establish()
                    peer.send(b"in")
                    came = own.want("data-indication")
                    check(f"line {iid}: stream and payload protocol", came is not None
                          and (came.stream, came.payload) == (1 + iid % (iua.STREAMS - 1), 1), came and came.stream)
                    own.put(message("data-request", link(iid), data(b"out")), 7)
                    frame = peer.want("I")
                    check(f"line {iid}: a request on any stream", frame is not None and frame.data == b"out", frame)
        with Association(f"[::1]:{gateway.port_of_iua}") as six:
            check("IPv6", six.begin(1).name == "active-ack", "")
        with Association(gateway.iua) as own:
            own.begin(1)
            gateway.stop()
            check("the gateway shuts its associations", own.has_ended(2.0), "it does not")
    check("it ends well", gateway.statuses == [0], gateway.statuses)


SETUP, PROCEEDING, CONNECT, DISCONNECT, RELEASE, COMPLETE = 0x05, 0x02, 0x07, 0x45, 0x4D, 0x5A


def a_call(own, iid, tei, octets_of_reference):
    """A call to the exchange at the other end of a line, from SETUP to RELEASE COMPLETE; the types of the messages that came."""
    def q931(kind, elements=b""):
        reference = (1).to_bytes(octets_of_reference, "big")
        own.send("data-request", link(iid, tei), data(bytes([8, octets_of_reference]) + reference + bytes([kind]) + elements))

    def heard():
        came = own.want("data-indication", timeout=20.0)
        return came and came.data[2 + octets_of_reference]
    q931(SETUP, bytes([0x04, 3, 0x80, 0x90, 0xA3, 0x70, 5, 0x81]) + b"4711")
    found = [heard(), heard()]
    q931(DISCONNECT, bytes([8, 2, 0x80, 0x90]))
    found.append(heard())
    q931(COMPLETE)
    return found


def through(place, name, kind, sides, devices, octets_of_reference, calls):
    """Calls over a line of a driver whose both ends are gateways."""
    folder, driver = place.folder(f"sctp-{name}"), name.partition("-")[0]
    near, far = (Gateway(place.program, f"{folder}/{side}", group("all", 0, 1, kind, side=side, driver=driver, device=device),
                         server("all", 0, 9), beat=20000)
                 for side, device in zip(sides, devices))
    with near, far:
        exchange = Exchange(near, "--calls", calls)
        with Association(far.iua) as own:
            own.begin(1)
            if kind == "basic":
                came = own.want("tei-indication", timeout=30.0)
                tei = came.tei if came else 0
                own.send("establish-request", link(0, tei))
            else:
                tei = 0
            came = own.want("establish-confirm", "establish-indication", timeout=30.0)
            check(f"{name}: the link is up", came is not None, far.log[-1500:])
            own.quiet(3.0)  # both ends establish it: the second time what was sent is lost, and told
            found = [a_call(own, 0, tei, octets_of_reference) for _ in range(calls)]
            check(f"{name}: {calls} calls", found == [[PROCEEDING, CONNECT, RELEASE]] * calls,
                  (found, near.log[-800:], far.log[-800:]))
            own.send("release-request", link(0, tei), number(iua.REASON, 0))
            check(f"{name}: the link is released", own.want("release-confirm", timeout=10.0) is not None, "")
        said = exchange.end(60)
        check(f"{name}: the exchange has all calls", f"calls that are over: {calls}" in said, said[-800:])
    say(f"sctp: {calls} calls over {name}")


def misdn(place):
    """Calls over a basic access line of mISDN."""
    through(place, "misdn", "basic", ("network", "terminal"), (0, 1), 1, 5)


def dahdi(place):
    """Calls over a primary rate line of DAHDI."""
    for channel in (1, 2):
        if not os.path.exists(f"/dev/dahdi/{channel}"):
            os.symlink(f"/dev/dahdi/chan/{channel:03}/001", f"/dev/dahdi/{channel}")
    through(place, "dahdi", "primary", ("network", "user"), (1, 2), 2, 5)


def cut(place):
    """A server's process is cut off: the next has all within 1.5 s, and nothing is lost."""
    for words in ("ip netns add far", "ip link add near type veth peer name away netns far", "ip address add 10.9.0.1/24 dev near",
                  "ip link set near up", "ip netns exec far ip address add 10.9.0.2/24 dev away",
                  "ip netns exec far ip link set away up"):
        said = run(words.split())
        check(words, said.returncode == 0, said.stderr)
    folder = place.folder("sctp-cut")
    with Gateway(place.program, folder, group("all", 0, 16, "primary"), server("all", 0, 99),
                 sctp="127.0.0.1, 10.9.0.1") as gateway:
        far = Process(gateway, folder, 1, "active", before=["ip", "netns", "exec", "far"], where=f"10.9.0.1:{gateway.port_of_iua}")
        far.wait_for("active")
        near = Process(gateway, folder, 2, "standby")
        near.wait_for("joined")
        ends = Ends(place.compiled("ends"), gateway.lines, 0, 16, "primary", rate=10, octets=40, seconds=6, settle=4,
                    record=f"{folder}/record-ends").up()
        time.sleep(2)
        with Lateness() as late:
            run(["ip", "link", "set", "near", "down"])
            began = time.monotonic()
            far.note("killed")
            time.sleep(CUT_SECONDS)
        counts = ends.stop(sign=None)
        far.process.kill()
        far.process.wait()
        near.end(signal.SIGTERM)
    first = min([row.moment for row in near.rows if row.event == "came"], default=float("inf")) / 1e6 - began
    verdict = verdict_of(rows_of(f"{folder}/record-ends"), [far.rows, near.rows])
    check("a cut: nothing is lost, and no link goes down", not verdict.faults and not counts["released"]
          and verdict.counts["came up"] > 100, verdict)
    check("a cut: less than 8 KB comes twice", verdict.counts["octets twice"] < 8192, verdict)
    check(f"a cut: within {CUT_SECONDS} s", first - PROCESSES * late.seconds < CUT_SECONDS, (first, late.seconds))
    say(f"sctp: after a cut the next has all within {first * 1000:.0f} ms, {verdict.counts['octets twice']} octets twice")


def sctp(place):
    """Streams, the payload protocol, addresses, IPv6, a cut, and calls over lines of mISDN and of DAHDI. It needs --sctp."""
    each(place, streams, cut, misdn, dahdi)
