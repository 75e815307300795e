"""What who operates a gateway sees: its end and start, metrics, readiness, its log, what it tells systemd, and captures."""
import re
import shutil
import signal
import socket
import subprocess
import time

import iua
from checks import check, each, say
from iua import Association, data, link
from judge import judged as verdict_of, rows_of
from judged import Process
from peer import Peer
from program import ROOT, Ends, Gateway, group, section, server

RESTARTS, MOST_RESTART = 2, 0.150
GSMTAP_HEAD, GSMTAP_E1T1, GSMTAP_LAPD = 16, 0x13, 1


def restart(place):
    """SIGTERM and a start, under traffic both ways: no link goes down, nothing is lost, servers are told only the difference."""
    for lines, rate in ((64, 20), *[(1000, 2)] * place.is_long):
        restarted(place, lines, rate)


def restarts(place):
    """A restart of 1,000 lines takes less than 150 ms where time is counted in instructions. It needs --sctp."""
    seconds = [restarted(place, 1000, 1) for _ in range(RESTARTS)]
    check(f"a restart of 1000 lines: within {MOST_RESTART} s", min(seconds) < MOST_RESTART, seconds)


def restarted(place, lines, rate):
    """A restart: how many seconds it took from SIGTERM until the program was ready again."""
    folder = place.folder(f"operation-restart-{lines}")
    with Gateway(place.program, folder, group("all", 0, lines, "primary"), server("all", 0, lines - 1)) as gateway:
        own = Process(gateway, folder, 1, "active", rate=rate, lines=lines, octets=60,
                      until=time.monotonic() + 8 + lines // 250)
        own.wait_for("active")
        ends = Ends(place.compiled("ends"), gateway.lines, 0, lines, "primary", rate=rate, octets=60, seconds=5 + lines // 250,
                    settle=5,
                    record=f"{folder}/record-ends").up()
        time.sleep(2)
        began = time.monotonic()
        status = gateway.stop()
        ended = time.monotonic()
        gateway.start()
        ready = time.monotonic()
        counts = ends.stop(sign=None)
        own.end(signal.SIGTERM)
    verdict = verdict_of(rows_of(f"{folder}/record-ends"), [own.rows])
    rows = own.rows
    again = [at for at, row in enumerate(rows) if row.event == "active" and row.moment > began * 1e6]
    check(f"a restart at {lines} lines: the program ends well", status == 0 and gateway.statuses[0] == 0, gateway.statuses)
    check(f"a restart at {lines} lines: nothing is lost at the lines", not verdict.faults and counts["released"] == 0 and
          counts["established"] == lines and not any(it[0] == "missing" for it in verdict.faults), f"{verdict}\n{counts}")
    check(f"a restart at {lines} lines: the server is back", again, gateway.log[-800:])
    joined = rows[again[0]].moment / 1e6 - ready if again else 99
    check(f"a restart at {lines} lines: the server joins anew within 1.5 s", joined < 1.5, joined)
    over = next(row.moment for row in rows_of(f"{folder}/record-ends") if row.event == "over")
    told = [row for row in rows[again[0] if again else 0:] if row.event in ("up", "down") and row.moment < over]
    check(f"a restart at {lines} lines: the server is told only the difference", not told, told[:5])
    say(f"operation: a restart of {lines} lines: {(ended - began) * 1000:.0f} ms to its end, "
        f"{(ready - ended) * 1000:.0f} ms to its start, {max(0, joined) * 1000:.0f} ms until the server is back; "
        f"{verdict.counts['missing, told']} messages of the server are told lost")
    return ready - began


def other_lines(place):
    """A state of other lines is told, and the gateway starts all the same."""
    folder = place.folder("operation-other")
    with Gateway(place.program, folder, group("all", 0, 2, "primary", establish="no"), server("all", 0, 9)) as gateway:
        with Peer(gateway.lines, 0) as peer:
            peer.establish()
            gateway.stop()
        gateway.configure(group("all", 0, 3, "primary", establish="no"), server("all", 0, 9))
        gateway.start()
        with Association(gateway.iua) as own, Peer(gateway.lines, 2) as peer:
            own.begin(iua.OVERRIDE)
            peer.establish()
            check("a start with other lines than in its state", own.want("establish-indication").iid == 2, "")
        gateway.stop(signal.SIGKILL)
        gateway.start()
        check("a start after a kill", gateway.fetched("/ready")[0] == 200, "")
    check("it ends well", [it for it in gateway.statuses if it != -signal.SIGKILL] == [0, 0], gateway.statuses)


def names_of_manual():
    """The metrics that the manual names, with their labels."""
    with open(f"{ROOT}/gateway/lapd-gateway.8", encoding="utf-8") as file:
        part = file.read().partition("\n.Sh METRICS\n")[2].partition("\n.Sh ")[0]
    found = {}
    for item in re.findall(r"^\.It (.*)$", part, re.M):
        for name, _, labels in re.findall(r"(\w+)(\{([\w,]*)\})?", item.replace("\\&", "")):
            found[name] = frozenset(labels.split(",")) if labels else frozenset()
    return found


def metrics(place):
    """Prometheus' text form, with the names of the manual, each with its labels; and /ready."""
    with Gateway(place.program, place.folder("operation-metrics"), group("all", 0, 4, "primary", establish="no"),
                 server("all", 0, 9)) as gateway:
        with Association(gateway.iua) as own, Peer(gateway.lines, 0) as peer:
            own.begin(iua.OVERRIDE)
            peer.establish()
            own.want("establish-indication")
            peer.send(b"x")
            own.want("data-indication")
            own.send("data-request", link(9), data(b"x"))
            own.want("error")
            status, text = gateway.fetched("/metrics")
            found, types = {}, dict(re.findall(r"^# TYPE lapd_gateway_(\w+) (\w+)$", text, re.M))
            for line in text.splitlines():
                row = re.fullmatch(r"lapd_gateway_(\w+)(?:\{(.*)\})? (-?[0-9.e+]+)", line)
                check(f"metrics: {line}", row or line.startswith(("# TYPE lapd_gateway_", "# HELP lapd_gateway_")),
                      "is of another form")
                if row:
                    labels = frozenset(re.findall(r'(\w+)="(?:[^"\\]|\\.)*"', row[2] or ""))
                    check(f"metrics: the labels of {row[1]}", found.setdefault(row[1], labels) == labels, labels)
            wanted = names_of_manual()
            check("metrics: the names of the manual", status == 200 and len(wanted) > 30
                  and found == {name: labels for name, labels in wanted.items()
                  if name in found} and set(wanted) - set(found) <= {"link_counter_total", "xid_total"}, {*found} ^ {*wanted})
            check("metrics: each has a type, which its name fits",
                  all(types.get(name) == ("counter" if name.endswith("_total") else "gauge") for name in found),
                  types)
            values = gateway.metrics()
            for name, value in (('line_up{line="0"}', 1), ('line_up{line="1"}', 0), ('link_state{line="0",sapi="0",tei="0"}', 7),
                                ('server_state{server="all"}', 3), ("associations", 1), ("processes_up", 1),
                                ('iua_errors_sent_total{code="2"}', 1)):
                check(f"metrics: {name}", values.get(name) == value, values.get(name))
            check("metrics: memory and processor", values["memory_octets"] > 1e5 and values["cpu_seconds_total"] >= 0, values)
        check("/ready", gateway.fetched("/ready")[0] == 200, "")
        check("another path", gateway.fetched("/nothing")[0] == 404, "")
        for request in (b"", b"\r\n\r\n", b"GET\r\n\r\n", b"POST /metrics HTTP/1.1\r\nHost: x\r\nContent-Length: 5\r\n\r\nhello",
                        b"\0" * 4000, b"GET /" + b"a" * 100000 + b" HTTP/1.1\r\n\r\n"):
            with socket.create_connection(("127.0.0.1", gateway.port)) as other:
                try:
                    other.sendall(request)
                except OSError:
                    pass
        check("it answers after what is no request", gateway.fetched("/ready")[0] == 200, "")


def told_to_systemd(place):
    """READY, RELOADING, STOPPING and the watchdog."""
    with Gateway(place.program, place.folder("operation-systemd"), group("all", 0, 1, "primary"), server("all", 0, 9),
                 environment={"WATCHDOG_USEC": "400000"}) as gateway:
        for _ in range(3):
            gateway.wait_for("WATCHDOG=1", 2.0)
        gateway.process.send_signal(signal.SIGHUP)
        gateway.wait_for("RELOADING=1", 2.0)
        gateway.wait_for("READY=1", 2.0)
        gateway.process.send_signal(signal.SIGTERM)
        gateway.wait_for("STOPPING=1", 2.0)
        check("it tells systemd all that it should", True)


def log(place):
    """One line an event, with its level for the journal; frames in words if that is asked for."""
    with Gateway(place.program, place.folder("operation-log"), group("all", 0, 1, "primary", establish="no"), server("all", 0, 9),
                 words=["--log-frames"], environment={"JOURNAL_STREAM": "of-log"}) as gateway:
        with Association(gateway.iua) as own, Peer(gateway.lines, 0) as peer:
            own.begin(iua.OVERRIDE)
            peer.establish()
            own.want("establish-indication")
            own.send("data-request", link(5), data(b"x"))
            own.want("error")
        gateway.stop()
        lines = gateway.log.splitlines()
        check("each line of the log has a level", lines and all(re.match(r"<[0-7]>\S", it) for it in lines), lines[:5])
        for word in ("sabme", "response ua", "line 0"):
            check(f"the log has {word}", word in gateway.log, gateway.log[-800:])
    with Gateway(place.program, place.folder("operation-log-brief"), group("all", 0, 1, "primary", establish="no"),
                 server("all", 0, 9)) as gateway:
        with Peer(gateway.lines, 0) as peer:
            peer.establish()
        gateway.stop()
        check("frames are not in the log by default, nor levels on a terminal", "sabme" not in gateway.log
              and not re.search(r"^<\d>", gateway.log, re.M), gateway.log[-500:])


def capture(place):
    """Frames of chosen lines, in a file that tshark reads, and as packets of GSMTAP."""
    folder, listener = place.folder("operation-capture"), socket.socket(socket.AF_INET, socket.SOCK_DGRAM)
    listener.bind(("127.0.0.1", 0))
    listener.settimeout(1.0)
    port = listener.getsockname()[1]
    sections = [group("all", 0, 4, "primary", establish="no"), server("all", 0, 9),
                section("capture some", lines="0, 2-3", file=f"{folder}/frames.pcapng", gsmtap=f"127.0.0.1:{port}")]
    with Gateway(place.program, folder, *sections) as gateway, Association(gateway.iua) as own:
        own.begin(iua.OVERRIDE)
        for iid in (0, 1):
            with Peer(gateway.lines, iid) as peer:
                peer.establish()
                own.want("establish-indication")
                own.send("data-request", link(iid), data(bytes([8, 2, 0, 1, 5])))
                frame = peer.want("I")
                peer.vr[0, 0] = 1
                peer.supervise(0x01)
                own.send("data-request", link(iid), data(bytes([8, 2, 0, 1, 0x45])))
                check("data go out", frame is not None and peer.want("I") is not None, "")
                heard = [*peer.heard] if iid == 0 else heard
    packets = []
    try:
        while True:
            packets.append(listener.recv(1000))
    except socket.timeout:
        listener.close()
    check("GSMTAP: version, length, kind", packets
          and all((it[0], it[1] * 4, it[2], it[12]) == (2, GSMTAP_HEAD, GSMTAP_E1T1, GSMTAP_LAPD) for it in packets), packets[:2])
    check("GSMTAP: each frame of line 0 that was sent, and those that came",
          [it for it in (it[GSMTAP_HEAD:] for it in packets) if it in heard] == heard
          and len(packets) == len(heard) + 2, (len(packets), heard))
    if not shutil.which("tshark"):
        return
    words = ["tshark", "-r", f"{folder}/frames.pcapng", "-T", "fields", "-e", "lapd.control.u_modifier_cmd", "-e",
             "q931.message_type", "-e", "_ws.malformed"]
    said = subprocess.run(words, capture_output=True, text=True, check=False)
    rows = said.stdout.splitlines()
    check("the file has the same frames", len(rows) == len(packets), (rows, said.stderr))
    check("tshark reads LAPD and Q.931 in it", any("0x05" in it or "0x00000005" in it for it in rows)
          and any("0x45" in it or "0x00000045" in it for it in rows)
          and not any(it.endswith("1") and "malformed" in it for it in rows), rows)


def operation(place):
    """SIGTERM and a start under traffic, metrics, readiness, what systemd is told, the log and captures."""
    each(place, restart, other_lines, metrics, told_to_systemd, log, capture)
