"""How fast a server's next process has all lines if the one before is killed or hangs; what is lost, and what comes twice."""
import signal
import time

from checks import Lateness, check, say
from judge import judged as verdict_of, rows_of
from judged import Process
from program import Ends, Gateway, group, server

SECONDS, SETTLE, AT = 5, 3, 2.0
MOST_TWICE, TRIES, OCTETS = 8192, 3, 40
PROCESSES = 3  # one after the other have to run: the gateway, the next process, and the gateway
MOST_SECONDS = {signal.SIGKILL: 0.1, signal.SIGSTOP: 1.5}
NAMES = {signal.SIGKILL: "a kill", signal.SIGSTOP: "a hang"}


def once(place, folder, lines, rate, sign):
    """Seconds from the signal to the first message at the next process, how late the machine itself was meanwhile, the verdict, and
    what the ends counted."""
    sections = [group("all", 0, lines, "primary"), server("all", 0, lines - 1)]
    with Gateway(place.program, folder, *sections) as gateway:
        one, two = (Process(gateway, folder, at, role) for at, role in ((1, "active"), (2, "standby")))
        one.wait_for("active")
        two.wait_for("joined")
        ends = Ends(place.compiled("ends"), gateway.lines, 0, lines, "primary", rate=rate, octets=OCTETS,
                    seconds=SECONDS + lines // 500,
                    settle=SETTLE, record=f"{folder}/record-ends").up()
        time.sleep(AT)
        with Lateness() as late:
            began = time.monotonic()
            one.process.send_signal(sign)
            if sign == signal.SIGKILL:
                one.note("killed")
            time.sleep(MOST_SECONDS[sign])
        counts = ends.stop(sign=None)
        one.process.kill()
        one.process.wait()
        two.end(signal.SIGTERM)
    told = [row for row in two.rows if row.event in ("up", "down") and row.moment < two.rows[-1].moment - 500000]
    check(f"{NAMES[sign]} at {lines} lines: the next is told only what it lacks", not told, told[:3])
    first = min([row.moment for row in two.rows if row.event == "came"], default=float("inf"))
    return first / 1e6 - began, PROCESSES * late.seconds, verdict_of(rows_of(f"{folder}/record-ends"), [one.rows, two.rows]), counts


def taken_over(place, lines, rate, sign):
    """The best of some tries. What the machine itself is late, as it has much else to do, is no fault of the gateway's. Nothing is
    lost in any try."""
    what, tries = f"{NAMES[sign]} at {lines} lines", []
    for at in range(TRIES):
        seconds, late, verdict, counts = once(place, place.folder(f"takeover-{lines}-{sign.name}-{at}"), lines, rate, sign)
        twice = verdict.counts["octets twice"]
        tries.append((seconds - late, seconds, late, twice))
        check(f"{what}: nothing is lost, and no link goes down", not verdict.faults and not verdict.counts["missing, told"]
              and not counts["released"] and verdict.counts["came up"] > lines * rate / 4, verdict)
        check(f"{what}: less than 8 KB comes twice", twice < MOST_TWICE + late * lines * rate * OCTETS, (twice, late))
        if seconds < MOST_SECONDS[sign]:
            break
    least = min(tries)
    check(f"{what}: within {MOST_SECONDS[sign]} s", least[0] < MOST_SECONDS[sign], tries)
    say(f"takeover: after {what} within {least[1] * 1000:.0f} ms (the machine itself was {least[2] * 1000:.0f} ms late), "
        f"{max(it[3] for it in tries)} octets twice")


def takeover(place):
    """A process is killed, or hangs: the next one has all within 0.1 or 1.5 s, nothing is lost, and less than 8 KB comes twice."""
    for lines, rate in ((64, 50), *[(1000, 4)] * place.is_long):
        for sign in MOST_SECONDS:
            taken_over(place, lines, rate, sign)
