"""What the gateway costs: microseconds of processor a message, beside a bare echo over the same sockets, and memory a line."""
import re
import signal
import time

from judged import Process
from program import Ends, Gateway, compiled, group, run, server
from standby import FOLLOWS

# Lines, and how many messages each sends at once, each way, and how often a second.
LOADS = ((64, 1, 40), (64, 5, 8), (1000, 1, 3), (1000, 5, 1))
SECONDS, TRIES = 4, 2
OCTETS = 40
KINDS = {"primary": "primary rate", "basic": "basic access"}
HEADS = ("as it begins", "`retain = no`", "with a standby", "a bare echo", "an echo that acknowledges")


def processor(process):
    """Seconds of processor that a process has had."""
    with open(f"/proc/{process.pid}/schedstat", encoding="ascii") as file:
        return int(file.read().split()[0]) / 1e9


def of_gateway(place, ends, load, retain="yes", stands_by=False):
    """Microseconds of processor a message, under traffic both ways."""
    lines, each, rate = load
    folder = place.folder(f"cost-{lines}-{each}-{retain}-{stands_by}")
    sections = [group("all", 0, lines, "primary"), server("all", 0, lines - 1, retain=retain)]
    more = {"standby": f"{folder}/standby"} if stands_by else {}
    with Gateway(place.program, folder, *sections, state=False, **more) as gateway:
        follower = followed(place, gateway, folder) if stands_by else None
        own = Process(gateway, folder, 1, "active", rate=rate, each=each, lines=lines, octets=OCTETS,
                      until=time.monotonic() + SECONDS + 60)
        own.wait_for("active")
        with Ends(ends, gateway.lines, 0, lines, "primary", rate=rate, each=each, octets=OCTETS):
            time.sleep(2)
            before, seconds = gateway.fetched("/metrics")[1], -processor(gateway.process)
            time.sleep(SECONDS)
            seconds += processor(gateway.process)
            count = messages_of(gateway.fetched("/metrics")[1]) - messages_of(before)
        own.end(signal.SIGTERM)
        if follower is not None:
            follower.stop()
    return 1e6 * seconds / count


def followed(place, gateway, folder):
    """A standby beside a gateway."""
    it = Gateway(place.program, f"{folder}/standby-files", words=["--standby"])
    it.file, it.port = gateway.file, gateway.port
    it.start()
    end = time.monotonic() + 30
    while FOLLOWS not in it.log and time.monotonic() < end:
        time.sleep(0.05)
    return it


def messages_of(text):
    """How many messages of IUA metrics have. They are read later, as this takes a second of a thousand lines."""
    return sum(float(it) for it in re.findall(r"^lapd_gateway_iua_(?:received|sent)_total (\S+)$", text, re.M))


def of_echo(echo, load, acknowledges):
    lines, each, rate = load
    words = run([echo, str(lines), str(rate), str(SECONDS), str(each), *["acknowledged"] * acknowledges]).stdout.split()
    return float(words[1])


def memory(place, ends, kind):
    """Octets a line more, with a link up on each."""
    found = []
    for lines in (64, 1000):
        with Gateway(place.program, place.folder(f"cost-{kind}-{lines}"), group("all", 0, lines, kind), server("all", 0, lines - 1),
                     state=False) as gateway:
            with Ends(ends, gateway.lines, 0, lines, kind):
                found.append(gateway.metric("memory_octets"))
    return (found[1] - found[0]) / (1000 - 64)


def once(place, ends, echo, load):
    """One try of all that the table compares, one after the other."""
    variants = {}, {"retain": "no"}, {"stands_by": True}
    return (*[of_gateway(place, ends, load, **it) for it in variants], of_echo(echo, load, False), of_echo(echo, load, True))


def cost(place):
    """Prints the table of docs/SPEED.md: the least of some tries, as this machine has other work."""
    ends, echo = place.compiled("ends"), compiled(place.top, "echo", library=False)
    print(f"|microseconds of processor a message|{'|'.join(HEADS)}|\n|---|{'---|' * len(HEADS)}")
    for load in LOADS:
        least = [min(it) for it in zip(*[once(place, ends, echo, load) for _ in range(TRIES)])]
        what = f"{load[0]:,} lines, {load[1]} at once, {load[2]} times a second"
        print(f"|{what}|{'|'.join(f'{it:.1f}' for it in least)}|", flush=True)
    for kind, name in KINDS.items():
        print(f"A line of {name} more, with a link up: {memory(place, ends, kind):,.0f} octets of memory.", flush=True)
