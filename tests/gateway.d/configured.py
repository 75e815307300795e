"""Configurations: what is good, and each fault with its line."""
import re
import signal

import iua
from checks import check, each
from iua import Association, link
from peer import Peer
from program import ROOT, Gateway, group, run, server

GATEWAY = "[gateway]\nunix = iua\nlines = lines\n"
LINES = "[lines a]\nfirst = 0\ncount = 4\nkind = basic\n"
SERVER = "[server s]\nfirst = 0\nlast = 99\n"
GOOD = GATEWAY + LINES + SERVER
BELOW_LINES, BELOW_SERVER = 8, 11  # the line of a word that stands below

# What is wrong, the line that is told, and a word that it has to have.
FAULTS = [
    ("", 0, "gateway"), (LINES + SERVER, 0, "gateway"), ("x\n" + GOOD, 1, ""), ("x = 1\n" + GOOD, 1, ""),
    (GATEWAY + "[gateway]\n" + LINES, 4, "gateway"),
    (GATEWAY + "[linen a]\n" + LINES, 4, "linen"), (GATEWAY + "[lines]\n", 4, "lines"),
    (GATEWAY + "[lines " + "a" * 32 + "]\nfirst = 0\nkind = basic\n", 4, ""),
    (GOOD + LINES.replace("first = 0", "first = 10"), 11, "a"),
    (GOOD + SERVER.replace("first = 0", "first = 100").replace("99", "199"), 11, "s"),
    (GATEWAY + "colour = red\n" + LINES, 4, "colour"), (GATEWAY + "unix = other\n" + LINES, 4, "unix"),
    ("[gateway]\nunix = iua\n" + LINES, 0, "lines"),
    ("[gateway]\nlines = lines\n" + LINES, 0, ""), (GATEWAY + "port = 0\n" + LINES, 4, "port"),
    (GATEWAY + "port = 65536\n" + LINES, 4, "port"),
    (GATEWAY + "sctp = here\n" + LINES, 4, "sctp"), (GATEWAY + "sctp = 192.0.2.1,,\n" + LINES, 4, "sctp"),
    (GATEWAY + "sctp = " + ", ".join(["192.0.2.1"] * 9) + "\n" + LINES, 4, "sctp"),
    (GATEWAY + "metrics = x\n" + LINES, 4, "metrics"),
    (GATEWAY + "metrics = 70000\n" + LINES, 4, "metrics"), (GATEWAY + "beat = 99\n" + LINES, 4, "beat"),
    (GATEWAY + "beat = 60001\n" + LINES, 4, "beat"),
    (GATEWAY + "# " + "x" * 300 + "\n" + LINES, 4, ""), (GATEWAY + "state =\n" + LINES, 4, "state"), (GATEWAY + SERVER, 0, ""),
    (GATEWAY + "[lines a]\nkind = basic\n", 4, "first"), (GATEWAY + "[lines a]\nfirst = 0\n", 4, "kind"),
    (GATEWAY + LINES.replace("basic", "middling") + SERVER, 7, "kind"),
    (GATEWAY + LINES.replace("first = 0", "first = -1"), 5, "first"),
    (GATEWAY + LINES.replace("first = 0", "first = 4294967296"), 5, "first"),
    (GATEWAY + LINES.replace("first = 0", "first = 0x10"), 5, "first"),
    (GATEWAY + LINES.replace("first = 0", "first = 4294967293"), 5, ""),
    (GATEWAY + LINES.replace("count = 4", "count = 0"), 6, "count"),
    (GATEWAY + LINES.replace("count = 4", "count = 1025"), 6, "count"),
    (GATEWAY + LINES + "[lines b]\nfirst = 3\nkind = basic\n", 9, "identifier"),
    (GATEWAY + LINES + "[lines b]\nfirst = 10\ncount = 1021\nkind = basic\n", 8, "1024"),
    *[(GATEWAY + LINES + f"{name} = {value}\n" + SERVER, BELOW_LINES, name) for name, value in (
        ("side", "middle"), ("driver", "smoke"), ("reading", "annex-c"), ("teis", "64"), ("teis", "1,1"), ("teis", "5-3"),
        ("teis", "0-8"), ("establish", "perhaps"),
        ("terminals", "0"), ("terminals", "9"), ("k", "0"), ("k", "128"), ("k16", "0"), ("k16", "128"), ("queue", "0"),
        ("queue", "128"), ("queue", "2"),
        ("unit-queue", "0"), ("unit-queue", "17"), ("control", "1"), ("control", "17"), ("slots", "0"), ("slots", "8193"),
        ("n201", "7"), ("n201", "261"),
        ("n200", "11"), ("t200", "0"), ("t200", "3600001"), ("t201", "0"), ("t202", "0"), ("t203", "3600001"), ("sapi", "0"),
        ("sapi", "63"), ("device", "1"))],
    (GATEWAY + LINES + "driver = misdn\n" + SERVER, 4, "device"),
    (GATEWAY + LINES + "driver = misdn\ndevice = 1-3\n" + SERVER, 9, "device"),
    (GATEWAY + LINES + "driver = misdn\ndevice = 253-256\n" + SERVER, 9, "device"),
    (GATEWAY + LINES + "side = terminal\nteis = 1\n", 9, "teis"),
    (GATEWAY + LINES + "[server s]\nfirst = 0\n", 8, "last"), (GATEWAY + LINES + "[server s]\nlast = 0\n", 8, "first"),
    (GATEWAY + LINES + "[server s]\nfirst = 5\nlast = 4\n", 10, "last"),
    (GOOD + "[server t]\nfirst = 99\nlast = 120\n", 12, "identifier"),
    *[(GOOD + f"{name} = {value}\n", BELOW_SERVER, name) for name, value in (
        ("mode", "broadcast"), ("pending", "3600001"), ("on-pending", "deny"), ("on-pending", "wait"), ("retain", "2"),
        ("kind", "basic"))],
    (GOOD + "[asp p]\n", 11, ""), (GOOD + "[asp p]\naddress = nowhere\n", 12, "address"),
    (GOOD + "[asp p]\nidentifier = x\n", 12, "identifier"),
    (GOOD + "[asp p]\nidentifier = 1\nservers = t\n", 13, "t"),
    (GOOD + "[asp p]\nidentifier = 1\nblocked = maybe\n", 13, "blocked"),
    (GOOD + "[capture c]\nfile = x\n", 11, "lines"), (GOOD + "[capture c]\nlines = 0\n", 11, ""),
    (GOOD + "[capture c]\nlines = 77\nfile = x\n", 12, "77"),
    (GOOD + "[capture c]\nlines = 0\ngsmtap = x:y\n", 13, "gsmtap"),
    (GOOD + "".join(f"[capture c{it}]\nlines = 0\nfile = x{it}\n" for it in range(9)), 35, ""),
    (GATEWAY + LINES + "".join(f"[server s{it}]\nfirst = {it}\nlast = {it}\n" for it in range(65)), 200, ""),
]


def check_of(place, name, text):
    path = f"{place.folder('configured')}/{name}"
    with open(path, "w", encoding="utf-8") as file:
        file.write(text)
    said = run([place.program, "--check", path])
    return path, said.returncode, said.stdout.decode(), said.stderr.decode()


def faults(place):
    """Each is told in one line, with its line in the file."""
    for at, (text, line, word) in enumerate(FAULTS):
        path, status, out, told = check_of(place, f"fault-{at}", text)
        where = re.escape(path) + (rf":{line}: " if line else r"(?::\d+)?: ")
        good = status == 1 and not out and told.count("\n") == 1 and re.search(rf"{where}.*{re.escape(word)}", told)
        check(f"--check tells of line {line} `{word}` in {text[-60:]!r}", good, (status, told))


def good(place):
    """What is good is said to be so by the status alone; the manual's example is, too."""
    with open(f"{ROOT}/gateway/lapd-gateway.conf.5", encoding="utf-8") as file:
        example = re.search(r"\.Bd -literal.*?\n(.*?)\.Ed", file.read(), re.S)[1]
    whole = GATEWAY + (
        "port = 9901\nsctp = 127.0.0.1, ::1\nmetrics = [::1]:9000\nstate = s\nbeat = 500\nstandby = sb\n; all\n") + LINES + (
        "side = network ; a comment\ndriver = frames\nreading = annex-b\nteis = 0-2, 5\nestablish = no\nterminals = 8\nk = 2\n"
        "k16 = 3\nqueue = 10\nunit-queue = 2\ncontrol = 4\nslots = 100\nn201 = 128\nn200 = 5\nt200 = 1500\nt201 = 1500\n"
        "t202 = 2500\nt203 = 20000\nsapi = 12\n") + SERVER + (
        "mode = loadshare\npending = 0\non-pending = busy\nretain = no\n"
        "[asp p]\naddress = 192.0.2.1, unix\nidentifier = 4294967295\nservers = s\n"
        "blocked = no\n[capture c]\nlines = 0-2\nfile = x\ngsmtap = 127.0.0.1:4730\n")
    for name, text in (("least", GOOD), ("example", example), ("whole", whole),
                       ("comments", GOOD.replace("\n", " ; so\n# more\n"))):
        _, status, out, told = check_of(place, name, text)
        check(f"--check finds nothing in {name}", (status, told) == (0, ""), (status, out, told))


def words(place):
    """The words of the command line."""
    for given, status in ((["--help"], 0), (["--version"], 0), ([], 2), (["--nonsense"], 2), (["--check"], 2), (["a", "b"], 2)):
        said = run([place.program, *given])
        where = said.stderr if status else said.stdout
        check(f"the words {given}", said.returncode == status and where and not (said.stdout if status else said.stderr), said)
    for path in ("/nowhere/conf", place.folder("configured")):
        for more in ([], ["--check"]):
            said = run([place.program, *more, path])
            check(f"{more} of {path}", said.returncode == 1 and said.stderr.count(b"\n") == 1 and path.encode() in said.stderr,
                  said)


def hup(place):
    """SIGHUP takes changes, and leaves the lines that it does not name as they are; a fault changes nothing."""
    one, two = group("one", 0, 2, "primary", establish="no"), group("two", 10, 2, "primary", establish="no")
    with Gateway(place.program, place.folder("configured-hup"), one, two, server("all", 0, 99), beat=10000) as gateway:
        with Association(gateway.iua) as own, Peer(gateway.lines, 0) as kept, Peer(gateway.lines, 10) as changed:
            own.begin(iua.OVERRIDE)
            for it in (kept, changed):
                it.establish()
                own.want("establish-indication")
            gateway.configure(one, group("two", 10, 2, "primary", establish="no", n200=2),
                              group("three", 20, 1, "primary", establish="no"),
                              server("all", 0, 99))
            gateway.process.send_signal(signal.SIGHUP)
            gateway.wait_for("READY=1")
            found = own.want("release-indication")
            check("a group that changed begins anew", found is not None and found.iid == 10, found)
            kept.send(b"still here")
            check("a group that did not change goes on", own.want("data-indication", timeout=1.0).data == b"still here", "")
            with Peer(gateway.lines, 20) as new:
                new.establish()
                check("a new group has lines", own.want("establish-indication").iid == 20, "")
            gateway.configure(one, "[lines two]\nfirst = x\n", server("all", 0, 99))
            gateway.process.send_signal(signal.SIGHUP)
            check("a fault is told", gateway.wait_until(lambda _: f"{gateway.file}:" in gateway.log), gateway.log[-500:])
            kept.send(b"as before")
            check("and nothing changes", own.want("data-indication", timeout=1.0).data == b"as before", "")
            gateway.configure(one, server("all", 0, 99))
            gateway.process.send_signal(signal.SIGHUP)
            gateway.wait_for("READY=1")
            own.send("establish-request", link(20))
            check("a group that is gone has no lines", own.want("error").error == 2, "")
            kept.send(b"at last")
            check("the group that stays has its link", own.want("data-indication", timeout=1.0).data == b"at last", "")
    check("the gateway ends well", gateway.statuses == [0], gateway.statuses)


def configured(place):
    """--check with a table of faults, the command line, and SIGHUP."""
    each(place, faults, good, words, hup)
