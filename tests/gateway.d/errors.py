"""Each cell of the manual's table of errors: what is wrong, in each way, and the code that comes back, once, with the first
identifier of the message and its first octets."""
import re
import struct

import iua
from checks import check
from iua import Association, data, dlci, lines, link, message, number, parameter
from peer import Peer
from program import Gateway, ROOT, group, own_address, section, server

DATA = data(b"\x08\x01\x01\x05")
BASIC, PRIMARY, USER, NOBODY, ABSENT = 0, 100, 200, 300, 5000
UNASSIGNED, GROUP = 99, 127
MOST_DIAGNOSTIC = 40
REQUESTS = ("data-request", "unit-request", "establish-request", "release-request")
OF_GATEWAY = [it for it in iua.TYPES if it.endswith(("-indication", "-confirm", "-ack")) and it != "beat-ack"]


def configuration(*more):
    return [group("basic", BASIC, 4, "basic"), group("primary", PRIMARY, 4, "primary", establish="no"),
            group("user", USER, 2, "primary", side="user", establish="no"), group("nobody", NOBODY, 1, "primary"),
            server("one", 0, 199), server("two", 200, 299, mode="loadshare"), *more]


def answers(own, octets, stream=0):
    """All that comes of these octets: what comes before the answer to a heartbeat that follows them."""
    answers.count += 1
    mark = struct.pack(">I", answers.count)
    own.put(octets, stream)
    own.put(message("beat", parameter(iua.BEAT_DATA, mark)))
    found = []
    while True:
        came = own.next()
        if came is None or came.name == "beat-ack" and came.beat == mark:
            return found + [None] * (came is None)
        found.append(came)


answers.count = 0


def of_request(name, *where):
    """A request of a link, with all that it needs."""
    return message(name, *where, *[DATA] * (name in ("data-request", "unit-request")),
                   *[number(iua.REASON, 0)] * (name == "release-request"))


class Table:
    """What was tried of each sentence of the manual."""

    def __init__(self):
        self.tried = {}

    def expect(self, sentence, what, own, code, octets, stream=0):
        """One error with this code comes back, and nothing else of IUA's management."""
        found = [it for it in answers(own, octets, stream) if it is None or it.kind[0] != iua.QPTM and it.name != "notify"]
        errors = [it for it in found if it is not None and it.name == "error"]
        good = len(errors) == 1 and errors[0].error == code and len(found) == 1
        good = good and errors[0].diagnostic == octets[:MOST_DIAGNOSTIC]
        check(f"error {code}, {sentence}: {what}", good, found)
        self.tried[code, sentence] = self.tried.get((code, sentence), 0) + 1

    def none(self, what, own, octets):
        found = answers(own, octets)
        check(f"no error: {what}", not any(it is None or it.name == "error" for it in found), found)


def sentences_of_manual():
    """(code, sentence) of the manual's table."""
    with open(f"{ROOT}/gateway/lapd-gateway.8", encoding="utf-8") as file:
        table = file.read().partition("\n.Ss Errors\n")[2].partition("\n.Sh ")[0]
    found = set()
    for item in table.split("\n.It ")[1:]:
        head, _, text = item.partition("\n")
        text = text.partition("\n.El")[0]
        for sentence in re.split(r"(?<=\.)\n", text.strip()):
            found.add((int(head.split()[0]), " ".join(sentence.split()).rstrip(".")))
    return found


def versions_and_kinds(table, own):
    beat = message("beat")
    for version in (0, *range(2, 256)):
        table.expect("The version is not 1", version, own, 1, bytes([version]) + beat[1:])
    for kind in {*range(256)} - {0, 3, 4, 5}:
        table.expect("The class is none of 0, 3, 4 and 5", kind, own, 3, message((kind, 1)))
    for kind in (0, 3, 4, 5):
        for of_kind in {*range(256)} - {it for at, it in iua.NAMES if at == kind}:
            table.expect("The class has no such type", (kind, of_kind), own, 4, message((kind, of_kind), link(PRIMARY)))


def before_up(table, own):
    what = "Before ASP Up, any message except ASP Up, ASP Down, Heartbeat and Error"
    for name in {*iua.TYPES} - {"up", "down", "beat", "beat-ack", "error", "notify"}:
        table.expect(what, name, own, 6, of_request(name, link(PRIMARY)) if name in REQUESTS else message(name))
    for name in ("down", "beat", "beat-ack", "error"):
        table.none(f"{name} before ASP Up", own, message(name, *[number(iua.ERROR, 4)] * (name == "error")))


def before_active(table, own):
    for name in (*REQUESTS, "tei-request", "tei-query"):
        table.expect("Of a line, from a process that is not active for its server", name, own, 6, of_request(name, link(PRIMARY)))
    for iids in ([iua.line(ABSENT)], [lines(ABSENT, ABSENT + 3)], [iua.line(NOBODY)], [iua.line(BASIC), iua.line(ABSENT)]):
        for name in ("active", "inactive"):
            table.expect("No line, or no server, has the identifier", (name, iids), own, 2, message(name, *iids))
    for mode in (0, 2, 3, 0xFFFFFFFF):
        table.expect("The mode of an ASP Active is not that of the server", mode, own, 5,
                     message("active", number(iua.MODE, mode), lines(0, 199)))
    for mode in (1, 4):
        table.expect("The mode of an ASP Active is not that of the server", mode, own, 5,
                     message("active", number(iua.MODE, mode), lines(200, 299)))
    for name, more in (("active", ()), ("inactive", ()), ("data-request", (dlci(0, 0), DATA)), ("tei-query", (dlci(0, 127),))):
        table.expect("The message has a text identifier", name, own, 8, message(name, parameter(iua.TEXT, b"trunk-1"), *more))


def lengths(table, own):
    beat, what = message("beat", parameter(iua.BEAT_DATA, b"abcd")), "A length is wrong, or a parameter has a wrong form"
    head = struct.Struct(">BBBBI")
    for length in (0, 7, 8, 12, 15, 17, 20, 0xFFFFFFFF):
        table.expect(what, f"a message says {length}", own, 7, beat[:4] + struct.pack(">I", length) + beat[8:])
    for size in (0, 1, 2, 3, 9, 40, 65535):
        table.expect(what, f"a parameter says {size}", own, 7,
                     head.pack(1, 0, 3, 3, 16) + struct.pack(">HH", iua.BEAT_DATA, size) + b"abcd")
    for octets in range(1, 8):
        table.expect(what, f"{octets} octets", own, 7, beat[:octets])
    table.expect(what, "the head of a parameter is cut", own, 7, head.pack(1, 0, 3, 3, 10) + b"\0\x09")
    wrong = [parameter(iua.IID, b""), parameter(iua.IID, b"abc"), parameter(iua.RANGE, bytes(4)), parameter(iua.RANGE, bytes(7)),
             parameter(iua.RANGE, struct.pack(">II", 2, 1)), parameter(iua.MODE, b"ab"), parameter(iua.MODE, bytes(8))]
    for it in wrong:
        table.expect(what, it.hex(), own, 7, message("active", it))
    for it in (b"", bytes([0, 1]), bytes([1, 1, 0, 0]), bytes([0, 0, 0, 0]), bytes([1, 0, 0, 0]), bytes(5)):
        table.expect(what, f"DLCI {it.hex()}", own, 7, message("data-request", iua.line(PRIMARY), parameter(iua.DLCI, it), DATA))
    for it in (b"", b"abc", bytes(5)):
        table.expect(what, f"a reason {it.hex()}", own, 7, message("release-request", link(PRIMARY), parameter(iua.REASON, it)))
        table.expect(what, f"an identifier {it.hex()}", own, 7, message("up", parameter(iua.IDENTIFIER, it)))


def missing(table, own):
    what = "A parameter is missing: of a request of a link, one identifier, DLCI, and contents of data"
    for name in REQUESTS:
        for left in ((), (iua.line(PRIMARY),), (dlci(0, 0),), (iua.line(PRIMARY), iua.line(PRIMARY + 1), dlci(0, 0)),
                     (lines(PRIMARY, PRIMARY + 1), dlci(0, 0))):
            table.expect(what, (name, left), own, 7, of_request(name, *left))
    for name in REQUESTS[:2]:
        table.expect(what, f"{name} without contents", own, 7, message(name, link(PRIMARY)))
        for octets in (261, 300, 4000):
            table.expect("Contents are longer than n201", f"{name}, {octets}", own, 7,
                         message(name, link(PRIMARY), data(bytes(octets))))
    table.expect(what, "tei-request without DLCI", own, 7, message("tei-request", iua.line(PRIMARY)))


def links(table, own):
    for name in OF_GATEWAY:
        table.expect("A message that only a gateway sends", name, own, 6, of_request(name, link(PRIMARY)))
    for name in (*REQUESTS, "tei-request", "tei-query"):
        table.expect("No line, or no server, has the identifier", name, own, 2, of_request(name, link(ABSENT)))
        table.expect("No line, or no server, has the identifier", f"{name}, a line of no server", own, 2,
                     of_request(name, link(NOBODY)))
    for name in REQUESTS:
        table.expect("The TEI is not on the line", name, own, 10, of_request(name, link(PRIMARY, UNASSIGNED)))
        table.expect("The TEI is not on the line", f"{name} at basic access", own, 10, of_request(name, link(BASIC, 64)))
        for sapi in (1, 12, 62, 63):
            table.expect("The SAPI is neither 0 nor that of the second service", (name, sapi), own, 11,
                         of_request(name, link(PRIMARY, 0, sapi)))
        if name != "unit-request":
            table.expect("The TEI is 127, except for unit data of the network's side", name, own, 12,
                         of_request(name, link(PRIMARY, GROUP)))
    table.expect("The TEI is 127, except for unit data of the network's side", "unit data of the user's side", own, 12,
                 of_request("unit-request", link(USER, GROUP)))
    table.none("unit data for all of a network", own, of_request("unit-request", link(BASIC, GROUP)))


def link_down(table, own, gateway):
    """Data for a link that is down: told once as a release if the server has heard that it is up, else as one error."""
    what = "Data for a link that is down, as above"
    request = of_request("data-request", link(PRIMARY + 1))
    found = answers(own, request)
    check("a link of which the server was told nothing: release", [it.name for it in found] == ["release-indication"], found)
    table.expect(what, "a link of which it was told so", own, 6, request)
    check("a second error for the same link", not answers(own, request), "comes")
    with Peer(gateway.lines, PRIMARY + 1) as peer:
        peer.establish()
        own.want("establish-indication")
        peer.command(0x43)
        own.want("release-indication")
        table.expect(what, "a link that was up", own, 6, request)
        check("a second error after a release", not answers(own, request), "comes")


def up_again(table, own):
    found = [it.name for it in answers(own, message("up")) if it.name != "notify"]
    check("ASP Up from an active process: acknowledged, and error 6", found == ["up-ack", "error"], found)
    table.tried[6, "ASP Up from an active process"] = 1
    table.expect("Of a line, from a process that is not active for its server", "after ASP Up", own, 6,
                 of_request("data-request", link(PRIMARY)))


def order(own):
    """Of two faults the first in the table is told."""
    for name, octets, code in (
            ("1 and 3", b"\x02" + message((9, 1))[1:], 1), ("1 and 7", b"\x02" + message("beat")[1:4] + bytes(4), 1),
            ("3 and 7", message((9, 1))[:4] + bytes(4), 3), ("4 and 7", message((3, 9))[:4] + bytes(4), 4)):
        found = answers(own, octets)
        check(f"the order of errors {name}", [it.error for it in found] == [code], found)


def processes(table, program, folder):
    """Errors 13 to 15, of processes that are configured."""
    here = own_address()
    more = [section("asp known", address=here, identifier=7, servers="one"), section("asp other", address=here, identifier=8),
            section("asp shut", address=here, identifier=9, blocked="yes"),
            section("asp far", address="192.0.2.1", identifier=10)]
    with Gateway(program, folder, *configuration(*more)) as gateway, \
            Association(gateway.iua) as one, Association(gateway.iua) as two:
        table.expect("The configuration asks for an identifier, and ASP Up has none", "", one, 14, message("up"))
        for it in (0, 6, 10, 0xFFFFFFFF):
            table.expect("No process of this address has this identifier, or another association has it", it, one, 15,
                         message("up", number(iua.IDENTIFIER, it)))
        blocked = "The configuration blocks the process, or has none with its address, or not for this server (from memory)"
        table.expect(blocked, "a blocked process", one, 13, message("up", number(iua.IDENTIFIER, 9)))
        check("a process that is configured", one.up(7).name == "up-ack", "is refused")
        table.expect("No process of this address has this identifier, or another association has it", "7 once more", two, 15,
                     message("up", number(iua.IDENTIFIER, 7)))
        table.expect(blocked, "another server", one, 13, message("active", lines(200, 299)))
        found = [it.name for it in answers(one, message("active")) if it.name != "notify"]
        check("active without identifiers: the servers that it may serve", found == ["active-ack"], found)
    far = section("asp far", address="192.0.2.1")
    with Gateway(program, f"{folder}-far", *configuration(far)) as gateway, Association(gateway.iua) as own:
        table.expect(blocked, "another address", own, 13, message("up"))


def errors(place):
    """Each cell of the manual's table of errors."""
    table, log = Table(), place.log
    with Gateway(place.program, place.folder("errors"), *configuration()) as gateway, Association(gateway.iua, log) as own:
        versions_and_kinds(table, own)
        before_up(table, own)
        own.up(5)
        before_active(table, own)
        lengths(table, own)
        order(own)
        own.activate(1, lines(0, 199))
        own.activate(2, lines(200, 299))
        lengths(table, own)
        missing(table, own)
        links(table, own)
        link_down(table, own, gateway)
        up_again(table, own)
        told = gateway.metrics()
        check("errors are counted by their codes", told.get('iua_errors_sent_total{code="3"}', 0) >= 252, told)
    processes(table, place.program, place.folder("errors-processes"))
    wanted = sentences_of_manual() - {(9, "A MGMT or ASPSM message came on another stream than 0")}  # of SCTP alone
    check("the table of errors has 15 codes", len({code for code, _ in wanted}) == 14, wanted)
    check("each cell of the table was tried", set(table.tried) == wanted, sorted(set(table.tried) ^ wanted))
