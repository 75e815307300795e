"""IUA (RFC 4233) as a server of the gateway has it: messages from and to octets, and associations. It is written apart from
gateway/iua.c, and asks more of a message than a receiver has to: what the gateway sends has no octet too many."""
import select
import socket
import struct
import time

PORT, PAYLOAD, VERSION = 9900, 1, 1
NAMES = {
    (0, 0): "error", (0, 1): "notify", (0, 2): "tei-request", (0, 3): "tei-confirm", (0, 4): "tei-indication", (0, 5): "tei-query",
    (3, 1): "up", (3, 2): "down", (3, 3): "beat", (3, 4): "up-ack", (3, 5): "down-ack", (3, 6): "beat-ack",
    (4, 1): "active", (4, 2): "inactive", (4, 3): "active-ack", (4, 4): "inactive-ack",
    (5, 1): "data-request", (5, 2): "data-indication", (5, 3): "unit-request", (5, 4): "unit-indication",
    (5, 5): "establish-request", (5, 6): "establish-confirm", (5, 7): "establish-indication",
    (5, 8): "release-request", (5, 9): "release-confirm", (5, 10): "release-indication"}
TYPES = {name: key for key, name in NAMES.items()}
MGMT, ASPSM, ASPTM, QPTM = 0, 3, 4, 5
OVERRIDE, LOADSHARE = 1, 2
CHANGED, OTHER = 1, 2                             # kinds of a notification
INACTIVE, ACTIVE, PENDING = 2, 3, 4               # states of a server, as it tells them
INSUFFICIENT, ALTERNATE, FAILED = 1, 2, 3         # other things that it tells
IID, TEXT, INFO, DLCI, DIAGNOSTIC, RANGE, BEAT_DATA, MODE, ERROR, STATUS, DATA, REASON, TEI_STATUS, IDENTIFIER = (
    1, 3, 4, 5, 7, 8, 9, 11, 12, 13, 14, 15, 16, 17)
FIELDS = {MODE: "mode", ERROR: "error", REASON: "reason", TEI_STATUS: "tei_status", IDENTIFIER: "identifier"}
FAMILY_SCTP, SOL_SCTP = 132, 132
SCTP_INITMSG, SCTP_NODELAY, SCTP_RECVRCVINFO, SCTP_SNDINFO, SCTP_RCVINFO = 2, 3, 32, 2, 3
STREAMS, MOST_OCTETS = 65, 8192


class Bad(Exception):
    """Octets that the gateway may not send."""


# ---- Messages to octets ----------------------------------------------------------------------------------------------

def parameter(tag, value):
    return struct.pack(">HH", tag, 4 + len(value)) + value + bytes(-len(value) % 4)


def number(tag, value):
    return parameter(tag, struct.pack(">I", value))


def line(iid):
    return number(IID, iid)


def lines(first, last):
    return parameter(RANGE, struct.pack(">II", first, last))


def dlci(sapi, tei):
    return parameter(DLCI, bytes([sapi << 2, tei << 1 | 1, 0, 0]))


def link(iid, tei=0, sapi=0):
    return line(iid) + dlci(sapi, tei)


def data(octets):
    return parameter(DATA, octets)


def message(name, *parameters):
    """A message by its name, or by its class and type."""
    kind, body = TYPES.get(name, name), b"".join(parameters)
    return struct.pack(">BBBBI", VERSION, 0, *kind, 8 + len(body)) + body


# ---- Octets to messages ----------------------------------------------------------------------------------------------

class Message:
    """A message that came; what it does not have is None."""

    def __init__(self, octets, stream=0, payload=PAYLOAD):
        self.octets, self.stream, self.payload = octets, stream, payload
        self.iid = self.range = self.sapi = self.tei = self.data = self.beat = self.status = self.diagnostic = None
        self.mode = self.error = self.reason = self.tei_status = self.identifier = None
        if len(octets) < 8:
            raise Bad(f"{len(octets)} octets")
        version, reserved, *kind, length = struct.unpack_from(">BBBBI", octets)
        if version != VERSION or reserved or length != len(octets) or tuple(kind) not in NAMES:
            raise Bad(f"the head of {octets.hex()}")
        self.name, self.kind = NAMES[tuple(kind)], tuple(kind)
        self.tags = []
        at = 8
        while at < len(octets):
            at = self._take(at)
        if self.kind[0] == QPTM and self.tags[:2] != [IID, DLCI]:
            raise Bad(f"{self.name} has {self.tags}")

    def _take(self, at):
        """One parameter; where the next begins."""
        if at + 4 > len(self.octets):
            raise Bad(f"a parameter is cut in {self.octets.hex()}")
        tag, size = struct.unpack_from(">HH", self.octets, at)
        value, end = self.octets[at + 4:at + size], at + (size + 3) // 4 * 4
        if size < 4 or end > len(self.octets) or any(self.octets[at + size:end]):
            raise Bad(f"a parameter of {size} octets in {self.octets.hex()}")
        if tag in self.tags and tag not in (IID, RANGE):
            raise Bad(f"{self.name} has the parameter {tag} twice")
        self.tags.append(tag)
        self._set(tag, value)
        return end

    def _set(self, tag, value):
        if tag in FIELDS:
            setattr(self, FIELDS[tag], *struct.unpack(">I", value))
        elif tag == IID:
            self.iid, = struct.unpack(">I", value)
        elif tag == RANGE:
            self.range = [*(self.range or ()), struct.unpack(">II", value)]
        elif tag == DLCI:
            if len(value) != 4 or value[0] & 1 or not value[1] & 1 or any(value[2:]):
                raise Bad(f"a DLCI of {value.hex()}")
            self.sapi, self.tei = value[0] >> 2, value[1] >> 1
        elif tag == STATUS:
            self.status = struct.unpack(">HH", value)
        elif tag in (DATA, BEAT_DATA, DIAGNOSTIC):
            setattr(self, {DATA: "data", BEAT_DATA: "beat", DIAGNOSTIC: "diagnostic"}[tag], value)
        elif tag != INFO:
            raise Bad(f"{self.name} has a parameter {tag}")

    def __repr__(self):
        names = ("iid", "range", "sapi", "tei", "reason", "error", "status", "tei_status", "mode", "data")
        return f"{self.name}({', '.join(f'{it}={getattr(self, it)}' for it in names if getattr(self, it) is not None)})"


# ---- Associations ----------------------------------------------------------------------------------------------------

def sctp_to(host, port):
    """A socket of SCTP, associated."""
    found = socket.getaddrinfo(host, port, type=socket.SOCK_STREAM)[0]
    own = socket.socket(found[0], socket.SOCK_STREAM, FAMILY_SCTP)
    own.setsockopt(SOL_SCTP, SCTP_INITMSG, struct.pack("HHHH", STREAMS, STREAMS, 0, 0))
    own.setsockopt(SOL_SCTP, SCTP_NODELAY, 1)
    own.setsockopt(SOL_SCTP, SCTP_RECVRCVINFO, 1)
    own.connect(found[4])
    return own


class Association:
    """With the gateway at WHERE: the path of its Unix socket, or HOST:PORT of SCTP. `log` keeps messages of both ways with
    their stream, as (is ours, stream, octets), and BEAT is answered as long as `answers`."""

    def __init__(self, where, log=None):
        self.is_sctp, self.log, self.answers, self.beats = not where.startswith(("/", ".")), log, True, 0
        if self.is_sctp:
            host, _, port = where.rpartition(":")
            self.socket = sctp_to(host.strip("[]"), int(port))
        else:
            self.socket = socket.socket(socket.AF_UNIX, socket.SOCK_SEQPACKET)
            self.socket.connect(where)

    def __enter__(self):
        return self

    def __exit__(self, *_):
        self.close()

    def close(self):
        self.socket.close()

    def put(self, octets, stream=0, payload=PAYLOAD):
        """Sends octets, whatever they are."""
        if self.log is not None:
            self.log.append((True, stream, octets))
        if self.is_sctp:
            info = struct.pack("=HHIII", stream, 0, socket.htonl(payload), 0, 0)
            self.socket.sendmsg([octets], [(SOL_SCTP, SCTP_SNDINFO, info)])
        else:
            self.socket.send(octets)

    def send(self, name, *parameters):
        """Sends a message on its stream: 0 for management, else one that the line chooses."""
        is_of_line = TYPES.get(name, name)[0] == QPTM and self.is_sctp
        stream = 1 + struct.unpack_from(">I", parameters[0], 4)[0] % (STREAMS - 1) if is_of_line else 0
        self.put(message(name, *parameters), stream)

    def next(self, timeout=10.0):
        """The next message except of BEAT, or None at the end of the association. TimeoutError if none comes."""
        end = time.monotonic() + timeout
        while True:
            if not select.select([self.socket], [], [], max(0, end - time.monotonic()))[0]:
                raise TimeoutError("no message")
            try:
                came = self._receive()
            except ConnectionError:
                return None
            if came is None or came.name != "beat":
                return came
            self.beats += 1
            try:
                if self.answers:
                    self.send("beat-ack", parameter(BEAT_DATA, came.beat))
            except OSError:
                pass  # the gateway shuts the association: what it has sent still comes

    def _receive(self):
        stream, payload = 0, PAYLOAD
        if self.is_sctp:
            octets, control, _, _ = self.socket.recvmsg(MOST_OCTETS, 256)
            for level, kind, value in control:
                if (level, kind) == (SOL_SCTP, SCTP_RCVINFO):
                    stream, _, _, payload = struct.unpack_from("=HHHxxI", value)
                    payload = socket.ntohl(payload)
        else:
            octets = self.socket.recv(MOST_OCTETS)
        if not octets:
            return None
        if self.log is not None:
            self.log.append((False, stream, octets))
        return Message(octets, stream, payload)

    def want(self, *names, timeout=10.0, passed=None):
        """The next message of one of these names; None at the end, or if none comes. Others are passed over, into a list if there
        is one."""
        end = time.monotonic() + timeout
        while True:
            try:
                came = self.next(max(0, end - time.monotonic()))
            except TimeoutError:
                return None
            if came is None or came.name in names:
                return came
            if passed is not None:
                passed.append(came)

    def quiet(self, seconds):
        """What comes in so many seconds."""
        passed = []
        self.want("nothing", timeout=seconds, passed=passed)
        return passed

    def has_ended(self, timeout=5.0):
        """Whether the gateway ends the association; what comes before is passed over."""
        try:
            while self.next(timeout) is not None:
                pass
        except TimeoutError:
            return False
        return True

    def up(self, identifier=None):
        self.send("up", *[number(IDENTIFIER, it) for it in [identifier] if it is not None])
        return self.want("up-ack", "error")

    def activate(self, mode=None, *parameters):
        self.send("active", *[number(MODE, it) for it in [mode] if it is not None], *parameters)
        return self.want("active-ack", "error")

    def begin(self, mode=None, identifier=None):
        """Up and active, for all that is configured."""
        self.up(identifier)
        return self.activate(mode)
