"""The other end of a line, frame by frame, for what no good end does: it sends what it is told to, and answers only what it is
told to answer. It knows Q.921's frames of modulo 128, and nothing of the library."""
import select
import socket
import struct
import time

SABME, DISC, UA, DM, UI, RR, RNR, REJ, XID = 0x6F, 0x43, 0x63, 0x0F, 0x03, 0x01, 0x05, 0x09, 0xAF
POLL, GROUP, MANAGEMENT = 0x10, 127, 63
NAMES = {SABME: "SABME", DISC: "DISC", UA: "UA", DM: "DM", UI: "UI", XID: "XID"}
SUPERVISORY = {RR: "RR", RNR: "RNR", REJ: "REJ"}


class Frame:
    def __init__(self, octets):
        self.octets, self.sapi, self.tei, self.is_first_1 = octets, octets[0] >> 2, octets[1] >> 1, bool(octets[0] & 2)
        control = octets[2]
        self.ns = self.nr = None
        if not control & 1:
            self.kind, self.ns, self.nr, self.poll, self.data = "I", control >> 1, octets[3] >> 1, octets[3] & 1, octets[4:]
        elif control & 3 == 1:
            self.kind, self.nr, self.poll, self.data = SUPERVISORY.get(control, "?"), octets[3] >> 1, octets[3] & 1, b""
        else:
            self.kind, self.poll, self.data = NAMES.get(control & ~POLL, "?"), bool(control & POLL), octets[3:]

    def __repr__(self):
        return f"{self.kind}({self.sapi},{self.tei})"


class Peer:
    """One line. Its side says how commands and responses are marked: the network's commands have 1 in C/R, the user's 0."""

    def __init__(self, path, iid, is_user=True, first=b""):
        self.is_user, self.vs, self.vr, self.heard = is_user, {}, {}, []
        self.socket = socket.socket(socket.AF_UNIX, socket.SOCK_SEQPACKET)
        self.socket.connect(path)
        self.socket.send(struct.pack(">I", iid) + first)

    def __enter__(self):
        return self

    def __exit__(self, *_):
        self.close()

    def close(self):
        self.socket.close()

    def put(self, octets):
        self.socket.send(octets)

    def address(self, sapi, tei, is_command):
        return bytes([sapi << 2 | (is_command != self.is_user) << 1, tei << 1 | 1])

    def command(self, control, sapi=0, tei=0, poll=True, data=b""):
        self.put(self.address(sapi, tei, True) + bytes([control | POLL * poll]) + data)

    def response(self, control, sapi=0, tei=0, final=True):
        self.put(self.address(sapi, tei, False) + bytes([control | POLL * final]))

    def supervise(self, control, sapi=0, tei=0, is_command=False, final=0):
        self.put(self.address(sapi, tei, is_command) + bytes([control, self.vr.get((sapi, tei), 0) << 1 | final]))

    def send(self, data, sapi=0, tei=0):
        """An I-frame."""
        key = sapi, tei
        ns, nr = self.vs.get(key, 0), self.vr.get(key, 0)
        self.put(self.address(sapi, tei, True) + bytes([ns << 1, nr << 1]) + data)
        self.vs[key] = (ns + 1) % 128

    def next(self, timeout=8.0):
        """The next frame; None at the end of the connection."""
        if not select.select([self.socket], [], [], max(0, timeout))[0]:
            raise TimeoutError("no frame")
        try:
            octets = self.socket.recv(512)
        except ConnectionError:
            return None
        if not octets:
            return None
        self.heard.append(octets)
        return Frame(octets) if len(octets) > 2 else octets

    def want(self, *kinds, timeout=8.0):
        """The next frame of one of these kinds, or None; others are passed over."""
        end = time.monotonic() + timeout
        while True:
            try:
                came = self.next(max(0, end - time.monotonic()))
            except TimeoutError:
                return None
            if came is None or isinstance(came, Frame) and came.kind in kinds:
                return came

    def accept(self, timeout=8.0):
        """Answers the gateway's establishment."""
        frame = self.want("SABME", timeout=timeout)
        if frame is not None:
            self.begin(frame.sapi, frame.tei)
            self.response(UA, frame.sapi, frame.tei, frame.poll)
        return frame

    def begin(self, sapi, tei):
        self.vs[sapi, tei] = self.vr[sapi, tei] = 0

    def establish(self, sapi=0, tei=0):
        """Establishes the link by itself."""
        self.begin(sapi, tei)
        self.command(SABME, sapi, tei)
        return self.want("UA")

    def serve(self, seconds, answers=True):
        """Answers as a good end does, for so long; what contents came."""
        came, end = [], time.monotonic() + seconds
        while time.monotonic() < end:
            try:
                frame = self.next(max(0, end - time.monotonic()))
            except TimeoutError:
                break
            if frame is None:
                break
            if isinstance(frame, Frame) and answers:
                self._answer(frame, came)
        return came

    def _answer(self, frame, came):
        key = frame.sapi, frame.tei
        if frame.kind in ("SABME", "DISC"):
            self.begin(*key)
            self.response(UA, *key, frame.poll)
        elif frame.kind == "I":
            if frame.ns == self.vr.get(key, 0):
                self.vr[key] = (frame.ns + 1) % 128
                came.append(frame.data)
            self.supervise(RR, *key, final=frame.poll)
        elif frame.kind in ("RR", "RNR", "REJ") and frame.poll and frame.is_first_1 == self.is_user:
            self.supervise(RR, *key, final=1)

    def manage(self, kind, reference, action):
        """A message of TEI management: kind 1 asks for a TEI, 5 answers a check, 7 verifies."""
        self.put(self.address(MANAGEMENT, GROUP, True) + bytes([UI, 0x0F, reference >> 8, reference & 255, kind, action << 1 | 1]))

    def ask_tei(self, reference=0x1234):
        """Asks for any TEI; that which is assigned."""
        self.manage(1, reference, 127)
        while True:
            frame = self.want("UI")
            if frame is None:
                raise TimeoutError("no TEI is assigned")
            if frame.sapi == MANAGEMENT and frame.data[:4] == bytes([0x0F, reference >> 8, reference & 255, 2]):
                return frame.data[4] >> 1
