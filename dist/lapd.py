"""LAPD for line cards (ITU-T Q.921, modulo 128), over the shared library that tools/install leaves, or one of lapd.c.

    import lapd

    with lapd.TimedFrameCard(lapd.BASIC_ACCESS) as card:        # or a Config of one's own
        card.assign(0, 64)
        sabme = bytes.fromhex("00817F")                         # a frame of TEI 64, and its moment:
        for report in card.at(5000, card.frame, 0, sabme):      # what is due by then, and then the frame
            print([str(note) for note in report.notes])         # ['establish-indication']
        octets, report = card.next_frame(0)                     # UA: 008173
        for report in card.fall_due(now=15000):                 # T203: the terminal is asked whether it is still there
            octets, report = card.next_frame(report.line)       # RR, P=1: 02810101

lapd.h says of each call what it does. Here a card is a `TimedCard` (for octets) or a `TimedFrameCard` (for frames), which keep
their own timers, or a `Card` or a `FrameCard`, whose orders go to a `Clock` or to timers of the program's. A wrong call or a
refused request raises an `Error` with its `Status`, and what an event led to comes as a `Report` of its own; a number that
the call can't be handed raises a ValueError. Cards and clocks end with their `with`, or by `close`. A card or a clock is used
by one thread at a time.

Words stand in the order of C. So `lapd_data(&card, line, LAPD_PACKET, 64, contents, length, &report)` is
`card.data(line, Service.PACKET, 64, contents)`. By name the service may be left out, and is Service.CALL then:
`card.data(line, tei=64, contents=contents)`. What is `note.note` in C is `note.kind`, and `note.note` too; so it is with a
timer and an order.

A report counts the contents that a link gave up, the newest ones. On a card that keeps its own timers this sends them again,
and LAYER3.md says what may come twice:

    LATER = (lapd.Status.REFUSED_WRONG_STATE, lapd.Status.REFUSED_QUEUE_FULL, lapd.Status.REFUSED_POOL_FULL)

    class Outbox:
        def __init__(self, card, *link):                        # line, service and TEI
            self.card, self.link = card, link
            self.granted, self.waiting = collections.deque(maxlen=127), collections.deque()

        def gave_up(self, report):                              # each report
            line, service, tei = self.link
            if (report.line, report.given_up_tei) == (line, tei):
                for _ in range(report.given_up if service is lapd.Service.CALL else report.given_up_16):
                    self.waiting.appendleft(self.granted.pop())

        def send_waiting(self):                                 # after each report, and as a message is put in `waiting`
            try:
                while self.waiting:
                    self.card.data(*self.link, self.waiting[0])
                    self.granted.append(self.waiting.popleft())
            except lapd.Refused as why:
                if why.status not in LATER:                     # otherwise until a later report
                    raise

The library is the file that LAPD_LIBRARY names in the environment; else ../../lib/liblapd.so.1 beside this file, as it is
installed; else liblapd.so.1 in this file's folder; else liblapd.so.1 where the system looks.
"""
import ctypes
import dataclasses
import enum
import functools
import os
from typing import Any, Callable, Dict, Iterator, List, NamedTuple, Optional, Tuple, Type, TypeVar

# ---- Numbers of lapd.h ---------------------------------------------------------------------------------------------------


class Status(enum.IntEnum):
    """What a call answers; a later library may have more."""

    # tools/names: LAPD_OK
    OK = 0
    REFUSED_BAD_TEI = 1
    REFUSED_NO_LINK = 2
    REFUSED_WRONG_STATE = 3
    REFUSED_TOO_LONG = 4
    REFUSED_QUEUE_FULL = 5
    REFUSED_POOL_FULL = 6
    REFUSED_TEI_TAKEN = 7
    REFUSED_TABLE_FULL = 8
    REFUSED_CHECK_RUNNING = 9
    REFUSED_CONTROL_FULL = 10
    REFUSED_WRONG_SIDE = 29
    NO_CARD = 11
    NO_CLOCK = 12
    SECOND_START = 13
    WRONG_LINE = 14
    WRONG_SERVICE = 15
    WRONG_TEI = 16
    WRONG_TIMER = 17
    WRONG_REQUEST = 18
    WRONG_LENGTH = 19
    WRONG_ORDER = 20
    WRONG_TIME = 21
    WRONG_POINTER = 30
    NO_MEMORY = 22
    NO_TIMER = 23
    NO_PLACE = 24
    NO_MORE_LINKS = 25
    WRONG_CARD = 26
    WRONG_CAUSE = 27
    NO_FRAME = 28
    BAD_LINES = 33
    BAD_TERMINALS = 34
    BAD_K = 35
    BAD_K16 = 36
    BAD_QUEUE = 37
    BAD_UNIT_QUEUE = 38
    BAD_CONTROL = 39
    BAD_SLOTS = 40
    BAD_N201 = 41
    BAD_N200 = 42
    BAD_SIDE = 43
    BAD_SAPI = 44
    BAD_READING = 45
    BAD_RESERVED = 47
    BAD_IMAGE = 46
    FRAME_SHORT = 48
    FRAME_EXTENSION = 49
    FRAME_UNDEFINED = 50
    FRAME_SIZE = 51
    # tools/names: end

    @classmethod
    def _missing_(cls, value: Any) -> Optional["Status"]:
        if not isinstance(value, int) or value < 0:
            return None
        later = int.__new__(cls, value)
        later._name_, later._value_ = f"STATUS_{value}", value
        return later


class Side(enum.IntEnum):
    # tools/names: LAPD_NETWORK
    NETWORK = 0
    USER = 1
    TERMINAL = 2
    # tools/names: end


class Reading(enum.IntEnum):
    # tools/names: LAPD_PROFILE
    PROFILE = 0
    ANNEX_B = 1
    # tools/names: end


class Service(enum.IntEnum):
    # tools/names: LAPD_CALL
    CALL = 0
    PACKET = 16
    # tools/names: end


class NoteKind(enum.IntEnum):
    # tools/names: LAPD_ESTABLISH_INDICATION
    ESTABLISH_INDICATION = 1
    ESTABLISH_CONFIRM = 2
    RELEASE_INDICATION = 3
    RELEASE_CONFIRM = 4
    DATA_INDICATION = 5
    UNIT_INDICATION = 6
    ERROR_INDICATION = 7
    ASSIGNED = 8
    REMOVED = 9
    DOUBLED = 10
    XID_INDICATION = 11
    DENIED = 12
    UNASSIGNED = 13
    REMOVE_ALL = 14
    # tools/names: end


class TimerKind(enum.IntEnum):
    # tools/names: LAPD_T200
    T200 = 1
    T203 = 2
    T201 = 3
    T202 = 4
    # tools/names: end


class OrderKind(enum.IntEnum):
    # tools/names: LAPD_START
    START = 1
    STOP = 2
    # tools/names: end


class Cause(enum.IntEnum):
    """Why a frame, or what stood for one, was dropped."""

    # tools/names: LAPD_ABORT
    ABORT = 1
    RAGGED = 2
    SHORT = 3
    FCS = 4
    EXTENSION = 5
    SAPI = 6
    TEI = 7
    UNSERVED = 8
    # tools/names: end

    def __str__(self) -> str:
        return _text(library().lapd_cause_text(self))


class FrameKind(enum.IntEnum):
    """The frames of table 5."""

    # tools/names: LAPD_KIND_I
    KIND_I = 1
    KIND_RR = 2
    KIND_RNR = 3
    KIND_REJ = 4
    KIND_SABME = 5
    KIND_DISC = 6
    KIND_UI = 7
    KIND_UA = 8
    KIND_DM = 9
    KIND_FRMR = 10
    KIND_XID = 11
    # tools/names: end


class Request(enum.IntEnum):
    # tools/names: LAPD_ESTABLISH
    ESTABLISH = 1
    RELEASE = 2
    DATA = 3
    UNIT = 4
    ASSIGN = 5
    REMOVE = 6
    CHECK = 7
    BUSY = 8
    READY = 9
    DEACTIVATE = 10
    DOWN = 11
    DISOWN = 12
    ASK_TEI = 13
    VERIFY_TEI = 14
    # tools/names: end


class State(enum.IntEnum):
    """Of a link; NONE where the TEI is not on the line."""

    NONE = 0
    TEI_ASSIGNED = 4
    AWAITING_ESTABLISHMENT = 5
    AWAITING_RELEASE = 6
    ESTABLISHED = 7
    TIMER_RECOVERY = 8


# tools/names: LAPD_GROUP_TEI
GROUP_TEI = 127
MOST_NOTES = 4
MOST_ORDERS = 4
MOST_OCTETS = 260
MOST_FRAME = 264
MOST_LINES = 64
MOST_TEXT = 592
# tools/names: end
# tools/names: LAPD_COUNTERS
COUNTERS = 79
# tools/names: end

# What stands for a TEI in a report that gives nothing up.
_NO_TEI = 255

# ---- Structs of lapd.h ---------------------------------------------------------------------------------------------------


class _Config(ctypes.Structure):
    # tools/names: lapd_config
    _fields_ = [("lines", ctypes.c_uint16), ("terminals", ctypes.c_uint16), ("k", ctypes.c_uint16),
                ("k16", ctypes.c_uint16), ("queue", ctypes.c_uint16), ("unit_queue", ctypes.c_uint16),
                ("control", ctypes.c_uint16), ("slots", ctypes.c_uint16), ("n201", ctypes.c_uint16),
                ("n200", ctypes.c_uint16), ("side", ctypes.c_uint16), ("seed", ctypes.c_uint16), ("sapi", ctypes.c_uint16),
                ("reading", ctypes.c_uint16), ("reserved", ctypes.c_uint16 * 18)]
    # tools/names: end


class _Note(ctypes.Structure):
    # tools/names: lapd_note
    _fields_ = [("note", ctypes.c_uint8), ("service", ctypes.c_uint8), ("tei", ctypes.c_uint8), ("error", ctypes.c_uint8),
                ("reserved", ctypes.c_uint8 * 4)]
    # tools/names: end


class _Timer(ctypes.Structure):
    # tools/names: lapd_timer
    _fields_ = [("timer", ctypes.c_uint8), ("service", ctypes.c_uint8), ("tei", ctypes.c_uint8)]
    # tools/names: end


class _Order(ctypes.Structure):
    # tools/names: lapd_order
    _fields_ = [("order", ctypes.c_uint8), ("timer", _Timer)]
    # tools/names: end


class _Report(ctypes.Structure):
    # tools/names: lapd_report
    _fields_ = [("note_count", ctypes.c_uint8), ("order_count", ctypes.c_uint8), ("cause", ctypes.c_uint8),
                ("lost", ctypes.c_uint8), ("begun", ctypes.c_uint8), ("delivered", ctypes.c_uint8),
                ("length", ctypes.c_uint16), ("notes", _Note * 4), ("orders", _Order * 4),
                ("contents", ctypes.c_uint8 * 260), ("more", ctypes.c_uint8), ("expired", _Timer),
                ("reopened", ctypes.c_uint8), ("reopened_service", ctypes.c_uint8), ("reopened_tei", ctypes.c_uint8),
                ("line", ctypes.c_uint16), ("given_up", ctypes.c_uint8), ("given_up_16", ctypes.c_uint8),
                ("given_up_tei", ctypes.c_uint8), ("reserved", ctypes.c_uint8 * 15)]
    # tools/names: end


class _Lengths(ctypes.Structure):
    # tools/names: lapd_lengths
    _fields_ = [("t200", ctypes.c_uint32), ("t203", ctypes.c_uint32), ("t201", ctypes.c_uint32), ("t202", ctypes.c_uint32),
                ("reserved", ctypes.c_uint32 * 4)]
    # tools/names: end


class _Handle(ctypes.Structure):
    """A card or a clock; zeroed it is none."""

    # tools/names: lapd_card
    _fields_ = [("started", ctypes.c_bool), ("at", ctypes.c_void_p)]
    # tools/names: end


class _Link(ctypes.Structure):
    # tools/names: lapd_link
    _fields_ = [("service", ctypes.c_uint8), ("tei", ctypes.c_uint8), ("state", ctypes.c_uint8),
                ("reserved", ctypes.c_uint8 * 5)]
    # tools/names: end


class _Room(ctypes.Structure):
    # tools/names: lapd_room
    _fields_ = [("pool", ctypes.c_uint32), ("queue", ctypes.c_uint8), ("va", ctypes.c_uint8),
                ("reserved", ctypes.c_uint8 * 10)]
    # tools/names: end


class _Head(ctypes.Structure):
    # tools/names: lapd_head
    _fields_ = [("length", ctypes.c_uint16), ("octets", ctypes.c_uint8 * 4), ("reserved", ctypes.c_uint8 * 2)]
    # tools/names: end


class _Fields(ctypes.Structure):
    # tools/names: lapd_fields
    _fields_ = [("kind", ctypes.c_uint8), ("command", ctypes.c_uint8), ("sapi", ctypes.c_uint8), ("tei", ctypes.c_uint8),
                ("bit", ctypes.c_uint8), ("ns", ctypes.c_uint8), ("nr", ctypes.c_uint8), ("start", ctypes.c_uint8),
                ("info", ctypes.c_uint16), ("reserved", ctypes.c_uint8 * 6)]
    # tools/names: end


class _Counters(ctypes.Structure):
    # tools/names: lapd_counters
    _fields_ = [("values", ctypes.c_uint64 * 79), ("reserved", ctypes.c_uint64 * 17)]
    # tools/names: end


class _LinkCounters(ctypes.Structure):
    # tools/names: lapd_link_counters
    _fields_ = [("sent_again", ctypes.c_uint16), ("t200_expired", ctypes.c_uint16), ("rejects_sent", ctypes.c_uint16),
                ("rejects_received", ctypes.c_uint16), ("established", ctypes.c_uint16), ("reserved", ctypes.c_uint16 * 11)]
    # tools/names: end


class _Due(ctypes.Structure):
    # tools/names: lapd_due
    _fields_ = [("line", ctypes.c_uint32), ("timer", _Timer), ("reserved", ctypes.c_uint8 * 9)]
    # tools/names: end


# ---- The library ---------------------------------------------------------------------------------------------------------

_AT = ctypes.c_void_p  # a struct by reference, or octets
_U8, _U32, _U64, _SIZE = ctypes.c_uint8, ctypes.c_uint32, ctypes.c_uint64, ctypes.c_size_t
# What each function takes; but for those of _ANSWERS it answers a status.
_TAKES: Dict[str, List[Any]] = {
    "lapd_version": [], "lapd_image_octets": [_AT],
    "lapd_card_start": [_AT, _AT], "lapd_card_start_frames": [_AT, _AT], "lapd_card_free": [_AT],
    "lapd_card_start_timed": [_AT, _AT, _AT], "lapd_card_start_frames_timed": [_AT, _AT, _AT],
    "lapd_card_save": [_AT, _AT, _SIZE, _AT], "lapd_card_restore": [_AT, _AT, _SIZE],
    "lapd_fall_due": [_AT, _U64, _AT], "lapd_next_moment": [_AT, _AT], "lapd_card_set_lengths": [_AT, _AT],
    "lapd_changed_at": [_AT, _U32, _U8, _U8, _AT], "lapd_now": [_AT, _AT],
    "lapd_octet": [_AT, _U32, _U8, _AT], "lapd_pull": [_AT, _U32, _AT, _AT],
    "lapd_exchange": [_AT, _U32, _AT, _SIZE, _AT, _SIZE, _AT, _AT],
    "lapd_frame": [_AT, _U32, _AT, _SIZE, _AT], "lapd_frame_failed": [_AT, _U32, _U8, _AT],
    "lapd_next_frame": [_AT, _U32, _AT, _SIZE, _AT, _AT], "lapd_next_waiting": [_AT, _U32, _AT],
    "lapd_expire": [_AT, _U32, _AT, _AT],
    "lapd_request_with": [_AT, _U32, _U8, _U8, _U8, _AT, _SIZE, _AT], "lapd_line_down": [_AT, _U32, _AT, _AT],
    "lapd_state": [_AT, _U32, _U8, _U8, _AT], "lapd_next_link": [_AT, _U32, _AT, _AT],
    "lapd_room": [_AT, _U32, _U8, _U8, _AT], "lapd_begun": [_AT, _U32, _AT], "lapd_heard": [_AT, _U32, _AT],
    "lapd_begun_frame": [_AT, _U32, _AT, _SIZE, _AT], "lapd_heard_frame": [_AT, _U32, _AT, _SIZE, _AT],
    "lapd_counters": [_AT, _U32, _AT], "lapd_stored": [_AT, _AT], "lapd_limit": [_AT, _AT], "lapd_lines": [_AT, _AT],
    "lapd_link_counters": [_AT, _U32, _U8, _U8, _AT],
    "lapd_clock_start": [_AT, _AT], "lapd_clock_set_lengths": [_AT, _U32, _U32, _U32, _U32], "lapd_clock_free": [_AT],
    "lapd_clock_apply_report": [_AT, _U32, _AT, _U64], "lapd_clock_due": [_AT, _U64, _AT], "lapd_clock_next": [_AT, _AT],
    "lapd_clock_save": [_AT, _AT, _SIZE, _AT], "lapd_clock_restore": [_AT, _AT, _SIZE],
    "lapd_status_text": [_U32], "lapd_note_text": [_AT], "lapd_note_text_of": [_AT, _AT, _AT, _SIZE],
    "lapd_cause_text": [_U8], "lapd_counter_text": [_U32],
    "lapd_turned": [_U8], "lapd_frame_text": [_AT, _SIZE, ctypes.c_uint16, _AT, _SIZE],
    "lapd_frame_read": [_AT, _SIZE, ctypes.c_uint16, _AT],
}
_ANSWERS: Dict[str, Any] = {**{f"lapd_{it}_text": ctypes.c_char_p for it in ("status", "note", "cause", "counter")},
                            "lapd_turned": ctypes.c_uint8, "lapd_version": ctypes.c_uint32, "lapd_image_octets": ctypes.c_uint32}


def _path() -> str:
    folder, name = os.path.dirname(os.path.abspath(__file__)), "liblapd.so.1"
    beside = [os.path.join(folder, *it, name) for it in (("..", "..", "lib"), ())]
    return os.environ.get("LAPD_LIBRARY") or next(filter(os.path.exists, beside), name)


@functools.lru_cache(None)
def library() -> ctypes.PyDLL:
    """The shared library, with each function as lapd.h declares it. OSError: it is not found, or older than this file."""
    found = ctypes.PyDLL(_path())  # one call at a time: none lasts
    for name, takes in _TAKES.items():
        function = getattr(found, name, None)
        if function is None:
            raise OSError(f"{_path()} has no {name}: it is older than lapd.py")
        function.argtypes, function.restype = takes, _ANSWERS.get(name, ctypes.c_uint32)
    return found


def _text(of: bytes) -> str:
    return of.decode("ascii")


def version() -> Tuple[int, int]:
    """The library's major and minor number."""
    major, minor = divmod(library().lapd_version(), 1000)
    return major, minor


class Error(Exception):
    """A call that answered another status than OK: nothing has changed by it, but for NO_PLACE of `Clock.apply`."""

    def __init__(self, status: Status) -> None:
        super().__init__(_text(library().lapd_status_text(status)))
        self.status = status

    def __reduce__(self) -> Any:
        return type(self), (self.status,)


class Refused(Error):
    """A request that was refused."""


def _whole(kind: Any, number: int) -> int:
    """A number for a kind of numbers, which ctypes alone would cut to its bits."""
    if kind(number).value != number:
        raise ValueError(f"{number} is not in 0 to {kind(-1).value}")
    return number


def _call(name: str, *words: Any) -> None:
    function = getattr(library(), name)
    status = Status(function(*(it if kind is _AT else _whole(kind, it) for kind, it in zip(_TAKES[name], words))))
    if status != Status.OK:
        raise (Refused if status.name.startswith("REFUSED") else Error)(status)


def _unless(empty: Status, name: str, *words: Any) -> bool:
    """Whether a call did what it says; False where it says that there is nothing."""
    try:
        _call(name, *words)
    except Error as fault:
        if fault.status != empty:
            raise
        return False
    return True


def turned(octets: bytes) -> bytes:
    """Each octet with its bits turned round, bit 1 as bit 8: for a controller that has the bit that came first as bit 8."""
    return _octets(octets).translate(_turned())


def frame_read(octets: bytes, side: Side = Side.USER) -> "Fields":
    """What octets say as a frame, without a check, as a side sent them, by the grammar by which a card reads. If they are none, an
    Error says why: FRAME_SHORT, FRAME_EXTENSION, FRAME_UNDEFINED or FRAME_SIZE."""
    octets, told = _octets(octets), _Fields()
    _call("lapd_frame_read", octets, len(octets), side, ctypes.byref(told))
    kind = FrameKind(told.kind)
    ns, nr = (told.ns if kind is FrameKind.KIND_I else None), (told.nr if kind <= FrameKind.KIND_REJ else None)
    return Fields(kind, bool(told.command), told.sapi, told.tei, bool(told.bit), ns, nr, octets[told.start:])


def frame_text(octets: bytes, side: Side = Side.USER) -> str:
    """What octets say, without a check, as a side sent them: the first line that `lapdsim frame` prints of them, and after it a
    message of TEI management in words."""
    octets = _octets(octets)
    text = ctypes.create_string_buffer(2 * len(octets) + 72)
    _call("lapd_frame_text", octets, len(octets), side, text, len(text))
    return _text(text.value)


@functools.lru_cache(None)
def _turned() -> bytes:
    return bytes(library().lapd_turned(octet) for octet in range(256))


# ---- What is told --------------------------------------------------------------------------------------------------------


@dataclasses.dataclass(frozen=True)
class Config:
    """How large a card is, and the limits of its lines and links, as lapd.h says at lapd_config, in its order. A terminal's
    seed is at random, as of random.randrange(65536)."""

    # tools/names: config
    lines: int
    terminals: int
    k: int
    k16: int
    queue: int
    unit_queue: int
    control: int
    slots: int
    n201: int
    n200: int
    side: Side = Side.NETWORK
    seed: int = 0
    sapi: int = 0
    reading: Reading = Reading.PROFILE
    # tools/names: end

    def _raw(self) -> _Config:
        """A number that no field of the C struct holds is told as the largest, which is in no range, except of the seed: there
        each number is in range, and another raises a ValueError."""
        _whole(ctypes.c_uint16, self.seed)
        words = dataclasses.asdict(self)
        return _Config(**{name: it if 0 <= it <= 0xFFFF else 0xFFFF for name, it in words.items()})

    def image_octets(self) -> int:
        """How many octets the image of such a card or clock has at most; 0 if no card starts so."""
        octets: int = library().lapd_image_octets(ctypes.byref(self._raw()))
        return octets


# One line, as the network's side; as lapd.h says at LAPD_BASIC_ACCESS. Others are dataclasses.replace(BASIC_ACCESS, lines=4, ..).
# tools/names: usual_configs
BASIC_ACCESS = Config(lines=1, terminals=8, k=1, k16=3, queue=8, unit_queue=4, control=4, slots=132, n201=260, n200=3,
                      reading=Reading.ANNEX_B)
PRIMARY_RATE = Config(lines=1, terminals=1, k=7, k16=7, queue=8, unit_queue=4, control=4, slots=20, n201=260, n200=3,
                      reading=Reading.ANNEX_B)
# tools/names: end


class Note(NamedTuple):
    """A note for layer 3 or management. As a string it is its name in docs/FORMAT.md."""

    kind: NoteKind
    service: Service
    tei: int
    error: str  # of an error indication its letter, else empty

    @property
    def note(self) -> NoteKind:
        """Its kind, by its name in C."""
        return self.kind

    def __str__(self) -> str:
        return _text(library().lapd_note_text(ctypes.byref(self._raw())))

    def text(self, config: Config) -> str:
        """Its name, with the SAPI of a packet link in place of -16, at a card of this configuration."""
        text = ctypes.create_string_buffer(32)
        _call("lapd_note_text_of", ctypes.byref(self._raw()), ctypes.byref(config._raw()), text, len(text))
        return _text(text.value)

    def _raw(self) -> _Note:
        return _Note(self.kind, self.service, self.tei, 0)


class Timer(NamedTuple):
    kind: TimerKind
    service: Service
    tei: int

    @property
    def timer(self) -> TimerKind:
        """Its kind, by its name in C."""
        return self.kind


class Order(NamedTuple):
    kind: OrderKind
    timer: Timer

    @property
    def order(self) -> OrderKind:
        """Its kind, by its name in C."""
        return self.kind


class Report(NamedTuple):
    """What an event led to; false where that is nothing."""

    notes: Tuple[Note, ...] = ()
    orders: Tuple[Order, ...] = ()
    cause: Optional[Cause] = None
    lost: int = 0
    begun: bool = False
    contents: Optional[bytes] = None  # of a data or a unit indication
    more: bool = False  # of the next frame: whether another waits on its line
    reopened: Optional[Tuple[Service, int]] = None  # a link, with its TEI, that was refused contents and has room again
    # A release that is granted tells it in its own report.
    given_up: int = 0  # the latest so many contents that were granted for call control are given up, 0 to 127
    given_up_16: int = 0  # the same of the second service
    given_up_tei: Optional[int] = None  # the TEI of these links; None if both numbers are 0
    line: int = 0  # at which the event happened
    expired: Optional[Timer] = None  # of fall_due: the timer that expired

    def __bool__(self) -> bool:
        return self[:-2] != Report()[:-2]


class Link(NamedTuple):
    service: Service
    tei: int
    state: State


class Fields(NamedTuple):
    """What a frame says."""

    kind: FrameKind
    command: bool  # or a response
    sapi: int
    tei: int
    bit: bool  # P of a command, F of a response
    ns: Optional[int]  # N(S) of an I frame
    nr: Optional[int]  # N(R) of an I frame, RR, RNR or REJ
    information: bytes


class Room(NamedTuple):
    """How many more contents find a slot of the card and a place of the link's queue, and the link's V(A)."""

    pool: int
    queue: int
    va: int


class LinkCounters(NamedTuple):
    """What was counted of a link; each number stays at 65535."""

    # tools/names: counted
    sent_again: int
    t200_expired: int
    rejects_sent: int
    rejects_received: int
    established: int
    # tools/names: end


class Head(NamedTuple):
    """How a frame begins, and how many octets it has."""

    octets: bytes
    length: int


class Due(NamedTuple):
    line: int
    timer: Timer


def _timer(of: _Timer) -> Timer:
    return Timer(TimerKind(of.timer), Service(of.service), of.tei)


def _raw_timer(of: Timer) -> _Timer:
    return _Timer(*(_whole(_U8, it) for it in of))


def _note(of: _Note) -> Note:
    return Note(NoteKind(of.note), Service(of.service), of.tei, chr(of.error) if of.error else "")


def _report(of: _Report) -> Report:
    return Report(tuple(_note(it) for it in of.notes[: of.note_count]),
                  tuple(Order(OrderKind(it.order), _timer(it.timer)) for it in of.orders[: of.order_count]),
                  Cause(of.cause) if of.cause else None, of.lost, bool(of.begun),
                  bytes(of.contents[: of.length]) if of.delivered else None, bool(of.more),
                  (Service(of.reopened_service), of.reopened_tei) if of.reopened else None, of.given_up, of.given_up_16,
                  of.given_up_tei if of.given_up_tei != _NO_TEI else None, of.line,
                  _timer(of.expired) if of.expired.timer else None)


def _link(service: Service, tei: Optional[int]) -> Tuple[Service, int]:
    """The service and the TEI of a link, which stand in this order."""
    if not isinstance(service, Service) or tei is None:
        raise TypeError("a link is named by its Service and its TEI, in this order, or by tei=")
    return service, tei


def _octets(of: bytes) -> bytes:
    """All octets of a buffer, whatever its items are; a TypeError where it is no buffer."""
    return memoryview(of).tobytes()


# ---- Cards ---------------------------------------------------------------------------------------------------------------

_Owned = TypeVar("_Owned", bound="_Owner")


class _Owner:
    """What holds memory of the library: ended by `with`, by `close`, or with the object."""

    _start, _free, _save, _restore = "", "", "", ""
    _most = 1 << 15  # room for its image; of one that was restored a guess, until it is saved

    def __init__(self, config: Config) -> None:
        self._hold()
        self._begin(config)
        self._most = config.image_octets()

    def _hold(self) -> None:
        """What is handed to the library with a call."""
        self._handle = _Handle()
        self._at = ctypes.byref(self._handle)

    def _begin(self, config: Config) -> None:
        _call(self._start, self._at, ctypes.byref(config._raw()))

    def save(self) -> bytes:
        """Its image: octets from which `restore` begins one that goes on."""
        length = ctypes.c_size_t()
        while True:
            room = ctypes.create_string_buffer(self._most)
            if _unless(Status.WRONG_LENGTH, self._save, self._at, room, self._most, ctypes.byref(length)):
                return room.raw[: length.value]
            self._most *= 2

    @classmethod
    def restore(cls: Type[_Owned], image: bytes) -> _Owned:
        """That of an image. An Error with BAD_IMAGE: these octets are none."""
        octets, owner = _octets(image), cls.__new__(cls)
        owner._hold()
        _call(cls._restore, owner._at, octets, len(octets))
        return owner

    def close(self) -> None:
        """Ends it, and gives its memory back. Nothing happens where that was done."""
        if self._handle.started:
            _call(self._free, self._at)

    def __reduce__(self) -> Any:
        raise TypeError(f"a {type(self).__name__} is not copied: the copy's end would be its own")

    def __enter__(self: _Owned) -> _Owned:
        return self

    def __exit__(self, *_: Any) -> None:
        self.close()

    def __del__(self) -> None:
        if hasattr(self, "_at"):
            self.close()


class AnyCard(_Owner):
    """What a card of either kind does."""

    _free, _save, _restore = "lapd_card_free", "lapd_card_save", "lapd_card_restore"

    def _hold(self) -> None:
        self._told = _Report()
        super()._hold()

    @classmethod
    def restore(cls: Type[_Owned], image: bytes) -> _Owned:
        """The card of an image, which goes on: one of this class, as `FrameCard.restore(image)` says, or of the class that the image
        has, as `AnyCard.restore(image)` does. An Error with BAD_IMAGE: these octets are none; with WRONG_CARD: one of another class."""
        kinds: Dict[bytes, Any] = {b"\0": FrameCard, b"\1": Card, b"\2": TimedFrameCard, b"\3": TimedCard}
        kind = kinds.get(_octets(image)[5:6], cls)
        if not issubclass(kind, cls):
            raise Error(Status.WRONG_CARD)
        owner: _Owned = super(AnyCard, kind).restore(image)
        return owner

    def _event(self, name: str, line: int, *words: Any) -> Report:
        _call(name, self._at, line, *words, ctypes.byref(self._told))
        return _report(self._told)

    def _ask(self, line: int, request: Request, service: Service, tei: int, contents: bytes = b"") -> Report:
        octets = _octets(contents)
        return self._event("lapd_request_with", line, request, service, tei, octets, len(octets))

    def establish(self, line: int, service: Service = Service.CALL, tei: Optional[int] = None) -> Report:
        return self._ask(line, Request.ESTABLISH, *_link(service, tei))

    def release(self, line: int, service: Service = Service.CALL, tei: Optional[int] = None) -> Report:
        return self._ask(line, Request.RELEASE, *_link(service, tei))

    def data(self, line: int, service: Service = Service.CALL, tei: Optional[int] = None, contents: bytes = b"") -> Report:
        """Contents for the link, acknowledged."""
        return self._ask(line, Request.DATA, *_link(service, tei), contents)

    def unit(self, line: int, service: Service = Service.CALL, tei: Optional[int] = None, contents: bytes = b"") -> Report:
        """Contents without acknowledgement; GROUP_TEI is all terminals of the line."""
        return self._ask(line, Request.UNIT, *_link(service, tei), contents)

    def assign(self, line: int, tei: int) -> Report:
        return self._ask(line, Request.ASSIGN, Service.CALL, tei)

    def remove(self, line: int, tei: int) -> Report:
        return self._ask(line, Request.REMOVE, Service.CALL, tei)

    def check(self, line: int, tei: int) -> Report:
        return self._ask(line, Request.CHECK, Service.CALL, tei)

    def disown(self, line: int, tei: int) -> Report:
        """Tells the terminals of a TEI that is not on the line, or with 127 all, to give it up."""
        return self._ask(line, Request.DISOWN, Service.CALL, tei)

    def ask_tei(self, line: int) -> Report:
        """A terminal asks the network for a TEI."""
        return self._ask(line, Request.ASK_TEI, Service.CALL, GROUP_TEI)

    def verify_tei(self, line: int, tei: int) -> Report:
        """A terminal asks the network to check a TEI of its own."""
        return self._ask(line, Request.VERIFY_TEI, Service.CALL, tei)

    def busy(self, line: int, service: Service = Service.CALL, tei: Optional[int] = None) -> Report:
        return self._ask(line, Request.BUSY, *_link(service, tei))

    def ready(self, line: int, service: Service = Service.CALL, tei: Optional[int] = None) -> Report:
        return self._ask(line, Request.READY, *_link(service, tei))

    def deactivate(self, line: int, service: Service = Service.CALL, tei: Optional[int] = None) -> Report:
        return self._ask(line, Request.DEACTIVATE, *_link(service, tei))

    def line_down(self, line: int) -> List[Report]:
        """The line is down: gives up each of its links, and what waits and is of none; answers what that told and ordered."""
        place, reports, told = ctypes.c_uint8(), [], ctypes.byref(self._told)
        while _unless(Status.NO_MORE_LINKS, "lapd_line_down", self._at, line, ctypes.byref(place), told):
            reports.append(_report(self._told))
        return [it for it in reports if it]

    def expire(self, line: int, timer: Timer) -> Report:
        return self._event("lapd_expire", line, ctypes.byref(_raw_timer(timer)))

    def state(self, line: int, service: Service = Service.CALL, tei: Optional[int] = None) -> State:
        state = ctypes.c_uint8()
        _call("lapd_state", self._at, line, *_link(service, tei), ctypes.byref(state))
        return State(state.value)

    def links(self, line: int) -> Iterator[Link]:
        """The links of a line, by TEI, call control before packet."""
        place, link = ctypes.c_uint8(), _Link()
        while _unless(Status.NO_MORE_LINKS, "lapd_next_link", self._at, line, ctypes.byref(place), ctypes.byref(link)):
            yield Link(Service(link.service), link.tei, State(link.state))

    def room(self, line: int, service: Service = Service.CALL, tei: Optional[int] = None) -> Room:
        room = _Room()
        _call("lapd_room", self._at, line, *_link(service, tei), ctypes.byref(room))
        return Room(room.pool, room.queue, room.va)

    def counters(self, line: int) -> Dict[str, int]:
        """What was counted of a line, by its name in lapdsim(5)."""
        counters = _Counters()
        _call("lapd_counters", self._at, line, ctypes.byref(counters))
        return {_text(library().lapd_counter_text(place)): value for place, value in enumerate(counters.values)}

    def link_counters(self, line: int, service: Service = Service.CALL, tei: Optional[int] = None) -> LinkCounters:
        """What was counted of a link since its TEI came to the line, or it was given up by `deactivate` or `line_down`."""
        of = _LinkCounters()
        _call("lapd_link_counters", self._at, line, *_link(service, tei), ctypes.byref(of))
        return LinkCounters(*(getattr(of, it) for it in LinkCounters._fields))

    def _number(self, name: str) -> int:
        number = ctypes.c_uint32()
        _call(name, self._at, ctypes.byref(number))
        return number.value

    def stored(self) -> int:
        return self._number("lapd_stored")

    def limit(self) -> int:
        return self._number("lapd_limit")

    def lines(self) -> int:
        return self._number("lapd_lines")


class Card(AnyCard):
    """A card of octets."""

    _start = "lapd_card_start"

    def octet(self, line: int, octet: int) -> Report:
        return self._event("lapd_octet", line, octet)

    def pull(self, line: int) -> Tuple[int, Report]:
        """The next octet to send."""
        octet = ctypes.c_uint8()
        report = self._event("lapd_pull", line, ctypes.byref(octet))
        return octet.value, report

    def exchange(self, line: int, taken: bytes, given: bytearray, steps: int = 0) -> Tuple[int, Report]:
        """Takes and gives octets in turn from a step on, up to the first that has something to tell; the next step."""
        at = _SIZE(_whole(_SIZE, steps))
        octets, out = _octets(taken), (ctypes.c_uint8 * len(given)).from_buffer(given) if given else b""
        report = self._event("lapd_exchange", line, octets, len(octets), out, len(given), ctypes.byref(at))
        return at.value, report

    def begun(self, line: int) -> Optional[Head]:
        """Which frame a pull began last; None where none has begun one."""
        return self._head("lapd_begun", line)

    def heard(self, line: int) -> Optional[Head]:
        """Which frame was heard last; None where none was. Of one that is too long the length is n201 and five."""
        return self._head("lapd_heard", line)

    def begun_frame(self, line: int) -> Optional[bytes]:
        """The frame that a pull began last, whole, without its check; None where none has begun one."""
        return self._frame("lapd_begun_frame", line)

    def heard_frame(self, line: int) -> Optional[bytes]:
        """The frame that the latest octet has ended, without its check; None where it has ended none. Of one that is too long it
        is the first four octets."""
        return self._frame("lapd_heard_frame", line)

    def _frame(self, function: str, line: int) -> Optional[bytes]:
        length, room = ctypes.c_size_t(), (ctypes.c_uint8 * MOST_FRAME)()
        is_there = _unless(Status.NO_FRAME, function, self._at, line, room, MOST_FRAME, ctypes.byref(length))
        return bytes(room[: length.value]) if is_there else None

    def _head(self, function: str, line: int) -> Optional[Head]:
        head = _Head()
        _call(function, self._at, line, ctypes.byref(head))
        return Head(bytes(head.octets), head.length) if head.length else None


class FrameCard(AnyCard):
    """A card of frames."""

    _start = "lapd_card_start_frames"

    def _hold(self) -> None:
        self._room = (ctypes.c_uint8 * MOST_FRAME)()
        super()._hold()

    def frame(self, line: int, octets: bytes) -> Report:
        """A frame came: its octets without the check."""
        octets = _octets(octets)
        return self._event("lapd_frame", line, octets, len(octets))

    def failed(self, line: int, cause: Cause) -> Report:
        return self._event("lapd_frame_failed", line, cause)

    def next_frame(self, line: int) -> Optional[Tuple[bytes, Report]]:
        """The next frame to send, which counts as sent then; None where none waits."""
        length, told = ctypes.c_size_t(), ctypes.byref(self._told)
        words = (self._at, line, self._room, MOST_FRAME, ctypes.byref(length), told)
        is_there = _unless(Status.NO_FRAME, "lapd_next_frame", *words)
        return (bytes(self._room[: length.value]), _report(self._told)) if is_there else None

    def next_waiting(self, start: int = 0) -> Optional[int]:
        """The first line on which a frame waits, from one on; None where there is none."""
        line = ctypes.c_uint32()
        is_there = _unless(Status.NO_FRAME, "lapd_next_waiting", self._at, start, ctypes.byref(line))
        return line.value if is_there else None


def _lengths(*milliseconds: int) -> _Lengths:
    return _Lengths(*(_whole(_U32, it) for it in milliseconds))


class _Timed(AnyCard):
    """What a card that keeps its own timers does besides: its reports have no orders. Its calls happen at the moment of
    `fall_due`, and at 0 before the first: so tell it the time before all else."""

    def __init__(self, config: Config, t200: int = 1000, t203: int = 10000, t201: int = 1000, t202: int = 2000) -> None:
        self._lengths = _lengths(t200, t203, t201, t202)
        super().__init__(config)

    def _begin(self, config: Config) -> None:
        _call(self._start, self._at, ctypes.byref(config._raw()), ctypes.byref(self._lengths))

    def fall_due(self, now: int) -> Iterator[Report]:
        """The time is now this moment: what is due falls due, one after the other, and each tells which timer it was and what it led to.

        Take all of them, and read each before the next, as `for report in card.fall_due(now)` does: the call alone does nothing.
        If layer 3 sends meanwhile, `list(..)` is too late: `given_up` counts what was granted before its event. An Error with
        WRONG_TIME: the moment is before the last one, or 2^63 and later."""
        while _unless(Status.NO_TIMER, "lapd_fall_due", self._at, now, ctypes.byref(self._told)):
            yield _report(self._told)

    def at(self, now: int, call: Callable[..., Report], *words: Any, **named: Any) -> Iterator[Report]:
        """A call with its moment, as `card.at(now, card.frame, 0, octets)`: what is due by then falls due, and then the call is
        made; each tells what it led to. So nobody forgets to tell the time. Take all of them in turn, as of fall_due."""
        yield from self.fall_due(now)
        yield call(*words, **named)

    def now(self) -> int:
        """The moment that was told last, or that of its image; 0 before."""
        moment = ctypes.c_uint64()
        _call("lapd_now", self._at, ctypes.byref(moment))
        return moment.value

    def next_moment(self) -> Optional[int]:
        """The moment of the timer that falls due first; None where none runs."""
        moment = ctypes.c_uint64()
        is_there = _unless(Status.NO_TIMER, "lapd_next_moment", self._at, ctypes.byref(moment))
        return moment.value if is_there else None

    def changed_at(self, line: int, service: Service = Service.CALL, tei: Optional[int] = None) -> int:
        """When the state of a link changed last, where the coming of its TEI counts; 0 if that was before a moment was told."""
        moment = ctypes.c_uint64()
        _call("lapd_changed_at", self._at, line, *_link(service, tei), ctypes.byref(moment))
        return moment.value

    def set_lengths(self, t200: int = 1000, t203: int = 10000, t201: int = 1000, t202: int = 2000) -> None:
        """Timers that are started from now on run so many milliseconds, and those that run as long as they were to."""
        lengths = _lengths(t200, t203, t201, t202)
        _call("lapd_card_set_lengths", self._at, ctypes.byref(lengths))


class TimedCard(_Timed, Card):
    """A card of octets that keeps its own timers."""

    _start = "lapd_card_start_timed"


class TimedFrameCard(_Timed, FrameCard):
    """A card of frames that keeps its own timers."""

    _start = "lapd_card_start_frames_timed"


# ---- A clock -------------------------------------------------------------------------------------------------------------


class Clock(_Owner):
    """The timers of all lines of a card; each moment is a number of milliseconds that the caller hands in."""

    _start, _free, _save, _restore = "lapd_clock_start", "lapd_clock_free", "lapd_clock_save", "lapd_clock_restore"

    def set_lengths(self, t200: int, t203: int, t201: int, t202: int = 2000) -> None:
        _call("lapd_clock_set_lengths", self._at, t200, t203, t201, t202)

    def apply(self, line: int, report: Report, now: int) -> None:
        """Carries out the orders of a report, in order."""
        told = _Report(order_count=_whole(_U8, len(report.orders)))
        for place, order in enumerate(report.orders[:MOST_ORDERS]):
            told.orders[place] = _Order(_whole(_U8, order.kind), _raw_timer(order.timer))
        _call("lapd_clock_apply_report", self._at, line, ctypes.byref(told), now)

    def due(self, now: int) -> Optional[Due]:
        """Takes out the timer that falls due first, for `expire`; None where none is due."""
        due = _Due()
        is_there = _unless(Status.NO_TIMER, "lapd_clock_due", self._at, now, ctypes.byref(due))
        return Due(due.line, _timer(due.timer)) if is_there else None

    def next(self) -> Optional[int]:
        """The moment of the timer that falls due first; None where none runs."""
        moment = ctypes.c_uint64()
        is_there = _unless(Status.NO_TIMER, "lapd_clock_next", self._at, ctypes.byref(moment))
        return moment.value if is_there else None
