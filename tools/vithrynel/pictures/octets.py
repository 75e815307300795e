"""The way of an octet that comes, and of one that goes, call by call, with the file of each."""
from textwrap import wrap
from typing import List, NamedTuple, Sequence, Tuple

from ..svg import Drawing

LEFT, RIGHT, BOX, GAP = 36, 690, 310, 18
BACK = LEFT + BOX + 30  # the way back
WIDTH, HEIGHT = 1150, 1021


class Note(NamedTuple):
    """What is said beside calls: on the way in (soft), on the way back (green), or that something is dropped (red);
    and the word of their code of which it is said."""

    words: str
    ink: str = "soft"
    code: str = ""

    def text(self) -> str:
        return f"{self.code}: {self.words}" if self.code else self.words


class Call(NamedTuple):
    """Calls on the way, each of which calls the next: their names, their file in crates, what is said of them, and who
    calls the first, if not the last call above."""

    names: str
    file: str
    notes: Sequence[Note] = ()
    by: str = ""

    def rows(self) -> List[str]:
        return wrap(self.names, 34)

    def high(self) -> int:
        return 28 + 18 * len(self.rows())


def back(words: str, code: str = "") -> Note:
    return Note(words, "green", code)


def drop(causes: str) -> Note:
    return Note(f"dropped: {causes}", "red")


# The way of what the deframer drops, from Card::hear on.
DROPS = [
    Call("FrameCard::dropped", "lapd_card/src/frame_card.rt"), Call("FrameLine::dropped", "lapd_line/src/frame_line.rt"),
]
IN_RATTLE = "Card::octet"
COMES = [
    Call("lapd_octet, show_ended", "lapd_c/src/octets.rt", [
        back("fills the caller's struct", "show"), back("lends what was delivered", "contents")]),
    Call("TimedCard::hear", "lapd_timed/src/timed_card.rt", [back("own timers get their orders", "carry_out")], "lapd_octet"),
    Call("Card::hear", "lapd_card/src/card.rt", [
        Note(f"in Rattle {IN_RATTLE} calls it"), back("begun here, filled below", "BareReport")]),
    Call("Port::octet", "lapd_line/src/port.rt", [Note("does the octet end anything?")]),
    Call("Deframer::step", "lapd_bits/src/deframer.rt", [
        Note("flags, stuffed 0s, aborts, checks"), Note("nothing ends: nothing is told"),
        drop("abort, ragged, short, fcs"), Note(f"{DROPS[0].names} tells of it", "red")]),
    Call("FrameCard::heard", "lapd_card/src/frame_card.rt", [
        Note("Card::hear goes on with a frame that ended"), back("does a frame wait on the line?", "waiting")], "Card::hear"),
    Call("FrameLine::heard", "lapd_line/src/frame_line.rt", [
        Note("what is heard is counted", code="counters"), back("so is what is told", "count")]),
    Call("LinkLayer::serve, serve_any", "lapd_line/src/addressing.rt", [
        Note("lapd_frame/src/reading.rt", code="read"), Note("SAPI 63, lapd_tei/src/teis.rt", code="message"),
        drop("extension, sapi, tei, unserved")]),
    Call("LinkLayer::receive", "lapd_line/src/link_layer.rt", [
        back("has the link a frame to give?", "has_frame"), back("where contents begin in the frame", "start")],
        "LinkLayer::serve"),
    Call("Link::receive, hear", "lapd_link/src/events.rt", [
        back("contents leave the shelf, and", "settle"), back("timers get their orders")]),
    Call("Entity::frame", "lapd_link_steps/src/frames.rt", [Note("by the state: 4, 5, 6, or 7 and 8")]),
    Call("Entity::frame_in_7_8, contents_in_7_8", "lapd_link_steps/src/states/multiple_frame.rt", [
        Note("the row, here of an I-frame in sequence"), drop("unserved"),
        back("writes what is told into the report")]),
]
# The way of a frame that a controller brings, as far as it is another, and of the next one.
FRAMES = [
    Call("lapd_frame", "lapd_c/src/frames.rt"), Call("FrameCard::frame", "lapd_card/src/frame_card.rt"),
    Call("FrameLine::frame", "lapd_line/src/frame_line.rt"),
    Call("lapd_next_frame", "lapd_c/src/frames.rt"), Call("FrameCard::next_frame", "lapd_card/src/frame_card.rt"),
    Call("FrameLine::next_frame", "lapd_line/src/next_frame.rt"),
]
TOLD = [
    "A report tells notes and contents for layer 3, or why something was dropped;",
    "orders for timers; how many frames were lost, and how many contents given up.",
    "A controller's frame comes by {}, {} and {} to".format(*(it.names for it in FRAMES[:3])),
    "FrameLine::heard; the next by {}, {},".format(*(it.names for it in FRAMES[3:5])),
    "{} and FrameLine::take.".format(FRAMES[5].names),
]
OFFERS = [Call("Teis::offer", "lapd_tei/src/teis.rt"), Call("Link::offer", "lapd_link/src/offers.rt")]
GOES = [
    Call("Card::pull, pull_next", "lapd_card/src/card.rt", [Note("asks the port whether eight bits are left")]),
    Call("FrameCard::load_next", "lapd_card/src/frame_card.rt", [Note("marks whether another frame waits")]),
    Call("FrameLine::load_next, take", "lapd_line/src/next_frame.rt", [Note("takes the next frame, and counts it")]),
    Call("LinkLayer::take", "lapd_line/src/pulls.rt", [Note("the first that has a frame:")]),
    Call("write", "lapd_frame/src/writing.rt", [Note("writes address and control field")]),
    Call("Framer::load", "lapd_bits/src/framer.rt", [Note("stuffs it whole, with its check and a flag")]),
    Call("Framer::octet", "lapd_bits/src/framer.rt", [Note("gives the next eight bits, as they are ready")]),
]


def call(draw: Drawing, x: float, y: float, it: Call, more: float = 0) -> None:
    """The box of calls, with room for more below."""
    is_row = "/states/" in it.file
    draw.box(x, y, BOX, it.high() + more, "on-amber" if is_row else "panel", "amber" if is_row else "ink", round=8)
    for number, row in enumerate(it.rows()):
        draw.text(x + 12, y + 19 + 18 * number, row, "ink", 13.5, mono=True, bold=True)
    draw.text(x + 12, y + it.high() - 10, it.file, "soft", 11, mono=True)


def end(draw: Drawing, x: float, y: float, width: float, words: str, fill: str, line: str) -> None:
    draw.box(x, y, width, 40, fill, line, round=20)
    draw.text(x + width / 2, y + 25, words, "ink", 13.5, anchor="middle", bold=True)


def down(draw: Drawing, x: float, begin: float, finish: float, ink: str) -> None:
    draw.arrow([(x, begin), (x, finish)], ink, 2.2)


def beside(draw: Drawing, y: float, it: Call) -> None:
    """What is said of calls, beside the way back: what goes no further on the way in leads to it."""
    first = y + it.high() / 2 + 4.5 - 8 * (len(it.notes) - 1)
    for number, note in enumerate(it.notes):
        at = first + 16 * number
        draw.text(BACK + 16, at, note.text(), note.ink, 12.5)
        if note.words.startswith(("dropped", "nothing ends")):
            draw.arrow([(LEFT + BOX, at - 4.5), (BACK - 2, at - 4.5)], note.ink, 1.6)
        elif note.ink == "green" and note.code:
            draw.box(BACK - 3.5, at - 8, 7, 7, "green", round=3.5)


def comes(draw: Drawing) -> None:
    """The way in, down to the row, and back as a report."""
    end(draw, LEFT, 60, BOX, "an octet from the line", "on-blue", "blue")
    end(draw, BACK - 20, 60, 250, "a report to the caller", "on-green", "green")
    y, middle = 124.0, LEFT + BOX / 2
    down(draw, middle, 100, y, "blue")
    last = y + sum(it.high() + GAP for it in COMES[:-1]) + COMES[-1].high() / 2 + 16
    draw.arrow([(LEFT + BOX, last), (BACK, last), (BACK, 100)], "green", 2.2)
    for it in COMES:
        call(draw, LEFT, y, it)
        beside(draw, y, it)
        y += it.high() + GAP
        if it is not COMES[-1]:
            down(draw, middle, y - GAP, y, "blue")
    for number, words in enumerate(TOLD):
        draw.text(LEFT, y + 8 + 17 * number, words, "soft", 12.5)


def offers(draw: Drawing, y: float) -> None:
    """What the line asks for the next frame, in order."""
    asked: List[Tuple[str, Sequence[str]]] = [
        (OFFERS[0].names, ["the oldest message of", "TEI management"]),
        ("unit data", ["the oldest that waits"]),
        (OFFERS[1].names, ["the next link in turn: a", "control frame, I-frame, or RR"]),
    ]
    for name, rows in asked:
        draw.text(RIGHT + 12, y, name, "ink", 12.5, mono=True, bold=True)
        for number, words in enumerate(rows):
            draw.text(RIGHT + 108, y + 15 * number, words, "soft", 12)
        y += 5 + 15 * len(rows)


def goes(draw: Drawing) -> None:
    """The way out: down from the pull to the bits."""
    end(draw, RIGHT, 60, BOX, "the line takes an octet", "on-green", "green")
    y, middle = 100.0, RIGHT + BOX / 2
    for it in GOES:
        down(draw, middle, y, y + 24, "green")
        y += 24
        more = 112 if it.names == "LinkLayer::take" else 20
        call(draw, RIGHT, y, it, more)
        draw.text(RIGHT + 12, y + it.high() + 8, it.notes[0].text(), "soft", 12.5)
        if more > 20:
            offers(draw, y + it.high() + 29)
        y += it.high() + more
    down(draw, middle, y, y + 24, "green")
    end(draw, RIGHT, y + 24, BOX, "an octet for the line", "on-green", "green")
    draw.text(middle + 12, 124 + 66 + 16, "fewer are left, and one waits", "green", 12.5)
    far, begin, finish = RIGHT + BOX + 44, 124 + 33, y - 33
    draw.arrow([(RIGHT + BOX, begin), (far, begin), (far, finish), (RIGHT + BOX, finish)], "soft", 1.8)
    rows = ["eight bits", "or more are", "left, or no", "frame waits:", "then an idle", "flag goes"]
    for number, words in enumerate(rows):
        draw.text(far + 8, finish - 200 + 17 * number, words, "soft", 12.5)


def draw(_: str) -> str:
    """The picture."""
    it = Drawing(
        "The way of an octet in and out",
        "An octet that comes goes by lapd_octet or Card::octet, Card::hear, Port::octet and Deframer::step; a frame "
        "that ends by FrameCard::heard, FrameLine::heard and LinkLayer::receive to Link::receive, and to the row of the "
        "link's state in lapd_link_steps, or to TEI management; what this leads to comes back the same way as a "
        "report. What the deframer drops goes by FrameCard::dropped and FrameLine::dropped into a report. One that goes "
        "is asked for by Card::pull; the next frame comes by LinkLayer::take from Teis::offer, unit data or Link::offer, "
        "and goes by write, Framer::load and Framer::octet.",
    )
    it.text(LEFT, 36, "An octet comes", "blue", 16, bold=True)
    it.text(LEFT + BOX, 36, "files: in crates/", "soft", 12.5, anchor="end")
    it.text(BACK - 6, 36, "and is answered", "green", 16, bold=True)
    it.text(RIGHT, 36, "An octet goes", "green", 16, bold=True)
    comes(it)
    goes(it)
    return it.written(WIDTH, HEIGHT)
