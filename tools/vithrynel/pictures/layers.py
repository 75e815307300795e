"""The layers of a line card, and what goes in and out."""
from typing import Sequence

from ..svg import Drawing

WIDTH, HEIGHT = 1096, 692
IN, OUT = "blue", "green"


def part(draw: Drawing, place: Sequence[float], name: str, rows: Sequence[str], crate: str) -> None:
    """A part of a card at a place (left, upper, width, height): its name, what it does, and below these its crate."""
    x, y, _, height = place
    draw.box(*place, "paper", "ink", round=7)
    draw.text(x + 12, y + 21, name, size=13.5, bold=True)
    for number, row in enumerate(rows):
        draw.text(x + 12, y + 40 + 16 * number, row, "soft", 12.5)
    draw.text(x + 12, y + height - 10, crate, "soft", 11.5, mono=True)


def headed(draw: Drawing, left: float, right: float, y: float, words: str, code: str, ink: str = "ink") -> None:
    """What a box is, at its left, and its type and crate, at its right."""
    draw.text(left, y, words, ink, 13.5, bold=True)
    draw.text(right, y, code, "soft", 11.5, anchor="end", mono=True)


def upright(draw: Drawing, x: float, begin: float, end: float, ink: str) -> None:
    draw.arrow([(x, begin), (x, end)], ink, 2.2)


def layer_3(draw: Drawing) -> None:
    draw.box(150, 24, 730, 46, "on-violet", "violet", round=9)
    draw.text(515, 52, "layer 3: call control and packet mode", "ink", 14.5, anchor="middle", bold=True)
    upright(draw, 216, 70, 142, IN)
    draw.text(230, 87, "requests: establish, release, data, unit data, busy,", IN, 12.5)
    draw.text(230, 102, "ready, deactivate, down; assign, check, remove, disown,", IN, 12.5)
    draw.text(230, 117, "verify a TEI, ask for one", IN, 12.5)
    draw.text(230, 132, "each is accepted, or refused and nothing changes", "soft", 12.5)
    upright(draw, 610, 142, 70, OUT)
    draw.text(624, 87, "notes: link established, released, data,", OUT, 12.5)
    draw.text(624, 102, "error; TEI assigned, removed, doubled,", OUT, 12.5)
    draw.text(624, 117, "denied, unassigned, all to be removed", OUT, 12.5)


def card(draw: Drawing) -> None:
    """The card of octets, and in it the card of frames; behind the line that is shown the others."""
    draw.box(150, 142, 730, 402, "on-blue", "blue", round=12)
    headed(draw, 166, 866, 164, "card of octets: a card of frames, and a port at each line", "Card, lapd_card", "blue")
    draw.box(164, 176, 702, 252, "paper", "blue", round=10)
    headed(draw, 180, 852, 198, "card of frames: 1 to 64 lines, and a shelf", "FrameCard, lapd_card", "blue")
    for step in (16, 8):
        draw.box(178 + step, 228 - step, 506, 190, "panel", "rule", round=9)
        draw.box(178 + step, 466 - step, 506, 66, "panel", "rule", round=9)


def line(draw: Drawing) -> None:
    """A line, and its port."""
    draw.box(178, 228, 506, 190, "panel", "ink", round=9)
    headed(draw, 192, 670, 249, "line: one D-channel, in frames", "FrameLine, lapd_line")
    links = ["call control: SAPI 0", "packet mode: SAPI 16"]
    part(draw, (190, 260, 186, 88), "two links for each TEI", links, "lapd_link")
    part(draw, (384, 260, 154, 88), "TEI management", ["SAPI 63: TEIs given,", "checked, taken away"], "lapd_tei")
    part(draw, (546, 260, 126, 88), "unit data", ["UI frames wait", "for their turn"], "lapd_line")
    part(draw, (190, 356, 348, 52), "frames: read, written", [], "lapd_frame")
    part(draw, (546, 356, 126, 52), "counters", [], "lapd_count")
    draw.box(178, 466, 506, 66, "panel", "ink", round=9)
    headed(draw, 192, 670, 488, "port: a deframer and a framer", "Port, lapd_line; lapd_bits")
    draw.text(192, 508, "flags, stuffed 0s, aborts and frame checks, at any bit of an octet", "soft", 12.5)
    upright(draw, 216, 466, 418, IN)
    draw.text(226, 446, "frames heard", IN, 12.5)
    upright(draw, 560, 418, 466, OUT)
    draw.text(550, 446, "next frames", OUT, 12.5, anchor="end")


def beside(draw: Drawing) -> None:
    """The shelf in the card, the caller's clock, and a controller in place of the ports."""
    rows = ["contents that wait", "to be sent, or to be", "acknowledged, of", "all lines", "no slot free:", "request refused"]
    part(draw, (714, 228, 140, 160), "shelf", rows, "lapd_store")
    draw.line([(684, 290), (714, 290)], "soft", 1.6, "4 3")
    part(draw, (952, 228, 126, 112), "clock", ["the card's, or the", "caller's: T200 to", "T203"], "lapd_clock")
    draw.arrow([(880, 254), (952, 254)], OUT, 2.2)
    draw.text(916, 246, "orders", OUT, 12.5, anchor="middle")
    draw.arrow([(952, 312), (880, 312)], IN, 2.2)
    draw.text(918, 304, "expiries", IN, 12.5, anchor="middle")
    draw.box(10, 228, 116, 108, "paper", "ink", round=7, dashed=1)
    draw.text(22, 249, "a controller", size=13.5, bold=True)
    for number, row in enumerate(["may take the", "ports' place: it", "brings frames,", "and takes them"]):
        draw.text(22, 268 + 17 * number, row, "soft", 12.5)
    draw.arrow([(126, 262), (164, 262)], IN, 2.2)
    draw.arrow([(164, 304), (126, 304)], OUT, 2.2)


def d_channel(draw: Drawing) -> None:
    """The line below the card, and its terminals."""
    upright(draw, 216, 608, 532, IN)
    draw.text(230, 572, "octets that come, one at a time", IN, 12.5)
    draw.text(230, 589, "a frame that is dropped is told with its cause, and never answered", "soft", 12.5)
    upright(draw, 664, 532, 608, OUT)
    draw.text(678, 572, "octets that go, one at a pull", OUT, 12.5)
    draw.line([(60, 616), (964, 616)], "ink", 3)
    draw.text(964, 608, "D-channel", "ink", 13, anchor="end", bold=True)
    for number in range(4):
        x = 150 + 150 * number
        draw.line([(x + 55, 616), (x + 55, 636)], "ink", 1.5)
        draw.box(x, 636, 110, 34, "on-amber", "amber", round=7)
        draw.text(x + 55, 658, f"terminal {number + 1}" if number < 3 else ".. 8", "ink", 12.5, anchor="middle")
    draw.text(740, 651, "at a card of the user's side the", "soft", 12.5)
    draw.text(740, 668, "other end is the network", "soft", 12.5)


def draw(_: str) -> str:
    """The picture."""
    it = Drawing(
        "The layers of a line card",
        "Layer 3 above, the D-channel below, between them the card of octets: a card of frames, which has lines and a shelf, "
        "and a port at each line. A line has links, TEI management, unit data, and counters. In go requests, octets or a "
        "controller's frames, and expiries; out come notes, octets or frames, and orders for timers.",
    )
    card(it)
    layer_3(it)
    line(it)
    beside(it)
    d_channel(it)
    it.box(32, 30, 12, 12, IN, round=3)
    it.text(50, 40.5, "goes in", "soft", 12.5)
    it.box(32, 52, 12, 12, OUT, round=3)
    it.text(50, 62.5, "comes out", "soft", 12.5)
    return it.written(WIDTH, HEIGHT)
