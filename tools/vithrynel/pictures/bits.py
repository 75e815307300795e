"""The first example bit by bit: flags, stuffed bits and what stands between flags."""
from typing import List, NamedTuple, Tuple

from ..bits import FLAG, Deframer, bits_of, octets_of, unstuffed
from ..frames import digits, read
from ..svg import Drawing

ASKED, ANSWERED = bytes.fromhex("7E0081EF50B1FDFC"), bytes.fromhex("7E008173C4127E")
LEFT, CELL, WIDTH = 34, 14, 964
FLAG_KIND, STUFFED, DATA, BEGUN = "flag", "stuffed", "data", "begun"
FILLS = {FLAG_KIND: "on-blue", STUFFED: "on-red", DATA: "panel", BEGUN: "paper"}
INKS = {FLAG_KIND: "blue", STUFFED: "red", DATA: "ink", BEGUN: "soft"}


class Gap(NamedTuple):
    """Where the bits between the two flags stand: the first, and the one after the last."""

    begin: int
    end: int


def gap_of(bits: List[int]) -> Gap:
    """The gap of bits that begin with a flag: its end is where the next flag begins."""
    ends = next(at for at in range(8, len(bits)) if bits[at : at + 8] == FLAG)
    return Gap(8, ends)


def kinds_of(bits: List[int], gap: Gap) -> List[str]:
    """What each bit is."""
    kinds, ones = [FLAG_KIND] * 8, 0
    for bit in bits[gap.begin : gap.end]:
        kinds.append(STUFFED if ones == 5 else DATA)
        ones = ones + 1 if bit and ones < 5 else 0
    kinds += [FLAG_KIND] * 8
    return kinds + [BEGUN] * (len(bits) - len(kinds))


def bracket(draw: Drawing, begin: float, end: float, y: float, down: float, ink: str) -> None:
    """A bracket over or under cells."""
    draw.line([(begin + 2, y + down), (begin + 2, y), (end - 2, y), (end - 2, y + down)], ink, 1.3)


def cells(draw: Drawing, bits: List[int], kinds: List[str], y: float) -> None:
    for at, (bit, kind) in enumerate(zip(bits, kinds)):
        x = LEFT + at * CELL
        draw.box(x + 0.5, y, CELL - 1, 24, FILLS[kind], "red" if kind == STUFFED else "rule", round=2, thick=1)
        draw.text(x + CELL / 2, y + 16.5, str(bit), INKS[kind], 12, anchor="middle", mono=True, bold=kind == STUFFED)


def fields(octets: bytes, from_network: bool) -> List[Tuple[int, str, str]]:
    """The octets of a frame with their check, in groups: how many, their digits, and what they are."""
    words = read(octets[:-2], from_network)
    poll = words.fields.upper()
    return [
        (1, digits(octets[:1]), f"SAPI {words.sapi}"),
        (1, digits(octets[1:2]), f"TEI {words.tei}"),
        (1, digits(octets[2:3]), f"{words.name.upper()}, {poll}"),
        (2, f"{digits(octets[3:4])} {digits(octets[4:5])}", "frame check"),
    ]


def below(draw: Drawing, bits: List[int], kinds: List[str], gap: Gap, from_network: bool, y: float) -> None:
    """Under the cells: the flags, and the octets that the gap makes without its stuffed bits."""
    for begin in (0, gap.end):
        x = LEFT + begin * CELL
        bracket(draw, x, x + 8 * CELL, y + 8, -6, "blue")
        draw.text(x + 4 * CELL, y + 26, "flag", "blue", 12.5, anchor="middle", bold=True)
    if BEGUN in kinds:
        x = LEFT + kinds.index(BEGUN) * CELL
        draw.text(x + len(bits[kinds.index(BEGUN) :]) * CELL / 2, y + 26, "the next flag", "soft", 12, anchor="middle")
    at = gap.begin
    for count, hexed, name in fields(octets_of(unstuffed(bits[gap.begin : gap.end])), from_network):
        begin, left = at, 8 * count
        while left:
            left -= kinds[at] == DATA
            at += 1
        end = at + (at < gap.end and kinds[at] == STUFFED)
        bracket(draw, LEFT + begin * CELL, LEFT + end * CELL, y + 8, -6, "ink")
        middle = LEFT + (begin + end) * CELL / 2
        draw.text(middle, y + 26, hexed, "ink", 13, anchor="middle", mono=True, bold=True)
        draw.text(middle, y + 44, name, "soft", 12, anchor="middle")
        at = end
    bracket(draw, LEFT + gap.begin * CELL, LEFT + gap.end * CELL, y + 54, -6, "green")
    told = f"the gap: {gap.end - gap.begin} bits"
    count = kinds.count(STUFFED)
    told += f", of which {count} is stuffed: a 0 after five 1s, which the receiver takes out" if count else ", none stuffed"
    draw.text(LEFT + (gap.begin + gap.end) * CELL / 2, y + 74, told, "green", 12.5, anchor="middle")


def example(draw: Drawing, title: str, octets: bytes, from_network: bool, y: float) -> None:
    bits = bits_of(octets)
    gap = gap_of(bits)
    kinds = kinds_of(bits, gap)
    draw.text(LEFT, y, title, size=14, bold=True)
    for at in range(len(octets)):
        x = LEFT + at * 8 * CELL
        bracket(draw, x, x + 8 * CELL, y + 34, 6, "rule")
        draw.text(x + 4 * CELL, y + 28, digits(octets[at : at + 1]), "soft", 13, anchor="middle", mono=True)
    cells(draw, bits, kinds, y + 44)
    below(draw, bits, kinds, gap, from_network, y + 70)


def draw(_: str) -> str:
    """The picture."""
    it = Drawing(
        "The first example, bit by bit",
        "The octets 7E0081EF50B1FDFC of a terminal and the answer 7E008173C4127E as bits in the order of the line: "
        "flags, the gap between two flags with its stuffed bit, and the octets that it makes.",
    )
    assert Deframer().octets(ASKED)[0][1].octets == bytes.fromhex("00817F")
    it.text(24, 34, "The first example, bit by bit", size=16, bold=True)
    it.text(24, 56, "Above, the octets as a script has them; the lowest bit of each goes first on the line.", "soft", 13)
    example(it, "rx 0 7E0081EF50B1FDFC: the terminal sends SABME", ASKED, False, 92)
    example(it, "0 tx 7E008173C4127E: the exchange answers with UA", ANSWERED, True, 282)
    told = "A frame may begin and end at any bit: the flag that closes the SABME begins at the second bit of an octet."
    it.text(24, 462, told, "soft", 13)
    return it.written(WIDTH, 482)
