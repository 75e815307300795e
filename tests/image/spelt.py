"""Spells a card or a clock that was read from an image as its octets again: a reader that has left nothing out spells the same ones."""
from typing import Callable, List, Optional, Tuple, TypeVar

from vithrynel.clock_image import KIND, ClockImage, Running
from vithrynel.image import FREE, MAGIC, NUMBERS, OWED, VERSION, Card, Clock, Config, Line, Link, Message

T = TypeVar("T")


def spelt(octets: int, n: int) -> bytes:
    return n.to_bytes(octets, "little")


def bits_spelt(bits: Tuple[bool, ...], octets: int = 1) -> bytes:
    return spelt(octets, sum(1 << place for place, bit in enumerate(bits) if bit))


def list_spelt(each: Callable[[T], bytes], members: List[T]) -> bytes:
    return bytes([len(members)]) + b"".join(map(each, members))


def contents_spelt(octets: bytes) -> bytes:
    return spelt(2, len(octets)) + octets


def message_spelt(it: Message) -> bytes:
    return bytes([15, it.ri >> 8, it.ri & 255, it.type, 2 * it.ai + 1])


def config_spelt(c: Config) -> bytes:
    numbers = b"".join(spelt(it.octets, c.numbers[it.name]) for it in NUMBERS)
    return bits_spelt((c.user, c.seed is not None, c.annex_b)) + numbers + (b"" if c.seed is None else spelt(2, c.seed))


def teis_spelt(config: Config, line: Line) -> bytes:
    messages = list_spelt(message_spelt, line.messages)
    if config.is_terminal:
        kind, attempts, of = line.procedure or (0, 0, 0)
        return spelt(2, line.number) + (bytes([kind, attempts]) + spelt(3 - kind, of) if kind else b"\0") + messages
    remembered = list_spelt(lambda it: spelt(2, it[0]) + bytes([it[1]]), line.remembered)
    return remembered + bytes(line.check or [0]) + bits_spelt(line.due) + messages


def link_spelt(it: Link) -> bytes:
    head = bytes([it.state + OWED * it.owes_release]) + bits_spelt(it.flags) + bytes([it.rc, it.va, it.outstanding, it.vr, it.again])
    control = list_spelt(lambda frame: bytes([frame[0]]) + frame[1], it.control)
    return head + b"".join(spelt(2, n) for n in it.counted) + list_spelt(contents_spelt, it.contents) + control


def line_spelt(config: Config, line: Line) -> bytes:
    places = bytes(FREE if tei is None else tei for tei in line.places)
    units = list_spelt(lambda it: bytes([2 * it[0] + it[1]]) + contents_spelt(it[2]), line.units)
    return places + teis_spelt(config, line) + units + bytes([line.turn]) + b"".join(map(link_spelt, line.links.values()))


def clock_spelt(clock: Optional[Clock]) -> bytes:
    if clock is None:
        return b""
    moments = [n for of_lines in (clock.moments, clock.changed) for of_line in of_lines for n in of_line]
    return b"".join(spelt(4, n) for n in clock.lengths) + b"".join(spelt(8, n) for n in [clock.now, *moments])


def octets_of(card: Card) -> bytes:
    """The image of a card."""
    head = MAGIC + bytes([VERSION]) + bits_spelt((card.of_octets, card.clock is not None))
    lines = b"".join(line_spelt(card.config, line) for line in card.lines)
    counters = b"".join(spelt(8, n) for line in card.lines for n in line.counters)
    waits = b"".join(bits_spelt(line.waits, 2) for line in card.lines)
    return head + config_spelt(card.config) + lines + counters + waits + clock_spelt(card.clock)


def timer_spelt(it: Running) -> bytes:
    return bytes([it.timer, it.tei, it.packet]) + spelt(8, it.due)


def octets_of_clock(clock: ClockImage) -> bytes:
    """The image of a caller's clock."""
    head = MAGIC + bytes([VERSION, KIND, len(clock.lines), clock.terminals])
    return head + b"".join(spelt(4, n) for n in clock.lengths) + b"".join(list_spelt(timer_spelt, it) for it in clock.lines)
