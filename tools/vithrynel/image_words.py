"""What is in the image of a card or of a clock, in words: a line a fact, in the order of its octets."""
from typing import Iterator, List, Optional

from .clock_image import OF_LINKS, TIMERS, ClockImage, is_of_clock, read_clock
from .frames import digits
from .header import numbers
from .image import COUNTED, COUNTED_OF_LINK, FLAGS, VERSION, Card, Config, Line, Link, Message, read
from .table import FIELDS, READING, SIDE, card_line

STATES = {4: "tei-assigned", 5: "awaiting-establishment", 6: "awaiting-release", 7: "established", 8: "timer-recovery"}
# From which counter on they are those of messages, and the types of these.
FIRST_MESSAGE = numbers()["LAPD_HEARD_REQUEST"]
MESSAGES = [it[len("heard-"):] for it in COUNTED[FIRST_MESSAGE:] if it.startswith("heard-")]


def of_service(word: str, packet: bool, tei: Optional[int]) -> str:
    return f"{word}{'-16' * packet} {tei}"


def of_link(word: str, number: int, places: List[Optional[int]]) -> str:
    """A word about the link of this number, whose TEI is on the line."""
    return of_service(word, number % 2 == 1, places[number // 2])


def head(card: Card) -> Iterator[str]:
    """The version and the kind, and the card line."""
    yield f"image version {VERSION} of {'octets' if card.of_octets else 'frames'}{' with timers' * (card.clock is not None)}"
    c = card.config
    side = [SIDE, *[c.seed] * (c.seed is not None)] if c.user else []
    more = [word for it in FIELDS if it.after for word in (it.after, c.numbers[it.name])]
    words = ["card" if card.of_octets else "frames", *(c.numbers[it.name] for it in card_line()), *side, *more, *[READING] * c.annex_b]
    yield " ".join(map(str, words))


def message(it: Message) -> str:
    return f"message {MESSAGES[it.type - 1]} ri {it.ri} ai {it.ai}"


def teis(config: Config, line: Line) -> Iterator[str]:
    for place, tei in enumerate(line.places):
        yield f"place {place} {'free' if tei is None else f'tei {tei}'}"
    if config.is_terminal:
        yield f"number {line.number}"
    if line.procedure is not None:
        kind, attempts, of = line.procedure
        yield f"{('asks ri', 'verifies tei')[kind - 1]} {of} attempts {attempts}"
    for ri, tei in line.remembered:
        yield f"remembered ri {ri} tei {tei}"
    if line.check is not None:
        period, tei, first, second = line.check
        yield f"checks tei {tei} period {period} responses {first} {second}"
    for tei, is_due in zip(line.places, line.due):
        if is_due:
            yield f"check-due tei {tei}"
    yield from map(message, line.messages)


def link(number: int, it: Link, places: List[Optional[int]]) -> Iterator[str]:
    numbers = f"va {it.va} vs {(it.va + it.outstanding) % 128} vr {it.vr} rc {it.rc}"
    flags = [name for name, is_set in zip(FLAGS, it.flags) if is_set] + ["owes-release"] * it.owes_release
    yield " ".join([of_link("link", number, places), f"state {it.state} {STATES[it.state]}", numbers, *flags])
    yield f"{of_link('waiting', number, places)} contents {len(it.contents)} again {it.again} control {len(it.control)}"
    counted = [f"{name.replace('_', '-')} {n}" for name, n in zip(COUNTED_OF_LINK, it.counted) if n]
    if counted:
        yield " ".join([of_link("counted", number, places), *counted])
    for octets in it.contents:
        yield f"{of_link('contents', number, places)} {digits(octets)}"
    for command, octets in it.control:
        yield f"{of_link('control', number, places)} {('response', 'command')[command]} {digits(octets)}"


def line(config: Config, it: Line) -> Iterator[str]:
    yield from teis(config, it)
    for tei, packet, octets in it.units:
        yield f"{of_service('unit', packet, tei)} {digits(octets)}"
    yield f"turn {it.turn}"
    for number, one in it.links.items():
        yield from link(number, one, it.places)


def counters(it: Line) -> Iterator[str]:
    """As `counters` and `messages` of a script show them."""
    for group in (slice(FIRST_MESSAGE), slice(FIRST_MESSAGE, None)):
        shown = [f"counter {name} {n}" for name, n in zip(COUNTED[group], it.counters[group]) if n]
        yield from shown or ["nothing"]


def lengths(milliseconds: List[int]) -> str:
    return " ".join(["timers", *map(str, milliseconds)])


def clock(card: Card) -> Iterator[str]:
    if card.clock is None:
        return
    yield lengths(card.clock.lengths)
    yield f"now {card.clock.now}"
    for at, (it, moments) in enumerate(zip(card.lines, card.clock.moments)):
        for (number, name), moment in zip(it.timers(), moments):
            yield f"{at} {name if number is None else of_link(name, number, it.places)} due {moment}"
    for at, (it, moments) in enumerate(zip(card.lines, card.clock.changed)):
        for number, moment in enumerate(moments):
            if it.places[number // 2] is not None or moment:
                name = of_link("changed", number, it.places) if it.places[number // 2] is not None else f"changed-free {number}"
                yield f"{at} {name} at {moment}"


def words(card: Card) -> Iterator[str]:
    yield from head(card)
    for at, it in enumerate(card.lines):
        yield from (f"{at} {fact}" for fact in line(card.config, it))
    for at, it in enumerate(card.lines):
        yield from (f"{at} {fact}" for fact in counters(it))
    for at, it in enumerate(card.lines):
        yield from (f"{at} {of_link('waits-for-room', number, it.places)}" for number, waits in enumerate(it.waits) if waits)
    yield from clock(card)


def words_of_clock(it: ClockImage) -> Iterator[str]:
    yield f"image version {VERSION} of a clock"
    yield f"lines {len(it.lines)} terminals {it.terminals}"
    yield lengths(it.lengths)
    for at, timers in enumerate(it.lines):
        for one in timers:
            name = TIMERS[one.timer]
            yield f"{at} {of_service(name, one.packet, one.tei) if one.timer < OF_LINKS else name} due {one.due}"


def words_of(octets: bytes) -> Iterator[str]:
    """What is in the image that these octets are; or a `BadImage`."""
    return words_of_clock(read_clock(octets)) if is_of_clock(octets) else words(read(octets))
