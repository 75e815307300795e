"""The one table of what include/lapd.h does not say of its names: how a configuration stands in a card line and in an image, the
ranges of its numbers, and what they are. `tools/names` writes from both what other files spell, other modules read it, and
tests/c/declared compares it with the definitions in Rattle. A new field of lapd_config is a row here. A function a step:

    card_line    the numbers of a card line, in order
    endings      what may stand after them
    taken_apart  a card line's words as numbers and endings
    texts        the texts of the header's numbers, as a function of it has them
    counters     what is counted of a line, in order
    counted      what is counted of a link, in order
"""
import functools
import re
from typing import Dict, Iterable, List, NamedTuple, Tuple

from .header import HEADER, numbers, structs


class Field(NamedTuple):
    """A field of lapd_config that is a number; in the header's order."""
    name: str
    least: int
    most: int
    octets: int  # in an image: all of one octet come before those of two
    words: str
    at_least: Tuple[str, ...] = ()  # its least is the greatest of these fields, too
    left_out: str = ""  # it may be left out of a card line, and is this field then; of the numbers the last
    after: str = ""  # no number of the card line: it stands after this word, and 0 in lapd_config means that none does
    usual: int = 0  # what it is then, if it is not `left_out`


FIELDS = [
    Field("lines", 1, 64, 1, "lines of the card"),
    Field("terminals", 1, 8, 1, "TEIs on each line"),
    Field("k", 1, 127, 1, "the window of call control (clause 5.9.5)"),
    Field("k16", 1, 127, 1, "the window of the second service", left_out="k"),
    Field("queue", 1, 127, 1, "contents that wait on each link, sent or unsent", at_least=("k", "k16")),
    Field("unit_queue", 1, 16, 1, "unit data that wait on each line"),
    Field("control", 2, 16, 1, "control frames on each link"),
    Field("slots", 1, 8192, 2, "contents on the whole card"),
    Field("n201", 8, 260, 2, "octets of an information field at most (clause 5.9.3)"),
    Field("n200", 0, 10, 1, "how often a command is repeated (clause 5.9.2)"),
    Field("sapi", 1, 62, 1, "the SAPI of the second service", after="sapi", usual=16),
]
# Other fields name one of an enum, here by its first. Flags of an image say which, and of a card line these words.
ENUMS = {"side": "LAPD_NETWORK", "reading": "LAPD_PROFILE"}
SIDE, READING = "user", "annex-b"


class Ending(NamedTuple):
    """A word that may stand at the end of a card line."""
    word: str
    names: Dict[int, str]  # the value that it has for its field, by how many words follow it; fewer are tried first
    from_place: int  # it is none before
    field: str
    number: str  # the field that a word after it says


class Word(NamedTuple):
    """A first word of a script's line."""
    word: str
    numbers: int  # so many follow it
    least: int = 0  # of the last of them
    most: int = 65535
    octets: bool = False  # they come after the numbers
    request: str = ""  # of lapd.h
    service: str = "0"


MOST_TEI = 255
# Words that are read in a way of their own; and the others. Of a request without a row the word is the header's name.
CARDS, OWN_WAY = ("card", "frames"), ("timers", "failed")
REQUESTS = {"ask": "LAPD_ASK_TEI", "verify": "LAPD_VERIFY_TEI"}


def request(word: str, service: str = "LAPD_CALL", numbers: int = 2) -> Word:
    most, ending = (MOST_TEI if numbers == 2 else 65535), "16" * (service == "LAPD_PACKET")
    return Word(f"{word}{ending}", numbers, 0, most, word in ("data", "unit"), REQUESTS.get(word, f"LAPD_{word.upper()}"), service)


WORDS = [
    Word("rx", 1, octets=True), Word("in", 1, octets=True), Word("pull", 2, 1, 4096), Word("next", 1), Word("wait", 1, 0, 3600000),
    Word("stored", 0), Word("losses", 0), Word("save", 0), Word("restore", 0), Word("counters", 1), Word("messages", 1), Word("down", 1),
    request("ask", numbers=1), *map(request, ("verify", "assign", "remove", "check", "disown")),
    *(request(it, service) for service in ("LAPD_CALL", "LAPD_PACKET") for it in ("establish", "release", "busy", "ready", "deactivate", "data", "unit")),
]
# Those that are about no line of the card.
CARD_WIDE = [*CARDS, "wait", "timers", *(it.word for it in WORDS if not it.numbers)]


def card_line() -> List[Field]:
    return sorted((it for it in FIELDS if not it.after), key=lambda it: it.left_out != "")


def least_numbers() -> int:
    """So many numbers each card line has."""
    return sum(not it.left_out for it in card_line())


def endings() -> List[Ending]:
    """In the order in which they stand."""
    return [Ending(SIDE, {0: "LAPD_USER", 1: "LAPD_TERMINAL"}, least_numbers(), "side", "seed"),
            *(Ending(it.after, {1: "0"}, 0, it.name, it.name) for it in FIELDS if it.after),
            Ending(READING, {0: "LAPD_ANNEX_B"}, 0, "reading", "reading")]


def taken_apart(words: List[str]) -> Tuple[List[str], Dict[str, List[str]]]:
    """The numbers of a card line's words, however many, and what follows each ending that is there. It is read from its end."""
    found: Dict[str, List[str]] = {}
    for it in reversed(endings()):
        at = next((len(words) - 1 - count for count in it.names if words[-1 - count:][:1] == [it.word]), -1)
        if at >= it.from_place:
            found[it.word], words = words[at + 1:], words[:at]
    return words, found


def numbers_of(words: List[str], ended: Dict[str, List[str]]) -> Dict[str, int]:
    """By their fields the numbers that a card line says, or leaves out: of words as `taken_apart` has them."""
    found = {it.name: int(word) for it, word in zip(card_line(), words)}
    found.update({it.name: found[it.left_out] for it in card_line() if it.left_out and it.name not in found})
    found.update({it.name: int(ended[it.after][0]) for it in FIELDS if it.after in ended})
    return {**{it.name: found[it.left_out] if it.left_out else it.usual for it in FIELDS if it.after}, **found}


def behind_numbers() -> int:
    """So many octets of an image stand before the seed: seven, and the numbers."""
    return 7 + sum(it.octets for it in FIELDS)


def link_octets() -> int:
    """So many a link has in an image, without what waits."""
    return 9 + 2 * len(counted())


def in_order(names: Iterable[str]) -> List[Field]:
    """The fields of an image, those of one octet first."""
    return sorted((it for it in FIELDS if it.name in names), key=lambda it: it.octets)


@functools.lru_cache(None)
def texts(function: str) -> Dict[str, str]:
    """By the header's names the texts that a function of it answers; without the ending of packet links."""
    with open(HEADER, encoding="utf-8") as file:
        body = re.search(rf" \*?{function}\(.*?^\}}", file.read(), re.M | re.S)
    return {name: text for name, text in re.findall(r'case (LAPD_\w+): return (?:packet \? "[^"]*" : )?"([^"]*)";', body[0] if body else "")}


def counters() -> List[str]:
    """As a script shows them: the header's names by their places."""
    own = numbers()
    first = own["LAPD_HEARD_I"]
    names = [name for name in own if re.match("LAPD_(HEARD|BEGUN|DROPPED|ERRORS|TOLD)_|LAPD_LOST$", name)]
    return [it[len("LAPD_"):].lower().replace("_", "-") for it in sorted(names, key=lambda it: own[it] - first)]


def counted() -> List[str]:
    return [it.name for it in structs()["lapd_link_counters"].fields if it.name != "reserved"]
