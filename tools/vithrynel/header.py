"""What include/lapd.h declares: its functions, and its structs with where their fields lie in a module's memory, which is as on
x86-64 (tests/c/layout.c has the same numbers by hand, and tests/c/targets.py compares)."""
import functools
import re
from typing import Dict, List, NamedTuple, Optional, Tuple

from .crates import ROOT

HEADER = f"{ROOT}/include/lapd.h"
# How many octets a plain type has, at a multiple of which it lies.
PLAIN = {"bool": 1, "uint8_t": 1, "uint16_t": 2, "uint32_t": 4, "uint64_t": 8, "size_t": 8, "void *": 8}

# How a function of the header begins, and what that means in C99.
KINDS = {"LAPD_STATUS": "uint32_t ", "LAPD_INLINE_STATUS": "static inline uint32_t ", "LAPD_INLINE": "static inline "}


class Parameter(NamedTuple):
    """Of a function: its type without `*` and `const`, and how it is handed over."""
    kind: str
    name: str
    is_pointer: bool
    is_const: bool


class Function(NamedTuple):
    name: str
    result: str
    parameters: Tuple[Parameter, ...]


class Field(NamedTuple):
    """Of a struct; `count` is None where it is no array."""
    kind: str
    name: str
    count: Optional[int]
    at: int


class Struct(NamedTuple):
    name: str
    fields: Tuple[Field, ...]
    octets: int
    alignment: int


def bare(source: str) -> str:
    """A header without comments, with what its words for a function's kind mean in C99."""
    found = re.sub(r"/\*.*?\*/", "", source, flags=re.S)
    return functools.reduce(lambda it, word: re.sub(f"^{word} ", KINDS[word], it, flags=re.M), KINDS, found)


@functools.lru_cache(None)
def text() -> str:
    with open(HEADER, encoding="utf-8") as file:
        return bare(file.read())


def parameter(words: str) -> Parameter:
    found = re.fullmatch(r"(const )?(?:struct )?(\w+) (\*?)(\w+)", " ".join(words.split()))
    if not found:
        raise ValueError(f"a parameter that is not read: {words}")
    return Parameter(found[2], found[4], bool(found[3]), bool(found[1]))


def functions_in(words: str) -> List[Function]:
    rows = re.findall(r"^(uint(?:32|64)_t) (lapd_\w+)\(([^)]*)\);", words, re.M)
    return [Function(name, result, tuple(map(parameter, words.split(",") if words != "void" else ())))
            for result, name, words in rows]


def inlines_in(words: str) -> List[Function]:
    """The functions that a header defines."""
    rows = re.findall(r"^static inline ([^(]*?\W)(lapd_\w+)\(([^)]*)\) \{", words, re.M)
    return [Function(name, result.replace(" *", "*").strip(), tuple(map(parameter, words.split(",")))) for result, name, words in rows]


@functools.lru_cache(None)
def functions() -> List[Function]:
    """The functions of the library, in order: none of those that the header defines."""
    return functions_in(text())


@functools.lru_cache(None)
def with_statuses() -> List[Function]:
    """Those that answer a status."""
    with open(HEADER, encoding="utf-8") as file:
        names = set(re.findall(r"^LAPD_STATUS (lapd_\w+)\(", file.read(), re.M))
    return [it for it in functions() if it.name in names]


def defined() -> List[str]:
    """The functions that the header defines."""
    return re.findall(r"^static inline .*?\b(lapd_\w+)\(", text(), re.M)


def numbers_in(words: str) -> Dict[str, int]:
    return {name: int(number) for name, number in re.findall(r"\b(LAPD_\w+) = (\d+)\b", words)}


def numbers() -> Dict[str, int]:
    """The header's numbers by name."""
    return numbers_in(text())


@functools.lru_cache(None)
def enums() -> List[Dict[str, int]]:
    """The header's enums, each with its numbers by name."""
    bodies = re.findall(r"^enum \{\n(.*?)^\};", text(), re.M | re.S)
    return [{name: int(number) for name, number in re.findall(r"\b(LAPD_\w+) = (\d+)\b", it)} for it in bodies]


def usual(name: str) -> List[int]:
    """The numbers of an initialiser of the header, in order, without the reserved places."""
    words = re.search(rf"^#define LAPD_{name} \{{ (.*), \{{ 0 \}} \}}$", text(), re.M)
    return [numbers()[it] if it in numbers() else int(it) for it in words[1].split(", ")] if words else []


def laid_out(name: str, body: str, known: Dict[str, Struct], counts: Dict[str, int]) -> Struct:
    fields, at, alignment = [], 0, 1
    for kind, field, count in re.findall(r"(\w+|void \*) ?\b(\w+)(?:\[(\w+)\])?;", body):
        size, own = (known[kind].octets, known[kind].alignment) if kind in known else (PLAIN[kind], PLAIN[kind])
        at = -(-at // own) * own
        many = None if not count else int(count) if count.isdigit() else counts[count]
        fields.append(Field(kind, field, many, at))
        at, alignment = at + size * (1 if many is None else many), max(alignment, own)
    return Struct(name, tuple(fields), -(-at // alignment) * alignment, alignment)


def structs_in(words: str) -> Dict[str, Struct]:
    found: Dict[str, Struct] = {}
    for name, body in re.findall(r"^(?:typedef )?struct (\w+) \{\n(.*?)^\}", words, re.M | re.S):
        found[name] = laid_out(name, body, found, numbers_in(words))
    return found


@functools.lru_cache(None)
def structs() -> Dict[str, Struct]:
    return structs_in(text())


def octets_of(kind: str, known: Dict[str, Struct]) -> int:
    """How many octets a value of a type has, which is a plain one or a struct."""
    return known[kind].octets if kind in known else PLAIN[kind]
