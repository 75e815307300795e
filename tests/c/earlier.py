"""What a program that was compiled with an earlier header needs of a later one: the rule at the top of lapd.h, for tests/c/declared
and tests/c/run. tests/c/versions keeps the header of each version, and a table of what stands in it:

    struct NAME OCTETS ALIGNMENT        field STRUCT NAME TYPE PLACE [COUNT]
    number NAME VALUE                   call RESULT NAME PARAMETERS
    value NAME WORDS                    inline RESULT NAME PARAMETERS

A value is what a #define stands for, as an initialiser, with numbers in place of their names. An inline call is one that the header
defines.
"""
import os
import re
import sys
from typing import Dict, List, NamedTuple, Set

HERE = os.path.dirname(os.path.abspath(__file__))
KEPT = f"{HERE}/versions"
sys.path.insert(0, os.path.join(os.path.dirname(os.path.dirname(HERE)), "tools"))
from vithrynel.header import Field, Function, Struct, bare, functions_in, inlines_in, numbers_in, octets_of, structs_in

# Numbers that may grow with a new minor version: how many counters there are.
GROWING = {"LAPD_COUNTERS"}
# How a field is called that keeps room for a later version.
RESERVED = "reserved"
# How a value ends that has reserved places.
REST = " { 0 } }"


class Shape(NamedTuple):
    """What a program that was compiled has of a header."""
    structs: Dict[str, Struct]
    numbers: Dict[str, int]
    calls: Dict[str, str]
    values: Dict[str, str]
    inlines: Dict[str, str]


def spelt(it: Function) -> str:
    return " ".join([it.result, it.name, *(f"{'const ' * one.is_const}{one.kind}{'*' * one.is_pointer}" for one in it.parameters)])


def values_in(words: str) -> Dict[str, str]:
    """What each #define stands for that is an initialiser or a number in brackets, word by word."""
    known = {name: str(value) for name, value in numbers_in(words).items()}
    rows = re.findall(r"^#define (LAPD_\w+) ([({].*)$", words, re.M)
    return {name: " ".join(known.get(it, it) for it in re.findall(r"\w+|<<|[{}()]", value)) for name, value in rows}


def shape(header: str) -> Shape:
    words = bare(header)
    return Shape(structs_in(words), numbers_in(words), {it.name: spelt(it) for it in functions_in(words)}, values_in(words),
                 {it.name: spelt(it) for it in inlines_in(words)})


def table(of: Shape) -> List[str]:
    rows = []
    for it in of.structs.values():
        rows.append(f"struct {it.name} {it.octets} {it.alignment}")
        rows += [f"field {it.name} {one.name} {one.kind.replace(' ', '')} {one.at}{'' if one.count is None else f' {one.count}'}" for one in it.fields]
    rows += [f"number {name} {value}" for name, value in of.numbers.items()] + [f"call {it}" for it in of.calls.values()]
    return rows + [f"value {name} {it}" for name, it in of.values.items()] + [f"inline {it}" for it in of.inlines.values()]


def versions() -> List[str]:
    """The names of the headers that are kept."""
    return sorted(it[:-2] for it in os.listdir(KEPT) if it.endswith(".h"))


def kept(name: str) -> str:
    with open(f"{KEPT}/{name}", encoding="utf-8") as file:
        return file.read()


def places(it: Field, known: Dict[str, Struct]) -> Set[int]:
    """The octets of its struct in which a field lies."""
    return set(range(it.at, it.at + octets_of(it.kind, known) * (1 if it.count is None else it.count)))


def broken_struct(was: Struct, now: Struct, before: Shape, after: Shape) -> List[str]:
    free: Set[int] = set().union(*(places(it, before.structs) for it in was.fields if it.name == RESERVED))
    own, wrong = {it.name: it for it in now.fields}, []
    if (was.octets, was.alignment) != (now.octets, now.alignment):
        wrong.append(f"{was.name} has {now.octets} octets, not {was.octets}")
    for it in was.fields:
        one = own.get(it.name)
        if it.name == RESERVED:
            continue
        if one is None or (one.kind, one.at) != (it.kind, it.at):
            wrong.append(f"{was.name}.{it.name} is gone, has moved, or has another type")
        elif not places(one, after.structs) <= places(it, before.structs) | free or (one.count or 0) < (it.count or 0):
            wrong.append(f"{was.name}.{it.name} has another length")
    known = {it.name for it in was.fields}
    return wrong + [f"{was.name}.{it.name} takes no reserved place" for it in now.fields
                    if it.name not in known and it.name != RESERVED and not places(it, after.structs) <= free]


def is_value(was: str, now: str) -> bool:
    """Whether a value is as it was, except that new fields have taken reserved places, and are 0."""
    if not (was.endswith(REST) and now.endswith(REST)):
        return was == now
    fields, more = was[:-len(REST)].split(), now[:-len(REST)].split()
    return more[:len(fields)] == fields and set(more[len(fields):]) <= {"0"}


def broken(before: Shape, after: Shape) -> List[str]:
    """What of the rule a later header breaks: nothing if a program of before runs over its library."""
    wrong = [f"struct {name} is gone" for name in before.structs if name not in after.structs]
    for name, was in before.structs.items():
        wrong += broken_struct(was, after.structs[name], before, after) if name in after.structs else []
    for name, value in before.numbers.items():
        now = after.numbers.get(name)
        if now != value and not (name in GROWING and now is not None and now > value):
            wrong.append(f"{name} is {now}, not {value}")
    wrong += [f"{name} is {after.values.get(name)}, not {it}" for name, it in before.values.items() if not is_value(it, after.values.get(name, ""))]
    # what a header defined may become a call of the library
    there = {**after.calls, **after.inlines}
    wrong += [f"{name} is {there.get(name)}, not {it}" for name, it in before.inlines.items() if there.get(name) != it]
    return wrong + [f"{name} is {after.calls.get(name)}, not {it}" for name, it in before.calls.items() if after.calls.get(name) != it]


# ---- Trials: edits of a copy of the header ---------------------------------------------------------------------------------

def edited(header: str, *pairs: str) -> str:
    """A header with each text, which stands there once, replaced by the one after it."""
    for old, new in zip(pairs[::2], pairs[1::2]):
        if len(re.findall(old, header)) != 1:
            raise ValueError(f"an edit does not fit the header: {old}")
        header = re.sub(old, new, header)
    return header


def taken(header: str, struct: str, field: str) -> str:
    """A header with a field in the first reserved place of a struct."""
    found = re.search(rf"\bstruct {struct} \{{\n(?:    [^\n]*\n)*?    (uint\d+_t) reserved\[(\d+)\]", header)
    if not found:
        raise ValueError(f"an edit does not fit the header: {struct}")
    rest = f"    {found[1]} reserved[{int(found[2]) - 1}]"
    return header[:found.start(1) - 4] + (f"    {found[1]} {field};\n" if field else "") + rest + header[found.end():]


ASKS_PATIENCE = """LAPD_INLINE bool lapd_is_patient(const lapd_config *config) {
    return config->patience != 0;
}

"""


def grown(header: str) -> str:
    """A copy with a field of the configuration and a call that asks of it, a counter, a number of a report, and a status: what a minor
    version may bring."""
    counters = numbers_in(bare(header))["LAPD_COUNTERS"]
    header = taken(taken(header, "lapd_config", "patience"), "lapd_report", "patient")
    header = re.sub(r"(#define LAPD_(?:BASIC_ACCESS|PRIMARY_RATE) \{ .*), \{ 0 \} \}", r"\1, 0, { 0 } }", header)
    header = taken(header, "lapd_counters", "")
    return edited(header, f"LAPD_COUNTERS = {counters}\n", f"LAPD_HEARD_PATIENCE = {counters}, LAPD_COUNTERS = {counters + 1}\n",
                  "LAPD_BAD_RESERVED = 47,", "LAPD_BAD_RESERVED = 47, LAPD_IMPATIENT = 99,",
                  "LAPD_INLINE bool lapd_tells", ASKS_PATIENCE + "LAPD_INLINE bool lapd_tells")


def trials(header: str) -> Dict[str, str]:
    """Copies that break the rule, each in one way, by what this is."""
    return {
        "a field that moves": edited(header, r"    uint16_t lines; [^\n]*\n", "", r"(    uint16_t terminals; [^\n]*\n)", r"\1    uint16_t lines;\n"),
        "a field before others": edited(header, r"(    uint8_t service; /\* LAPD_CALL or LAPD_PACKET \*/\n    uint8_t tei;     /\* 0 to 126 \*/)",
                                        r"    uint8_t line;\n\1"),
        "a struct that grows": edited(header, r"uint32_t reserved\[4\];", "uint32_t patience;\n    uint32_t reserved[4];"),
        "a field of another type": edited(header, r"    uint16_t line;  ", "    uint8_t line;  "),
        "a field in a place that was not reserved": edited(header, r"(    uint8_t reopened_tei; [^\n]*\n)", r"\1    uint8_t patient;\n"),
        "a field that goes": edited(header, r"    uint8_t va; [^\n]*\n    uint8_t reserved\[10\]", "    uint8_t reserved[11]"),
        "a number that changes": edited(header, r"LAPD_NO_FRAME = 28,", "LAPD_NO_FRAME = 29,"),
        "a counter that moves": edited(header, r"LAPD_LOST = 64,", "LAPD_LOST = 65,"),
        "a call with another parameter": edited(header, r"lapd_lines\(lapd_card \*card, uint32_t \*lines\);", "lapd_lines(lapd_card *card, uint16_t *lines);"),
        "a call that goes": edited(header, r"LAPD_STATUS lapd_stored\([^\n]*\n", ""),
        "an inline call of another name": edited(header, r"LAPD_INLINE bool lapd_tells\(", "LAPD_INLINE bool lapd_has_told("),
        "an inline call with a parameter more": edited(header, r"LAPD_INLINE uint8_t lapd_turned\(uint8_t octet\)", "LAPD_INLINE uint8_t lapd_turned(uint8_t octet, bool is_turned)"),
        "an inline call that answers another type": edited(header, r"LAPD_INLINE uint8_t lapd_turned\(", "LAPD_INLINE uint16_t lapd_turned("),
        "an inline call that was one of the library": edited(header, r"LAPD_STATUS lapd_stored\(lapd_card \*card, uint32_t \*octets\);",
                                                             "LAPD_INLINE_STATUS lapd_stored(lapd_card *card, uint32_t *octets) {\n}"),
        "another latest moment": edited(header, r"UINT64_C\(1\) << 63", "UINT64_C(1) << 62"),
        "another window of basic access": edited(header, r"LAPD_BASIC_ACCESS \{ 1, 8, 1, 3,", "LAPD_BASIC_ACCESS { 1, 8, 3, 3,"),
        "another reading of primary rate": edited(header, r"(LAPD_PRIMARY_RATE \{.*) LAPD_ANNEX_B,", r"\1 LAPD_PROFILE,"),
        "a preset whose new field is on": edited(header, r"(LAPD_PRIMARY_RATE \{.*) \{ 0 \} \}", r"\1 1, { 0 } }"),
        "a preset whose reserved place is on": edited(header, r"(LAPD_PRIMARY_RATE \{.*) \{ 0 \} \}", r"\1 { 1 } }"),
        "a preset that goes": edited(header, r"#define LAPD_BASIC_ACCESS .*\n", ""),
        "other default lengths": edited(header, r"\{ 1000, 10000,", "{ 2500, 10000,"),
    }
