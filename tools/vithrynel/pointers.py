"""C that hands each call of lapd.h each of its pointers as null, written from the header itself, so that a call that is added is
asked, too: a program, or a part of check."""
import re
from typing import List

from .checked import is_buffer, length_of, pointers, tag
from .header import Function, parameter, structs, text, with_statuses

PROGRAM = """\
#include <stdio.h>
#include <string.h>

#include "lapd.h"

static int failed;

static void wants(bool is, const char *what) {
    if (!is) {
        failed = 1;
        fprintf(stderr, "pointers: %s\\n", what);
    }
}
"""
PART = """\
/* null.c: null pointers, each of each call's. Written by pointers.py of Vithrynel from lapd.h; not to be edited. */
#include <string.h>

#define LAPD_CHECKED
#include "check.h"
#include "lapd.h"
"""
HEAD = """\

static const lapd_config config = {.lines = 2, .terminals = 2, .k = 1, .k16 = 1, .queue = 2, .unit_queue = 8, .control = 2, .slots = 8,
                                   .n201 = 8, .n200 = 1};

/* What calls write to; after a wrong call each octet is as it was. */
static struct {
@FIELDS@} own, was;

static void fresh(void) {
    memset(&own, 0x55, sizeof own);
    own.at_lapd_config = config;
    memcpy(&was, &own, sizeof was);
}

/* How much a card stores and has counted. */
static uint64_t sum(lapd_card *card) {
    uint32_t stored = 0;
    struct lapd_counters counters;
    uint64_t total = 0;
    wants(lapd_stored(card, &stored) == LAPD_OK && lapd_counters(card, 0, &counters) == LAPD_OK, "the card is gone");
    for (unsigned i = 0; i < LAPD_COUNTERS; i++)
        total += counters.values[i];
    return total << 32 | stored;
}

@BEGIN@
    lapd_card card = LAPD_CARD_NONE;
    lapd_clock clock = LAPD_CLOCK_NONE;
    wants(lapd_card_start_frames(&card, &config) == LAPD_OK && lapd_clock_start(&clock, &config) == LAPD_OK, "no start");
    wants(lapd_assign(&card, 0, 64, &own.at_lapd_report) == LAPD_OK, "no TEI");
    uint64_t before = sum(&card);
"""
TAIL = """\
    wants(sum(&card) == before, "a wrong call has changed the card");
@EMPTY@\
    wants(lapd_card_free(&card) == LAPD_OK && lapd_clock_free(&clock) == LAPD_OK, "no end");
@END@}
"""


def defined_statuses() -> List[Function]:
    """The functions that the header defines and that answer a status."""
    rows = re.findall(r"^static inline uint32_t (lapd_\w+)\(([^)]*)\) \{", text(), re.M)
    return [Function(name, "uint32_t", tuple(map(parameter, words.split(",")))) for name, words in rows]


def kind_of(of: Function, at: int) -> str:
    it = of.parameters[at]
    return tag(it.kind) if it.kind in structs() else it.kind


def field(kind: str) -> str:
    return "at_" + kind.replace("struct ", "").replace("void *", "pointer")


def words(of: Function, null: str, length: str) -> str:
    """The words of a call, of which one pointer is null; each buffer has a length."""
    lengths = {length_of(of, it).name for it in pointers(of) if is_buffer(of, it)}
    handles = {"lapd_card": "&card", "lapd_clock": "&clock"}
    found = []
    for at, it in enumerate(of.parameters):
        if it.name == null:
            found.append("NULL")
        elif it.is_pointer:
            found.append(handles.get(it.kind) or f"&own.{field(kind_of(of, at))}")
        else:
            found.append(length if it.name in lengths else "64" if it.name == "tei" else "0")
    return f"{of.name}({', '.join(found)})"


def program() -> str:
    return PROGRAM + asked("int main(void) {", "    return failed;\n")


def part() -> str:
    """null.c of check; the calls look at their pointers in any library there, as the file is compiled with LAPD_CHECKED."""
    return PART + asked("void check_null(void) {", "")


def asked(begin: str, end: str) -> str:
    """Each call with each of its pointers as null; and with null for no octets, which is as an address there."""
    calls = [it for it in [*with_statuses(), *defined_statuses()] if pointers(it)]
    kinds = {kind_of(it, at) for it in calls for at, one in enumerate(it.parameters) if one.is_pointer}
    fields = "".join(f"    {it} {field(it)};\n" for it in sorted(kinds))
    rows = [(it, one) for it in calls for one in pointers(it)]
    text_of = HEAD.replace("@FIELDS@", fields).replace("@BEGIN@", begin)
    for it, one in rows:
        text_of += (f"    fresh();\n    wants({words(it, one.name, '1')} == LAPD_WRONG_POINTER && memcmp(&own, &was, sizeof own) == 0,\n"
                    f'          "{it.name} with null for {one.name}");\n')
    empty = "".join(f"    fresh();\n    wants({words(it, one.name, '0')} == {words(it, '', '0')},\n"
                    f'          "{it.name} with null for no octets of {one.name}");\n'
                    for it, one in rows if is_buffer(it, one))
    assert len(rows) > 60
    return text_of + TAIL.replace("@EMPTY@", empty).replace("@END@", end)
