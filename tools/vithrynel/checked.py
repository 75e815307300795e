"""The checked form of lapd.h: before each call that answers a status stands one that looks at its pointers, and answers
LAPD_WRONG_POINTER where one is null. A function a step:

    buffers   the pointers to octets with a length after them, which may be null where that is 0
    tests     those of a function's pointers, which lapd.c makes, too
    checked   the whole of include/lapd_checked.h
"""
from typing import List

from .header import Function, Parameter, functions, structs, with_statuses

PATH = "include/lapd_checked.h"
HEAD = """\
/*
 * lapd_checked.h: the calls of lapd.h by the same names, which look at their pointers first. If one is null, the answer is
 * LAPD_WRONG_POINTER, and nothing has changed; a buffer of length 0 may be null. With LAPD_CHECKED defined, lapd.h includes
 * it. The library of one file, lapd.c, looks at them by itself.
 *
 * Written by tools/checked; not to be edited.
 */
#ifndef LAPD_CHECKED_H
#define LAPD_CHECKED_H

"""


def pointers(of: Function) -> List[Parameter]:
    return [it for it in of.parameters if it.is_pointer]


def is_buffer(of: Function, it: Parameter) -> bool:
    """Whether a length stands after it."""
    at = of.parameters.index(it) + 1
    return it.kind in ("uint8_t", "char") and at < len(of.parameters) and length_of(of, it).kind == "size_t" and not length_of(of, it).is_pointer


def length_of(of: Function, it: Parameter) -> Parameter:
    return of.parameters[of.parameters.index(it) + 1]


def buffers(of: Function) -> List[Parameter]:
    return [it for it in pointers(of) if is_buffer(of, it)]


def tests(of: Function, null: str) -> List[str]:
    """What tells that a pointer is null where there has to be one: any of these."""
    found = [f"({it.name} == {null} && {length_of(of, it).name} != 0)" if is_buffer(of, it) else f"{it.name} == {null}"
             for it in pointers(of)]
    return found if len(found) > 1 else [found[0].strip("()")]


def tag(name: str) -> str:
    """A struct's name in C: those that are called like a function have no other."""
    return f"struct {name}" if name in {it.name for it in functions()} else name


def declared(it: Parameter) -> str:
    kind = tag(it.kind) if it.kind in structs() else it.kind
    return f"{'const ' * it.is_const}{kind} {'*' * it.is_pointer}{it.name}"


def wrapped(start: str, parts: List[str], end: str, between: str = ", ", width: int = 120) -> str:
    """Parts in one line, or in several, which begin below the first."""
    rows, row = [], start
    for at, part in enumerate(parts):
        word = part + (between.rstrip() if at + 1 < len(parts) else end)
        if at and len(row) + 1 + len(word) > width:
            rows.append(row)
            row = " " * len(start) + word
        else:
            row += " " * bool(at) + word
    return "\n".join([*rows, row])


def nothing(it: Parameter) -> str:
    """What a null pointer to no octets is taken for; it is not written."""
    return "no_octet" if it.kind == "uint8_t" else "no_text"


def one(of: Function) -> str:
    name = of.name.replace("lapd_", "lapd_checked_", 1)
    words = [f"{it.name} == LAPD_NULL ? &{nothing(it)} : {it.name}" if it in buffers(of) else it.name for it in of.parameters]
    empty = {nothing(it): f"    static {it.kind} {nothing(it)} = 0;" for it in buffers(of)}
    rows = [wrapped(f"LAPD_INLINE_STATUS {name}(", [declared(it) for it in of.parameters], ") {"),
            *empty.values(),
            wrapped("    if (", tests(of, "LAPD_NULL"), ")", " || "), "        return LAPD_WRONG_POINTER;",
            wrapped(f"    return {of.name}(", words, ");"), "}"]
    return "\n".join(rows) + "\n" + alias(of, name)


def alias(of: Function, name: str) -> str:
    """The call's own name, for what comes after it. Where a struct is called like it, its words stand with it."""
    words = f"({', '.join(it.name for it in of.parameters)})" if of.name in structs() else ""
    return f"#define {of.name}{words} {name}{words}\n"


def checked() -> str:
    return HEAD + "\n".join(one(it) for it in with_statuses()) + "\n#endif\n"
