"""Whether the records that rows write have the fields of one that is declared, for tests/wrong-machines."""
import os
import re

from definitions import HELD_TEXT, read
from rows import ROOT, SHARED, shared_part

# Records and structs with their fields, and a record that is written.
RECORD = r"^(?:abbrev )?(?:pub )?record [^\n]* where\n((?: .*\n|\n)*)"
STRUCT = r"^ *pub(?:\([^)]*\))? struct \w+(?:<[^>]*>)? \{\n(.*?)^ *\}"
FIELD = r"^ +(?:pub(?:\([^)]*\))? )?(?:ghost )?(\w+) ?:"
WRITTEN = r"\brecord \{"
# The toolchain's own, which rows write, too: a list, its allocator and its memory.
OF_STD = "ptr len cap alloc items ok small", "memory", "seal"


def declared(text, form):
    """Returns the fields of each record of a text, or of each struct."""
    flags = re.MULTILINE | (re.DOTALL if form == STRUCT else 0)
    return {frozenset(re.findall(FIELD, it[1], re.MULTILINE)) for it in re.finditer(form, text, flags)}


def all_declared():
    """Returns the fields of each record and each struct of the crates, of what proofs share, and of the toolchain's."""
    found = {frozenset(it.split()) for it in OF_STD}.union(*[declared(shared_part(it), RECORD) for it in SHARED])
    for folder, _, files in os.walk(f"{ROOT}/crates"):
        part = os.path.relpath(folder, f"{ROOT}/crates").split(os.sep)[1:2]
        for file in files if part in (["specs"], ["src"]) else ():
            found |= declared(read(f"{folder}/{file}"), RECORD if part == ["specs"] else STRUCT)
    return found


def written(text):
    """Returns the fields of each record that a text writes whole, from none else."""
    for start in re.finditer(WRITTEN, text):
        depth, fields, parts = 1, [], re.split(r"([{}()\[\];])", text[start.end() :])
        for before, sign, after in zip(["", *parts[1::2]], parts[1::2], parts[::2]):
            name = re.match(r"\s*(\w+) = ", after) if before in ("", ";") and depth == 1 else None
            fields += [name[1]] if name else []
            depth += (sign in "{([") - (sign in "})]")
            if not depth:
                yield frozenset(fields)
                break


def unknown_records(row, there):
    """Returns what is wrong with the records that a row writes."""
    texts = [it.proof for it in row.claims] + [new for _, _, new in row.changes]
    own = there.union(*[declared(it, RECORD) for it in texts])
    wrong = {", ".join(sorted(it)) for text in texts for it in written(text) if it not in own}
    return [f"{row.name}: no record has these fields: {it}" for it in sorted(wrong)]


def unlike_held(there):
    """Returns which records of held.text have not the fields of a struct, without its address."""
    plain = {it - {"at"} for it in there}
    wrong = {", ".join(sorted(it)) for it in declared(read(HELD_TEXT), RECORD) if it not in plain}
    return [f"held.text: no struct has these fields: {it}" for it in sorted(wrong)]
