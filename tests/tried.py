"""What a wrong body is tried over, for tests/wrong-bodies: a sum of the files that the edit and its control change, before and
after, and of the definitions and types that these reach by name, all without comments and blank space. No place counts."""
import re
import sys

from bodies import Crate, Edit
from days import days_in, read

ROOT = __file__.rpartition("/tests/")[0]
sys.path[:0] = [f"{ROOT}/tests/wrong-machines.d"]
from sums import OF_CODE, Sums

# When each edit was refused last: CRATE/EDIT, the day, and a sum of what it was tried over.
LAST = f"{ROOT}/tests/wrong-bodies.days"

# What code brings in for its contracts, in words of the definitions; and what it brings in of crates.
BROUGHT_IN = re.compile(r"^ *(?:pub )?ghost use ([^;]*);", re.MULTILINE)
OF_CRATES = re.compile(r"^ *(?:pub(?:\([^)]*\))? )?use (\w+)::([^;]*);", re.MULTILINE)
MODULE = re.compile(r"^ *(?:pub(?:\([^)]*\))? )?mod (\w+);\n", re.MULTILINE)
ITSELF = {"crate", "self", "super"}


class Tried:
    """Sums of the edits of some crates."""

    def __init__(self, crates):
        self.sums = Sums(f"{ROOT}/crates", crates)

    def as_definitions(self, path, text):
        """Returns a text of a crate's file as one of definitions: imports begin a line. What it brings in of crates is there by its
        last names, types as such, whatever module has them."""
        if not path.endswith(".rt"):
            return text
        text, found = OF_CODE.sub("", text), set()
        own = {*ITSELF, *self.sums.crates, *MODULE.findall(text)}

        def taken(line):
            if line[1] not in own:
                return line[0]
            found.update(re.findall(r"(\w+(?: as \w+)?)(?!\w|\s*::| as )", f"{line[1]}::{line[2]}"))
            return ""

        text = BROUGHT_IN.sub(r"use \1", OF_CRATES.sub(taken, MODULE.sub("", text)))
        types = {it for it in found if it.split()[0] in self.sums.types}
        brought = [f"use Rattle.of.specs.declared.{it.split()[0]}.{{{it}}}" for it in sorted(types)]
        return "\n".join([*brought, f"use {' '.join(sorted(found - types))};", text])

    def sum_of(self, crate, place, file):
        """Returns a sum of an edit of a crate, with its control: what the files that they change say, before and after."""
        control, texts = (place, file.replace(".edit", ".control")), []
        edit = Edit(crate, place, file)
        for it in [edit, *([Edit(crate, *control)] if control in crate.edits else [])]:
            for path, text in it.texts.items():
                texts += [self.as_definitions(path, read(f"{crate.folder}/{path}")), self.as_definitions(path, text)]
        return self.sums.sum_of([*texts, " ".join(edit.breaks)], [])


def refused_as_they_are(name, crates):
    """Returns for each edit of a crate that names clauses, and was refused over the code and definitions as they are, by its name
    these clauses."""
    crate, tried, told, found = Crate(name), Tried(crates), days_in(read(LAST)), {}
    for place, file in (it for it in crate.edits if it[1].endswith(".edit")):
        edit = Edit(crate, place, file)
        if edit.breaks and told.get(edit.label, [""])[1:] == [tried.sum_of(crate, place, file)]:
            found[edit.label] = edit.breaks
    return found
