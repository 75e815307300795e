"""Wrong code of the crates, for tests/wrong-bodies: the edits of a crate, with their controls, and the functions that each changes."""
import difflib
import os
import re

from days import read

ROOT = os.path.dirname(os.path.dirname(os.path.abspath(__file__)))
FUNCTION = re.compile(r'( *)(?:pub(?:\([^)]*\))? )?(?:const )?(?:extern "C" )?fn (\w+)')
FOLDER, TABLE = PLACES = "must-fail", "wrong-bodies.txt"
GOES_ON = "     "
BEGUN = re.compile(r"(edit|control): ([\w-]+)")
# A name with a capital, and small letters, that no path has before it and none after it; and what a name's module is called.
NAMED, MODULE = re.compile(r"(?<![\w:.])[A-Z]\w*[a-z]\w*\b(?!\s*::|[\w!])"), re.compile(r"\bspecs\.[\w.]+")
USUAL = {"Some", "None", "Ok", "Err"}
# What an edit brings in for itself: the crate, the module, and the words.
BROUGHT_IN = re.compile(r"ghost use Rattle\.(\w+)\.specs\.([\w.]+)\.\{([^}]*)\}")


def blocks_of(path):
    """Returns what a table has: the text of each NAME.edit and NAME.control."""
    blocks, name = {}, None
    for line in read(path).split("\n"):
        begun = BEGUN.fullmatch(line)
        if begun:
            name = f"{begun[2]}.{begun[1]}"
            if name in blocks:
                raise ValueError(f"{os.path.relpath(path, ROOT)}: {name} stands there twice")
            blocks[name] = ""
        elif line and not line.startswith("#"):
            if name is None:
                raise ValueError(f"{os.path.relpath(path, ROOT)}: a line stands before the first edit: {line}")
            goes_on = line.startswith(GOES_ON) and blocks[name]
            blocks[name] = f"{blocks[name].rstrip()} {line.strip()}\n" if goes_on else f"{blocks[name]}{line}\n"
    return blocks


def brought_in(crate, module, words):
    """Returns those of the words that the module of a crate has; the kit's has all."""
    path = f"{ROOT}/crates/{crate}/specs/{module.replace('.', '/')}.antt"
    there = set(re.findall(r"\w+", read(path))) if os.path.exists(path) else set()
    return [it for it in words.split(", ") if crate == "std" or it in there]


class Edit:
    """One edit: the lines that it changes, by file, and the functions in which they are."""

    def __init__(self, crate, place, name):
        self.label, self.is_control = f"{crate.name}/{name.removesuffix('.edit')}", name.endswith(".control")
        self.texts, self.breaks, path, old = {}, [], "", ""
        for line in crate.edits[place, name].split("\n"):
            if line.startswith("breaks: "):
                self.breaks = line[8:].split()
            elif line.startswith("file: "):
                path = line[6:].strip()
            elif line.startswith("old: "):
                old = line[5:]
            elif line.startswith("new:"):
                text = self.texts.get(path) or read(f"{crate.folder}/{path}")
                if text.count(old) != 1:
                    raise ValueError(f"{self.label}: an 'old:' text is in {path} {text.count(old)} times, and not once")
                self.texts[path] = text.replace(old, line[4:].removeprefix(" "))
            elif line:
                raise ValueError(f"{self.label}: a line is none of 'file:', 'old:' and 'new:': {line}")
        if not self.texts:
            raise ValueError(f"{self.label}: it has no 'old:' and 'new:'")
        self.hunks, self.functions, self.lines = [], set(), set()
        for path, text in self.texts.items():
            self.add_hunks(crate, path, text.split("\n"))
        known = {it for path in self.texts for it in re.findall(r"\w+", MODULE.sub("", read(f"{crate.folder}/{path}")))}
        news = "\n".join(line for _, _, _, lines in self.hunks for line in lines)
        known |= {it for at in BROUGHT_IN.findall(news) for it in brought_in(*at)}
        self.unknown = sorted(set(NAMED.findall(re.sub(r"//.*", "", news))) - known - USUAL)

    def add_hunks(self, crate, path, new):
        old = read(f"{crate.folder}/{path}").split("\n")
        for what, i, j, k, l in difflib.SequenceMatcher(None, old, new, autojunk=False).get_opcodes():
            if what == "equal" or "".join("".join(old[i:j]).split()) == "".join("".join(new[k:l]).split()):
                continue
            self.hunks.append((path, i, j, new[k:l]))
            self.lines |= {(path, at) for at in range(i, max(j, i + 1))}
            added = [at for at in range(k, l) if FUNCTION.match(new[at]) and new[at] not in old[i:j]]
            if added and not any(FUNCTION.match(it) for it in old[i:j]):
                self.functions |= {function_at(crate.name, path, new, at) for at in added}
            else:
                self.functions |= {function_at(crate.name, path, old, at) for at in range(i, max(j, i + 1))}

    def is_alone(self):
        return None in self.functions or not self.functions

    def goes_with(self, other):
        """Returns whether both can stand in one batch."""
        is_one_alone = self.is_alone() or other.is_alone()
        return not is_one_alone and not self.functions & other.functions and not self.lines & other.lines


def function_at(crate, path, lines, at):
    """Returns the path of the function in whose text a line is, as rattle names it, or None."""
    for start in range(at, -1, -1):
        found = FUNCTION.match(lines[start])
        if not found:
            continue
        indent, name = found.groups()
        end = next((it for it in range(start, len(lines)) if lines[it] == indent + "}"), start)
        if end < at:
            return None
        parts = [crate, *[it for it in path[4:-3].split("/") if it not in ("lib", "main")]]
        if indent:
            above = next((lines[it] for it in range(start, -1, -1) if re.match(r"(impl|trait|pub trait)\b", lines[it])), "")
            # (rattle's name of a From has what it is from)
            above = re.sub(r"\bFrom<(?:\w+::)*(\w+)>", r"From\1", above)
            above = re.sub(r"<[^<>]*>", "", re.sub(r"<[^<>]*>", "", above))
            is_for = re.match(r"impl ([\w:]+) for ([\w:]+)", above)
            words = re.match(r"(?:impl|trait|pub trait) ([\w:]+)", above)
            # (rattle names a drop by its type alone)
            of_trait = is_for[1].split("::")[-1].removesuffix("Drop") if is_for else ""
            parts.append(is_for[2] + of_trait if is_for else words[1] if words else "?")
        return "::".join([*parts, name])
    return None


class Crate:
    """A crate, with the texts of its edits and controls: by where they stand, and NAME.edit or NAME.control."""

    def __init__(self, name):
        self.name, self.folder, self.edits = name, f"{ROOT}/crates/{name}", {}
        folder, table = (f"{self.folder}/{it}" for it in PLACES)
        for it in sorted(os.listdir(folder)) if os.path.isdir(folder) else ():
            self.edits[FOLDER, it] = read(f"{folder}/{it}")
        blocks = blocks_of(table) if os.path.exists(table) else {}
        self.edits.update(((TABLE, it), blocks[it]) for it in sorted(blocks))

    def in_places(self, places):
        """Returns what stands in these places, each name with its place before it."""
        return [it for it in self.edits if it[0] in places]

    def said(self, place, name):
        """Returns where an edit is, in words."""
        return f"{self.name}/{place}{'/' if place == FOLDER else ': '}{name}"
