"""The definitions of crates, module by module, for tests/wrong-machines."""
import functools
import os
import re

# A worked value: its statement, what it unfolds, and its proof by computing, alone or field by field.
WORKED = re.compile(
    r"^(?:pub )?(\S+) :(?:.*\n)(?:[ \t].*\n)*(?:unfolding .*\n)?\1 = (?:refl|record \{\n(?:[ \t].*\n)*\})\n",
    re.MULTILINE,
)
# What a file of worked values has beside them: imports and definitions.
DEFINES = re.compile(r"(?:--.*\n)*(?:pub )?(?:use|abbrev|unfoldable) ")
# The words that an import brings by a list, or by another name. And a line that hands words on.
WORDS = re.compile(r"[^\s,{}]+(?=[,}])|(?<= as )\w+$", re.MULTILINE)
HANDS_ON = re.compile(r"(?:unfoldable )?pub use ")
# A type that a crate keeps to itself, and a plain one of a static library, of which no other crate can take any.
KEPT = re.compile(r"^#\[derive\(Clone, Copy\)\]\npub\(crate\) (?:struct|enum) (\w+) \{\n(?:.+\n|\n)*?\}\n", re.MULTILINE)
PLAIN = re.compile(
    r"^(?:#\[repr\(C\)\]\n)?#\[derive\(Clone, Copy(?:, Debug)?\)\]\npub(?:\(crate\))? struct (\w+) \{\n(?:.+\n|\n)*?\}\n",
    re.MULTILINE,
)
# What such a type may name: a constant of its file, and what that brings in of a library.
CONSTANT = re.compile(r"^const (\w+): .*\n", re.MULTILINE)
BROUGHT_IN = re.compile(r"^use ((?!crate\b)\w+)::(.*);", re.MULTILINE)
# The full name of a module in held.text, before its text.
HELD_TEXT = os.path.join(os.path.dirname(os.path.abspath(__file__)), "held.text")
HELD = re.compile(r"^(Rattle\.\w+\.specs\.[\w.]+):\n", re.MULTILINE)
# An import of a list of words.
LIST = re.compile(r"((?:unfoldable )?(?:pub )?use )(Rattle\.[\w.]*\w)\.\{([^}]*)\}$", re.MULTILINE)
# A module by its full name, or a word of it; and the words that an import takes of it.
FULL = re.compile(r"\bRattle\.\w+\.(?:specs|proofs)\.[\w.]*\w")
TAKEN = re.compile(rf"({FULL.pattern})\.?(\{{[^}}]*\}})?")


def read(path):
    with open(path, encoding="utf-8") as it:
        return it.read()


def write(path, text):
    os.makedirs(os.path.dirname(path), exist_ok=True)
    with open(path, "w", encoding="utf-8") as it:
        it.write(text)


def files_in(folder):
    """Returns the files of a folder and of those in it, by their paths there."""
    return sorted(os.path.relpath(f"{at}/{it}", folder) for at, _, files in os.walk(folder) for it in files)


def without_worked(text, name):
    """Returns the text of a module without its worked values."""
    parts = WORKED.sub("", text).split("\n\n")
    kept = [it for it in parts if not name.startswith("Worked") or DEFINES.match(it.lstrip("\n"))]
    return "\n\n".join(kept).rstrip("\n") + "\n"


def held(name):
    """Returns the handles of a crate as its definitions see them, by the full names of their modules."""
    _, *parts = HELD.split(read(HELD_TEXT))
    return {full: text for full, text in zip(parts[::2], parts[1::2]) if full.split(".")[1] == name}


def modules_of(crates, name):
    """Returns the definitions of a crate: the texts of its modules without worked values, by their full names."""
    at, found = f"{crates}/{name}/specs", {}
    for file in files_in(at):
        text, path = read(f"{at}/{file}"), file.removesuffix(".antt").split("/")
        # (those that only name others are left out)
        if not re.search(r"^pub mod ", text, re.MULTILINE):
            found[".".join(["Rattle", name, "specs", *path])] = without_worked(text, path[-1])
    found.update(held(name))
    return found


def kept_types(crates, name, is_static):
    """Returns the types that a crate keeps to itself, of a static library its plain ones: for the full name of each the file of
    src/ that has it, what it brings in, and its text."""
    found, codes, places = {}, {it: read(f"{crates}/{name}/src/{it}") for it in files_in(f"{crates}/{name}/src")}, {}
    for file, code in codes.items():
        for it in (PLAIN if is_static else KEPT).finditer(code):
            path = f"{name}/{file.removesuffix('.rt')}/{it[1]}".split("/")
            places[it[1]] = "::".join(["crate", *path])
            text = re.sub(r"^ *(?:///|#\[repr).*\n", "", it[0], flags=re.MULTILINE).replace(", Debug", "")
            found[".".join(["Rattle", name, "specs", "declared", *path[1:]])] = file, text
    return {full: (file, *with_words(codes[file], text, places if is_static else {})) for full, (file, text) in found.items()}


def with_words(code, text, places):
    """Returns what a type brings in, of types of other files at these places and of libraries, and its text with the constants
    that it names."""
    constants = [it[0] for it in CONSTANT.finditer(code) if places and re.search(rf"\b{it[1]}\b", text)]
    words = set(re.findall(r"\w+", "".join([*constants, text])))
    uses = [places[it] for it in sorted(words & set(places)) if not re.search(rf"\bstruct {it}\b", code)]
    uses += [f"{at}::{it}" for at, them in BROUGHT_IN.findall(code) for it in sorted(words & set(re.findall(r"\w+", them)))]
    return uses if places else [], "".join([*constants, *["\n"] * bool(constants), text])


@functools.lru_cache(maxsize=None)
def narrowed(text, words=frozenset()):
    """Returns a module without the imports of which it uses no word, unless they hand one of these words on."""
    lines = text.splitlines(True)
    body = "".join(it for it in lines if not it.startswith(("--", "use ")) and not HANDS_ON.match(it))

    def is_kept(line):
        found = WORDS.findall(line)
        if HANDS_ON.match(line) and ("*" in words or not words.isdisjoint(found)):
            return True
        # (operators are words with gaps)
        return any("◌" in it or re.search(rf"(?<![\w-]){re.escape(it)}(?![\w-])", body) for it in found)

    return "".join(it for it in lines if not re.match(r"(unfoldable )?(pub )?use ", it) or is_kept(it))


@functools.lru_cache(maxsize=None)
def handed_on(text):
    """Returns the words that a module hands on, each with the full name of where it takes it, and its word there."""
    lines = [re.match(LIST, it) for it in text.splitlines() if HANDS_ON.match(it)]
    return {word: (it[2], plain) for it in lines if it for plain, word in words_in(it[3])}


def words_in(words):
    """Returns the words of an import's list, each with what it is called there."""
    return [(plain, other or plain) for plain, other in re.findall(r"([^\s,{}]+)(?: as ([^\s,{}]+))?", words)]


def module_in(texts, name):
    """Returns the module in which something with this full name stands, or ''."""
    while name and name not in texts:
        name = name.rpartition(".")[0]
    return name


def imports_of(texts, text):
    """Returns the modules that a text names, each with the words that it takes of them, or '*' for all."""
    found = {}
    for full, words in TAKEN.findall(text):
        name = module_in(texts, full)
        if name:
            found.setdefault(name, set()).update(re.findall(r"(?:\{|,\s)\s*([^\s,}]+)", words) or "*")
    return found
