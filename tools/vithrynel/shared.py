"""What the simulator has in common with the library, so that it is written once. Each is a module of the kit's compiler, with all
crates below it; here a module is text of LLVM. Two functions are the same if they have the same instructions, and what they call is
the same in turn. (A name tells less: what is made for a type has another name in each crate that asks for it.) A function a step:

    printed      a module as text for WebAssembly, before anything is optimized
    optimized    such a text after that
    sums         each function by a sum: two functions are the same if their sums are
    lent         the simulator's functions for which the library's stand
    lending      the library's text, in which these may be called from elsewhere
    borrowing    the simulator's text, in which these are only declared
    in_section   a text whose constants lie in a section of their own
"""
import hashlib
import re
from typing import Dict, List, NamedTuple, Set

from .static_library import NotBuilt
from .wasm import for_wasm

TEXT = ("-S", "-emit-llvm")
# What keeps clang from changing the code.
AS_IT_IS = ("-Xclang", "-disable-llvm-passes")
NAME = r'@(?:"(?:[^"\\]|\\.)*"|[\w.$-]+)'
# What is told of a function or of an instruction: it stands at the module's end.
NOTE = r"#\d+|!\d+"
STRING = r'\bc"[^"]*"'
# How a part of a module begins, up to its name.
KINDS = {"define": rf"define [^@]*({NAME})", "declare": rf"declare [^@]*({NAME})", "constant": f"({NAME}) = ",
         "note": rf"(?:attributes )?({NOTE}) = "}
# The rest of a module says nothing of its code.
REST = r"$|;|source_filename|target |!llvm\."
# The simulator's constants lie in it, after all of the library's.
SECTION = "simulator"


class Part(NamedTuple):
    """A part of a module: a function, a declaration, a constant, or what is told of these, by its name."""
    kind: str
    name: str
    text: str


def part(text: str) -> Part:
    for kind, beginning in KINDS.items():
        found = re.match(beginning, text)
        if found:
            return Part(kind, found[1], text)
    return Part("", "", text)


def parts(text: str) -> List[Part]:
    """All parts, in their order."""
    return [part(it) for it in re.findall(r"^define .*?^\}$|^[^\n]*$", text, re.M | re.S)]


def joined(those: List[str]) -> str:
    return "\n".join(those) + "\n"


def functions_of(text: str) -> Dict[str, str]:
    return {it.name: it.text for it in parts(text) if it.kind == "define"}


def is_known(it: Part) -> bool:
    """Whether it is of a form that is compared: all data are constants, and no note names another."""
    if it.kind == "constant":
        return " constant " in it.text
    if it.kind == "note":
        return not re.search(r" = .*!\d", it.text)
    return it.kind != "" or bool(re.match(REST, it.text))


def read(path: str) -> str:
    with open(path, encoding="utf-8") as file:
        return file.read()


def printed(source: str, folder: str) -> str:
    text = read(for_wasm(source, folder, "printed.ll", (*TEXT, *AS_IT_IS)))
    others = [it.text for it in parts(text) if not is_known(it)]
    if others:
        raise NotBuilt(f"the kit's compiler writes another form than it did: {others[0][:100]}")
    return text


def optimized(text: str, folder: str) -> str:
    return read(for_wasm(write(f"{folder}/text.ll", text), folder, "optimized.ll", TEXT))


def write(path: str, text: str) -> str:
    with open(path, "w", encoding="utf-8") as file:
        file.write(text)
    return path


# ---- Which functions are the same ---------------------------------------------------------------------------------------

class Body(NamedTuple):
    """A function: a sum of its text without names, and which functions it names."""
    sum: str
    names: List[str]


def sum_of(*those: str) -> str:
    return hashlib.sha256("\n".join(those).encode()).hexdigest()


def is_plain(it: Part) -> bool:
    """Whether it is the same by what it says, wherever it stands: a note, or a constant that names nothing else."""
    names = re.findall(NAME, re.sub(STRING, "", it.text))
    return it.kind == "note" or it.kind == "constant" and " unnamed_addr " in it.text and len(names) == 1


def bodies(text: str, which: int) -> Dict[str, Body]:
    """Each function by its name, with what is told elsewhere of what it names. Any other constant is only this text's."""
    functions = functions_of(text)
    says = {it.name: it.text.split(" = ", 1)[1] if is_plain(it) else f"{it.name} of {which}" for it in parts(text)
            if it.kind in ("note", "constant")}

    def plain(found: "re.Match[str]") -> str:
        return "@" if found[0] in functions else says.get(found[0], found[0])

    made = {}
    for name, it in functions.items():
        it = re.sub(r"^define (?:internal )?", "", it)
        names = [one for one in re.findall(NAME, it) if one in functions]
        made[name] = Body(sum_of(re.sub(f"{NAME}|{NOTE}", plain, it)), names)
    return made


def sums(*texts: str) -> List[Dict[str, str]]:
    """Of each text the functions by their sums, in which are those of what they call, as deep as any two differ."""
    those = [bodies(it, which) for which, it in enumerate(texts)]
    made = [{name: it.sum for name, it in one.items()} for one in those]
    before, count = 0, len({it for one in made for it in one.values()})
    while before < count:
        made = [{name: sum_of(it.sum, *(had[named] for named in it.names)) for name, it in one.items()} for one, had in zip(those, made)]
        before, count = count, len({it for one in made for it in one.values()})
    return made


# ---- The two texts ------------------------------------------------------------------------------------------------------

def lent(library: str, simulator: str, own: Set[str]) -> Dict[str, str]:
    """Functions of the simulator, each with the library's that is the same: one that the library keeps (`own`) when it is optimized,
    and whose name is no other function's in the simulator."""
    theirs, ours = sums(library, simulator)
    there = {of: name for name, of in sorted(theirs.items(), reverse=True) if name in own and ours.get(name, of) == of}
    return {name: there[of] for name, of in ours.items() if of in there}


def lending(library: str, names: Set[str]) -> str:
    return re.sub(rf"^define internal (.*?)({NAME})\(", lambda it: f"define hidden {it[1]}{it[2]}(" if it[2] in names else it[0],
                  library, flags=re.M)


def borrowing(simulator: str, names: Dict[str, str]) -> str:
    rows: Dict[str, str] = {}
    for at, it in enumerate(parts(simulator)):
        if it.kind == "define" and it.name in names:
            head = re.match(r"define internal (.*) \{$", it.text, re.M)
            rows[names[it.name]] = f"declare hidden {head[1]}"
        else:
            rows[str(at)] = it.text
    return re.sub(NAME, lambda it: names.get(it[0], it[0]), joined(list(rows.values())))


def in_section(text: str) -> str:
    """Of a text that is optimized: an optimizer makes constants of its own."""
    return joined([re.sub(r"(?:, align \d+)?$", lambda it: f', section "{SECTION}"{it[0]}', it.text, count=1)
                   if it.kind == "constant" else it.text for it in parts(text)])
