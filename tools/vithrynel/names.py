"""The names of lapd.h, and what table.py says of them, in files of other languages: what stands between two marks is written. A
function a step:

    numbers_after   the numbers that a mark calls for: an enum of the header by its first name, or one number alone
    fields          the fields of a struct, as ctypes has them
    PARTS           what else a mark calls for
    ROWS            rows of tables in pages
    written         a file's text, with what stands between its marks and in these rows written anew

A mark is a comment, `tools/names: NAME` with a name of the header or of PARTS, and the end is `tools/names: end`.
"""
import re
import textwrap
from typing import Callable, Dict, List, Tuple

from .checked import tag, wrapped
from .header import enums, numbers, structs, usual
from .table import CARD_WIDE, ENUMS, FIELDS, MOST_TEI, READING, SIDE, WORDS, Field, behind_numbers, card_line, counted, counters, endings, in_order, least_numbers, link_octets

# The files with such marks, and how a number stands in each.
PATHS = {"bindings/python/lapd.py": "{own} = {number}", "include/lapd.hpp": "{own} = {name},", "c/portable/card.c": "", "tests/c/words.c": "",
         "tests/c/check/wrong.c": "", "tests/c/layout.c": "", "web/card.mjs": "", "web/script.mjs": "", "docs/FORMAT.md": "", "man/lapdsim.5": ""}
# What is a word of C++ has another name there.
CPP_NAMES = {"short": "too_short"}
# What ctypes calls a plain type.
CTYPES = {"bool": "c_bool", "uint8_t": "c_uint8", "uint16_t": "c_uint16", "uint32_t": "c_uint32", "uint64_t": "c_uint64", "void *": "c_void_p"}
MARKED = re.compile(r"^( *)(#|//|/\*|<!--|\.\\\x22) tools/names: (\w+)((?: \*/| -->)?)\n(.*?)^ *\2 tools/names: end\4\n", re.MULTILINE | re.DOTALL)


def numbers_after(first: str) -> Dict[str, int]:
    return next((it for it in enums() if next(iter(it)) == first), {first: numbers()[first]})


def struct_name(name: str) -> str:
    """A struct's name in lapd.py."""
    return "_" + name[len("lapd_"):].capitalize()


def fields(name: str) -> str:
    words = [(it, f"ctypes.{CTYPES[it.kind]}" if it.kind in CTYPES else struct_name(it.kind)) for it in structs()[name].fields]
    rows = [f'("{it.name}", {kind}{"" if it.count is None else f" * {it.count}"})' for it, kind in words]
    return wrapped("_fields_ = [", rows, "]")


# ---- A configuration -------------------------------------------------------------------------------------------------------

def config_names() -> List[str]:
    return [it.name for it in structs()["lapd_config"].fields if it.name != "reserved"]


def value(field: str, number: int) -> str:
    """The value of a field in lapd.py: of an enum its name."""
    own = numbers_after(ENUMS[field]) if field in ENUMS else {}
    return next((f"{field.capitalize()}.{name[len('LAPD_'):]}" for name, it in own.items() if it == number), str(number))


def config_of_python() -> str:
    """The fields; each may be left out that no card line has as a number."""
    asked = {it.name for it in card_line()}
    return "\n".join(f"{it}: int" if it in asked else f"{it}: {it.capitalize() if it in ENUMS else 'int'} = {value(it, 0)}" for it in config_names())


def usual_configs() -> str:
    asked = {it.name for it in card_line()}
    rows = [(name, [f"{it}={value(it, number)}" for it, number in zip(config_names(), usual(name)) if number or it in asked])
            for name in ("BASIC_ACCESS", "PRIMARY_RATE")]
    return "\n".join(wrapped(f"{name} = Config(", words, ")") for name, words in rows)


def ranges(of: str = "config->{0}", greater: str = "config->{0} > config->{1} ? config->{0} : config->{1}") -> str:
    """As lapd.c tests them: each field, its least and greatest, and the status."""
    rows = [(it.name, "0" if it.after else greater.format(*it.at_least) if it.at_least else it.least, it.most) for it in FIELDS]
    rows += [(it, 0, list(numbers_after(first))[-1]) for it, first in ENUMS.items()]
    return "\n".join(f"{{{of.format(name)}, {least}, {most}, LAPD_BAD_{name.upper()}}}," for name, least, most in rows)


def edges() -> str:
    """The same of a configuration whose windows are 1."""
    return ranges("offsetof(lapd_config, {0})", "1")


def image_octets() -> str:
    """How many octets stand before the seed in an image; and how many a link has there, without what waits."""
    return f"enum {{ BEHIND_NUMBERS = {behind_numbers()}, IMAGE_LINK = {link_octets()} }};"


def image_numbers() -> str:
    """Where the numbers of a configuration stand in an image."""
    at, rows = 7, []
    for it in in_order(one.name for one in FIELDS):
        rows.append(f".{it.name} = image[{at}]," if it.octets == 1 else f".{it.name} = (uint16_t)(image[{at}] | image[{at + 1}] << 8),")
        at += it.octets
    return "\n".join(rows)


# ---- A card line -------------------------------------------------------------------------------------------------------------

def place(name: str) -> str:
    return f"offsetof(lapd_config, {name})"


def card_line_of_c() -> str:
    own, ends = [it.name for it in card_line()], endings()
    most = 2 + len(own) + sum(1 + max(it.names) for it in ends)
    instead = next(own.index(it.left_out) for it in card_line() if it.left_out)
    words = [f"{{\"{it.word}\", {it.from_place}, {min(it.names)}, {max(it.names)}, {place(it.field)}, {place(it.number)}, "
             f"{{{', '.join(it.names.get(count, '0') for count in (0, 1))}}}}}," for it in ends]
    return "\n".join([f"enum {{ LEAST_NUMBERS = {least_numbers()}, IF_LEFT_OUT = {instead}, MOST_WORDS = {most} }};",
                      wrapped("static const size_t numbers[] = {", list(map(place, own)), "};"),
                      "static const ending endings[] = {", *(f"    {it}" for it in words), "};"])


def label(name: str) -> str:
    """A field's name as the page shows it: letters of the standard are capital ones."""
    return name.upper() if len(name) == 1 or re.search(r"\d", name) else name.replace("_", " ")


def left_out(it: Field) -> str:
    """What it is if a card line does not say it; nothing if each one does."""
    return it.left_out.upper() or str(it.usual or "")


def said(it: Field) -> str:
    """What a field is, to a reader who sees one range of numbers."""
    more = f": at least {' and '.join(map(str.upper, it.at_least))}" if it.at_least else ""
    return f"{it.words}{more}" + (f"; if it is left out, it is {left_out(it)}" if left_out(it) else "")


def card_line_of_page() -> str:
    rows = [f'  ["{label(it.name)}", {it.least}, {it.most}, "{said(it)}"],' for it in card_line()]
    after = [f'  ["{it.after}", "{it.name.upper()}", {it.least}, {it.most}, "{said(it)}"],' for it in FIELDS if it.after]
    ends = [f'  ["{it.word}", [{", ".join(map(str, it.names))}]],' for it in endings()]
    return "\n".join(["// name, least, greatest, what it is; the last may be left out", "const NUMBERS = [", *rows, "];",
                      "// numbers that stand after a word: the word, and the same", "const AFTER = [", *after, "];",
                      "// words that may stand after the numbers, and how many words may follow each", "const ENDINGS = [", *ends, "];",
                      f'const SIDE = "{SIDE}";', f'const READING = "{READING}";'])


# ---- Pages -------------------------------------------------------------------------------------------------------------------

def ranged(it: Field) -> str:
    least = f"the greater of {' and '.join(map(str.upper, it.at_least))}," if it.at_least else str(it.least)
    return f"{least} to {it.most:,}"


def without_clause(it: Field) -> str:
    return re.sub(r" \(clause [\d.]+\)", "", it.words)


def first_words() -> str:
    """What the shortest card line has."""
    return " ".join(["card", *(it.name.upper() for it in card_line()[:least_numbers()])])


def after_words(it: Field) -> str:
    return f"N, {it.least} to {it.most}, is {without_clause(it)}"


def item(name: str, words: str) -> str:
    """One of a list in a manual."""
    return "\n".join([f'.It Li "{name}"', *textwrap.wrap(words, 80)])


def number_of_page(it: Field) -> str:
    """In an image: its word, or what follows it."""
    return f"N of `{it.after}`" if it.after else it.name.upper()


def numbers_of_page(octets: int) -> List[str]:
    return [number_of_page(it) for it in FIELDS if it.octets == octets]


def counters_of_page() -> str:
    return f"|{8 * len(counters())} each|each line's {len(counters())} counters, of eight octets,"


# Rows of tables, where no comment can stand: how they begin, and what is written.
ROWS: Dict[str, List[Tuple[str, Callable[[], str]]]] = {"docs/FORMAT.md": [
    (r"\|`card [A-Z0-9_ ]+`\|", lambda: f"|`{first_words()}`|"),
    (r"(?:\|\.\. `[\w-]+ N`\|.*\n)+", lambda: "".join(
        f"|.. `{it.after} N`|{after_words(it)}. Without it: {left_out(it)}|\n" for it in FIELDS if it.after)),
    (r"\|\d+\|LINES, .*", lambda: f"|{len(numbers_of_page(1))}|{', '.join(numbers_of_page(1))}|"),
    (r"\|[2, ]+\|[A-Z0-9, ]+; all in", lambda: f"|{', '.join('2' for _ in numbers_of_page(2))}|{', '.join(numbers_of_page(2))}; all in"),
    (r"\|\d+ each\|each line's \d+ counters, of eight octets,", counters_of_page)]}

def words_of_c() -> str:
    """The words of scripts, as the tests' reader in C has them."""
    named = {65535: "ANY", MOST_TEI: "MOST_TEI"}
    return "\n".join(f'{{"{it.word}", {"REQUEST" if it.request else it.word.upper()}, {it.request or 0}, {it.service}, {it.numbers}, '
                     f'{str(it.octets).lower()}, {it.least}, {named.get(it.most, it.most)}}},' for it in WORDS)


# ---- Structs -----------------------------------------------------------------------------------------------------------------

def layout() -> str:
    """Where each field lies, as layout.c asks a compiler."""
    rows = []
    for name, it in structs().items():
        own = tag(name)
        rows += [f"OCTETS({own}, {it.octets});", *(f"AT({own}, {one.name}, {one.at});" for one in it.fields)]
    return "\n".join(rows)


DOUBLE = '"{}"'
PARTS: Dict[Tuple[str, str], Callable[[], str]] = {
    ("lapd.py", "config"): config_of_python,
    ("lapd.py", "usual_configs"): usual_configs,
    ("lapd.py", "counted"): lambda: "\n".join(f"{it}: int" for it in counted()),
    ("card.c", "ranges"): ranges,
    ("card.c", "image_octets"): image_octets,
    ("card.c", "image_numbers"): image_numbers,
    ("wrong.c", "edges"): edges,
    ("words.c", "card_line"): card_line_of_c,
    ("words.c", "words"): words_of_c,
    ("script.mjs", "card_wide"): lambda: f"const CARD_WIDE = [{', '.join(map(DOUBLE.format, CARD_WIDE))}];",
    ("card.mjs", "card_line"): card_line_of_page,
    ("layout.c", "layout"): layout,
    ("FORMAT.md", "numbers"): lambda: "\n".join(f"- {it.name.upper()}, {ranged(it)}: {without_clause(it)}" for it in card_line()),
    ("lapdsim.5", "numbers"): lambda: "\n".join(item(it.name.upper(), f"{ranged(it)}: {it.words}") for it in card_line()),
    ("lapdsim.5", "after"): lambda: "\n".join(
        f"{item(f'either and {it.after} N', 'after these: ' + after_words(it) + '.')}\nWithout it: {left_out(it)}" for it in FIELDS if it.after),
    ("lapdsim.5", "card_line"): lambda: f'.It Li "{first_words()}"\nstarts the card, and a clock at 0 ms',
}


def between(path: str, name: str) -> str:
    """What stands between two marks."""
    part = PARTS.get((path.split("/")[-1], name))
    if part or name in structs():
        return part() if part else fields(name)
    own = {it: it[len("LAPD_"):] for it in numbers_after(name)}
    if path.endswith(".hpp"):
        own = {it: CPP_NAMES.get(word.lower(), word.lower()) for it, word in own.items()}
    return "\n".join(PATHS[path].format(own=own[it], name=it, number=number) for it, number in numbers_after(name).items())


def unmarked(text: str) -> str:
    """A text without marks."""
    return re.sub(r"^ */\* tools/names: \w+ \*/\n", "", text, flags=re.MULTILINE)


def written(path: str, text: str) -> str:
    def anew(found: "re.Match[str]") -> str:
        indent, sign, name, end, _ = found.groups()
        rows = [f"{sign} tools/names: {name}{end}", *between(path, name).split("\n"), f"{sign} tools/names: end{end}"]
        return "".join(f"{indent}{it}\n" if it else "\n" for it in rows)

    marks = text.count(" tools/names: ")
    if marks == 0 or marks != 2 * len(MARKED.findall(text)):
        raise ValueError(f"{path}: a mark of tools/names without its end, or none")
    text = MARKED.sub(anew, text)
    for begins, row in ROWS.get(path, []):
        text, count = re.subn(rf"^{begins}", lambda _, it=row: it(), text, flags=re.MULTILINE)
        if count != 1:
            raise ValueError(f"{path}: {count} rows begin as {begins}, not one")
    return text
