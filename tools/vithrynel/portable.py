"""The card as one file in C99, for each processor: what united.py has of the library, between the parts of c/portable, and what turns a
caller's structs to the module's memory and back. lapdsim.c (portable_program.py) includes it with LAPD_SIMULATOR, and so takes the
functions that both have. A function a step:

    marshalling   a struct's fields to the module's memory, or from there, by the table that header.structs has
    call          a function of lapd.h over the machine's
    portable      the whole file
"""
import re
import tempfile
from typing import Dict, List, Tuple

from .checked import tag, tests, wrapped
from .depth import deepest
from .header import Field, Function, Parameter, Struct, functions, numbers, structs
from .machine import AHEAD, WIDEST, asked_for, comment, content
from .names import unmarked
from .static_library import NotBuilt
from .united import PROGRAM_STACK, STACK, United, united
from .wasm import put

# Each function of these has its own text in c/portable/card.c; the others are written here.
BY_HAND = ("lapd_version", "lapd_card_start", "lapd_card_start_frames", "lapd_clock_start", "lapd_card_free", "lapd_clock_free",
           "lapd_exchange", "lapd_frame_read", "lapd_frame_text",
           "lapd_card_start_timed", "lapd_card_start_frames_timed", "lapd_image_octets", "lapd_card_save", "lapd_card_restore",
           "lapd_clock_save", "lapd_clock_restore")
# No function of the machine's is asked for it.
NOT_EXPORTED = ("lapd_version",)
# An array of a struct, by the field that says how much of it there is.
COUNTED = {("lapd_report", "notes"): "note_count", ("lapd_report", "orders"): "order_count", ("lapd_report", "contents"): "length"}
# What is read of a struct that is handed over, where that is not all.
READ = {"lapd_report": ("order_count", "orders")}
# What has no padding, on each processor.
AS_IT_LIES = ("lapd_report",)
# What a call reads before it writes it.
IN_OUT = {("lapd_next_link", "place")}
# So many of the octets that are handed over say all that the call asks: one more than the longest that is served.
MOST = {"lapd_frame": numbers()["LAPD_MOST_FRAME"] + 1, "lapd_request": numbers()["LAPD_MOST_OCTETS"] + 1,
        "lapd_next_frame": numbers()["LAPD_MOST_FRAME"], "lapd_begun_frame": numbers()["LAPD_MOST_FRAME"],
        "lapd_heard_frame": numbers()["LAPD_MOST_FRAME"]}
# What is not there with -DLAPD_NO_IMAGES; and with -DLAPD_NO_OCTETS, of what is not in card.c.
IMAGES = r"_save$|_restore$"
OCTETS = ("lapd_octet", "lapd_pull")
# Octets of an exchange that are handed over at a time, and the room for a report.
RUN, REPORT = 256, -(-structs()["lapd_report"].octets // 16) * 16
WIDTH = {"uint8_t": 8, "uint16_t": 16, "uint32_t": 32, "uint64_t": 64, "size_t": 64}
LOADS = {8: "i32_load8_u", 16: "i32_load16_u", 32: "i32_load", 64: "i64_load"}
STORES = {8: "i32_store8", 16: "i32_store16", 32: "i32_store", 64: "i64_store"}


# ---- A caller's structs and the machine's memory -------------------------------------------------------------------------

def moved(kind: str, at: str, ahead: int, value: str, is_put: bool) -> str:
    """The statement that puts or gets one value of a plain type, or a struct, so far ahead of a place."""
    to = f"{at} + {ahead}" if ahead else at
    if kind in structs():
        return f"{'put' if is_put else 'get'}_{kind}(instance, {to}, &{value});"
    width = WIDTH[kind]
    if width == 8:
        return f"instance[{to}] = {value};" if is_put else f"{value} = instance[{to}];"
    if ahead >= AHEAD:
        at, ahead = to, 0
    cast = "u32" if width < 64 else "u64"
    return f"{STORES[width]}(AT({at}, {ahead}), ({cast}){value});" if is_put else f"{value} = ({kind}){LOADS[width]}(AT({at}, {ahead}));"


def field_moved(it: Struct, field: Field, is_put: bool) -> List[str]:
    """The statements for a field: of an array so much as the struct says that there is."""
    if field.count is None:
        return [moved(field.kind, "at", field.at, f"it->{field.name}", is_put)]
    size = structs()[field.kind].octets if field.kind in structs() else WIDTH[field.kind] // 8
    count = COUNTED.get((it.name, field.name))
    if size == 1:
        much = f"at_most(it->{count}, {field.count})" if count else str(field.count)
        of = f"it->{field.name}", f"instance + at + {field.at}"
        return [f"memcpy({', '.join(of[::-1] if is_put else of)}, {much});"]
    bound = f"i < {field.count}" + (f" && i < it->{count}" if count else "")
    step = f"(u64){size} * i"
    return [f"for (u32 i = 0; {bound}; i++)",
            "    " + moved(field.kind, f"at + {step}", field.at, f"it->{field.name}[i]", is_put)]


def blocks_got(it: Struct) -> List[str]:
    """The statements for a struct that lies here as it does there, but for the order of octets in its numbers: what is told of
    an array is copied, and the rest as blocks, with what was in the machine's memory where an array has less."""
    rows: List[str] = []
    block: List[Field] = []

    def end(to: int) -> None:
        if block:
            at = block[0].at
            rows.append(f"memcpy((u8 *)it + {at}, instance + at + {at}, {to - at});")
            rows.extend(f"if (LAPD_BIG_END_FIRST)\n        {row}" for one in block if one.kind == "uint16_t" for row in field_moved(it, one, False))
            block.clear()

    for field in it.fields:
        count = COUNTED.get((it.name, field.name))
        if field.kind == "uint8_t" and count:
            end(field.at)
            rows += [f"if (it->{count} != 0)", *(f"    {row}" for row in field_moved(it, field, False))]
        else:
            block.append(field)
    end(it.octets)
    return rows


def mover(it: Struct, is_put: bool) -> str:
    names = READ.get(it.name) if is_put else None
    rows = [row for one in it.fields if names is None or one.name in names for row in field_moved(it, one, is_put)]
    if it.name in AS_IT_LIES and not is_put:
        rows = blocks_got(it)
    what = f"void put_{it.name}(machine *instance, u64 at, const" if is_put else f"void get_{it.name}(const machine *instance, u64 at,"
    rows = ["HANDED;", *rows]
    return f"static inline {what} {tag(it.name)} *it) {{\n" + "".join(f"    {row}\n" for row in rows) + "}\n"


def plain_mover(kind: str, is_put: bool) -> str:
    what = f"void put_{kind}(machine *instance, u64 at, const" if is_put else f"void get_{kind}(const machine *instance, u64 at,"
    return f"static inline {what} {kind} *it) {{\n    HANDED;\n    {moved(kind, 'at', 0, '*it', is_put)}\n}}\n"


def below(name: str) -> List[str]:
    """A struct and those that it has, these first."""
    return [one for field in structs()[name].fields if field.kind in structs() for one in below(field.kind)] + [name]


def marshalling() -> str:
    """What the calls use of it, each once."""
    wanted: Dict[Tuple[str, bool], None] = {("lapd_config", True): None, ("size_t", True): None, ("size_t", False): None}
    for it in functions():
        for one in it.parameters[1:] if it.name != "lapd_frame_text" else ():
            if one.is_pointer and (one.kind in structs() or not one.is_const):
                is_whole = one.kind not in structs() or one.kind in AS_IT_LIES and not one.is_const
                for kind in [one.kind] if is_whole else below(one.kind):
                    wanted[kind, one.is_const] = None
                    if (it.name, one.name) in IN_OUT:
                        wanted[kind, True] = None
    # octets of a buffer that is written are copied as a block
    wanted.pop(("lapd_note", True), None)
    return "\n".join(mover(structs()[kind], is_put) if kind in structs() else plain_mover(kind, is_put) for kind, is_put in wanted)


# ---- The functions of lapd.h ---------------------------------------------------------------------------------------------

class Call:
    """What a function does before it calls the machine's, what it hands over, and what it does after."""

    def __init__(self, of: Function) -> None:
        self.of, self.octets = of, 0
        self.before: List[str] = []
        self.words: List[str] = []
        self.after: List[str] = []
        self.last: List[str] = []
        rest = list(of.parameters[1:])
        while rest:
            self.take(rest.pop(0), rest)

    def room(self, octets: int) -> str:
        """A place of its own for what is handed over."""
        at = self.octets
        self.octets += -(-octets // 16) * 16
        return f"OTHER + {at}" if at else "OTHER"

    def take(self, it: Parameter, rest: List[Parameter]) -> None:
        if not it.is_pointer:
            self.words.append(it.name)
        elif it.kind == "uint8_t" and rest and rest[0].kind == "size_t" and not rest[0].is_pointer:
            self.buffer(it, rest)
        elif it.kind == "lapd_report" and not it.is_const:
            self.words.append("REPORT")
            self.after.append(f"get_lapd_report(instance, REPORT, {it.name});")
        else:
            size = structs()[it.kind].octets if it.kind in structs() else WIDTH[it.kind] // 8
            at = self.room(size)
            self.words.append(at)
            if it.is_const or (self.of.name, it.name) in IN_OUT:
                self.before.append(f"put_{it.kind}(instance, {at}, {it.name});")
            if not it.is_const:
                self.after.append(f"get_{it.kind}(instance, {at}, {it.name});")

    def buffer(self, it: Parameter, rest: List[Parameter]) -> None:
        """Octets with their length after them; where they are written, the next pointer tells how many were."""
        length, most = rest.pop(0).name, MOST[self.of.name]
        at = self.room(most)
        self.words += [at, f"at_most({length}, {most})"]
        if it.is_const:
            self.before.append(f"copy(instance + {at}, {it.name}, at_most({length}, {most}));")
        else:
            self.last.append(f"copy({it.name}, instance + {at}, at_most(*{rest[0].name}, at_most({length}, {most})));")

    def look(self) -> List[str]:
        """Whether a pointer is null; that of no octets may be."""
        return [*wrapped("if (", tests(self.of, "NULL"), ")", " || ", 116).split("\n"), "    return LAPD_WRONG_POINTER;"]

    def text(self) -> str:
        words = ", ".join(f"{'const ' * one.is_const}{tag(one.kind) if one.kind in structs() else one.kind} "
                          f"{'*' * one.is_pointer}{one.name}" for one in self.of.parameters)
        handle = self.of.parameters[0]
        none = "LAPD_NO_CARD" if handle.kind == "lapd_card" else "LAPD_NO_CLOCK"
        rows = [*self.look(), f"if (!{handle.name}->started)", f"    return {none};", f"machine *instance = machine_of({handle.name}->at);", *self.before,
                f"u32 status = w2c_{self.of.name}(instance, {', '.join(['HANDLE', *self.words])});"]
        after = self.after + self.last
        if after:
            rows += ["if (status == LAPD_OK) {", *(f"    {row}" for row in after), "}"]
        rows.append("return status;")
        text = f"{self.of.result} {self.of.name}({words}) {{\n" + "".join(f"    {row}\n" for row in rows) + "}\n"
        return f"#ifndef LAPD_NO_OCTETS\n{text}#endif\n" if self.of.name in OCTETS else text


def exports() -> List[str]:
    """What the machine exports: its functions, and for a start where its heap lies."""
    return [*(it.name for it in functions() if it.name not in NOT_EXPORTED), "module_heap", "__heap_base"]


# ---- The file ---------------------------------------------------------------------------------------------------------------

def functions_of_memory(*paths: str) -> str:
    """What these of c/ say of memory, but how a block gets another size, which no card of a machine's own asks."""
    text = "\n\n".join(re.sub(r"\A/\*.*?\*/\n", "", content(it), flags=re.S).strip() for it in paths)
    text = re.sub(r"^rattle_tried rattle_realloc\(.*?^\}\n\n?", "", text, flags=re.M | re.S)
    return re.sub(r"^#include .*\n+", "", text, flags=re.M)


def memory() -> str:
    """Where cards and clocks lie, as choices.c has it."""
    own = ("/* A block of memory, or that there is none: as lapd_memory.h has it. */\n"
           "typedef struct {\n    bool there;\n    void *at;\n} rattle_tried;\n\n"
           "static rattle_tried rattle_alloc(size_t octets, size_t alignment);\nstatic void rattle_dealloc(void *at);")
    return (f'#ifdef LAPD_OWN_MEMORY\n#include "lapd_memory.h"\n#else\n{own}\n#endif\n\n'
            f"#ifdef LAPD_MALLOC\n\n{functions_of_memory('c/malloc.c')}\n\n"
            f"#elif !defined(LAPD_OWN_MEMORY)\n\n{functions_of_memory('c/blocks.h', 'c/heap.c')}\n\n#endif\n")


def calls() -> List["Call"]:
    return [Call(it) for it in functions() if it.name not in BY_HAND]


def other_octets() -> int:
    """So many octets take what one call hands over beside the handle and its report; an exchange takes two runs and its steps."""
    return max(16 + 2 * RUN, *(it.octets for it in calls() if "REPORT" in it.words))


def report_octets() -> int:
    """The room for a report, and for what a call hands over that has none, as far as that is more."""
    return max(REPORT, *(it.octets - other_octets() for it in calls()))


def stack(made: United, with_images: bool = True) -> int:
    """The octets of a machine's stack: what the deepest call takes. An access of it goes so far back that none may lie nearer to
    the memory's beginning than AHEAD (folded.py)."""
    code = f"{made.both}\n{made.library}"
    names = [it for it in exports() if f"w2c_{it}(" in code and (with_images or not re.search(IMAGES, it))]
    octets = -(-(deepest(code, names) + AHEAD) // 16) * 16
    if octets > STACK:
        raise NotBuilt(f"united.py links a stack of {STACK} octets, and calls take {octets}")
    return octets


def own_octets(made: United, with_images: bool = True) -> int:
    """So many octets a machine takes beside its heap: its stack and data, what is handed over, what follows it, and 64 of
    its own."""
    return stack(made, with_images) + made.kept + made.data + 16 + report_octets() + other_octets() + AHEAD + WIDEST + 64


def machines(made: United) -> str:
    """What a machine is, and its memory: a card's or a clock's, or the simulator's."""
    return f"""\
#ifndef LAPD_SIMULATOR
{memory()}
/* A card or a clock: its memory. Before it lie WebAssembly's globals, and how many octets it has; and the last how many are for an
 * image. */
typedef u8 machine;
typedef union {{
struct {{
{made.fields}u32 octets, image;
}} of;
u64 words[3]; /* So the memory begins at a multiple of 8 on each processor. */
}} own;
typedef char own_is_as_long_as_its_words[sizeof(own) == 24 ? 1 : -1];
#ifdef LAPD_NO_IMAGES
enum {{ STACK = {stack(made, False)} }};
#else
enum {{ STACK = {stack(made)} }};
#endif
/* Where data lie that change. Before them lie constants of which an address is taken, and no tables. */
enum {{ DATA = STACK + {made.kept} }};
{content("c/portable/fixed.c")}
#else
/* The program: WebAssembly's globals and memory. */
typedef struct {{
{made.fields}u64 octets, room;
u8 *data;
}} machine;
enum {{ STACK = {PROGRAM_STACK}, DATA = STACK + {made.constants}, PAGES = {made.pages} }};
{content("c/portable/growing.c")}
#endif
"""


def portable(made: United, head: str) -> str:
    movers, card = marshalling(), unmarked(content("c/portable/card.c"))
    loads = asked_for(content("c/portable/memory.c"), made.both + made.library + movers)
    return "\n".join([
        head, "/* lapdsim.c includes this file with LAPD_SIMULATOR, and so takes what it has in common with the library. */",
        "#ifndef LAPD_SIMULATOR", content("c/portable/choices.c"), f"#endif\n\nenum {{ AHEAD = {AHEAD}, WIDEST = {WIDEST} }};\n",
        content("c/portable/head.c"), machines(made), loads,
        "/* ---- What wasm2c made of the proved library: what lapdsim.c has, too ---- */\n", made.begin, made.both,
        "#ifndef LAPD_SIMULATOR\n/* ---- And what it has not ---- */\n", made.library,
        f"enum {{ PLACES = DATA + {made.data}, REPORT_OCTETS = {report_octets()}, OTHER_OCTETS = {other_octets()}, RUN = {RUN} }};\n",
        content("c/portable/handed.c"), movers, card, *(it.text() for it in calls()), "#endif\n"])


WRITTEN = ("lapd.c", "lapd.h", "lapd_checked.h", "lapd_memory.h", "README")
COMMENT = """\
lapd.c: the whole of lapd.h in one file, for each processor. Written by tools/portable of Vithrynel; not to be edited.

{made}

Each card and each clock has a memory of its own, which does not grow. Parts around the machine turn a caller's structs to its
memory and back; they are the repository's.
"""
README = """\
lapd.c and lapd.h: LAPD for line cards (ITU-T Q.921, modulo 128), in C99, for each processor of 32 or 64 bits.

    cc -std=c99 -O2 -o program program.c lapd.c

lapd.h says what each function does.

{memory}
"""
MEMORY = """\
Cards and clocks lie in memory of malloc. Then cards of several threads have nothing in common, also as they start and
end. A program without malloc says -DLAPD_HEAP_OCTETS=N: they lie in one static region of N octets, and starts and ends
run one at a time. Or it says -DLAPD_OWN_MEMORY: they lie in memory of its own rattle_alloc and rattle_dealloc, which
lapd_memory.h declares. A card takes lapd_card_octets(&config) octets and {own} more (one of frames, or with its own
timers, as many and what lapd_card_octets_frames, lapd_card_octets_timed or lapd_card_octets_frames_timed tells), and a
clock lapd_clock_octets(&config) and {own} more. Besides, each takes room for its image, lapd_image_octets(&config) octets
at most. With -DLAPD_NO_IMAGES it does not, and is not saved: {least} octets then stand for the {own}.

A card of octets, its codec and tables are left out by -DLAPD_NO_OCTETS, and lapd_frame_text by -DLAPD_NO_TEXT; or by a
linker that is asked to (-ffunction-sections, -Wl,--gc-sections). With -ffreestanding no header of a C library is asked for:
the program has abort, memcpy, memmove and memset, and is linked with the compiler's own helpers (-lgcc).

No access leaves a card's block: one that would ends the program by abort(), which no run has shown; -DLAPD_UNTESTED
leaves that test out. A compiler that does not tell the order of octets as GCC does wants -DLAPD_BIG_END_FIRST=0 or 1."""


def card_of(made: United) -> Tuple[str, str]:
    """lapd.c, and what is to be said of its memory."""
    return portable(made, comment(COMMENT, made.wasm)), MEMORY.format(own=own_octets(made), least=own_octets(made, False))


def written(to: str, over_gate: bool = False) -> None:
    """lapd.c, its headers and a page, in a folder."""
    with tempfile.TemporaryDirectory(prefix="portable-") as folder:
        card, memory_of = card_of(united(exports(), folder, over_gate))
        for name, text in zip(WRITTEN, (card, *(content(f"include/{it}") for it in WRITTEN[1:-1]), README.format(memory=memory_of))):
            with open(f"{folder}/{name}", "w", encoding="utf-8") as file:
                file.write(text)
        put(folder, list(WRITTEN), to)
