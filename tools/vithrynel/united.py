"""The library and the simulator as C in which what both have stands once: lapd.c has the library, and lapdsim.c what the simulator
has beside that. A function a step:

    objects    both, compiled for WebAssembly: the simulator's with the library's functions in place of those that are the same
    module_of  one module of both; its data lie after the stack, the library's first
    divided    what wasm2c makes of that, function by function, for both files
    united     all steps
"""
import os
import re
from typing import Dict, List, NamedTuple, Set, Tuple

from .constants import PLACE, arrays, in_place, kept, sections
from .machine import Machine, machine
from .shared import AS_IT_IS, borrowing, functions_of, in_section, lending, lent, optimized, printed, write
from .static_library import NotBuilt, built, module
from .wasm import MAP, for_wasm, linked, lowered, memory_for_wasm, need

LIBRARY, PROGRAM = "lapd_c", "lapdsim"
# Octets of stack in the memory that is linked for a card, where C's own has the rest: portable.py gives a card as many as calls take.
# And in that of the simulator: a script is played with pages of 4,096 octets on it. What takes more ends the program, as the stack
# lies at the memory's beginning.
STACK, PROGRAM_STACK = 9216, 1 << 18
# All that is written of C's functions: their prototypes, themselves, arrays of data, and what sets a machine up.
PROTOTYPE = re.compile(r"^static \w+ (w2c_\w+)\([^)]*\);$", re.M)
FUNCTION = re.compile(r"^static \w+ (w2c_\w+)\([^)]*\) \{\n.*?^\}\n(?=\n|\Z)", re.M | re.S)
DATA = re.compile(r"^static const u8 (data_segment_data_w2c_d\d+)\[\] = \{\n.*?^\};\n", re.M | re.S)
LOAD = re.compile(r"^LOAD_DATA\(instance, (\d+)u, (data_segment_data_w2c_d\d+), \d+\);$", re.M)
GLOBALS = re.compile(r"^static void init_globals\(machine \*instance\) \{\n.*?^\}\n", re.M | re.S)
MEMORIES = re.compile(r"^static void init_memories\(machine \*instance\) \{\nwasm_rt_allocate_memory\(.*\);\n+\}\n", re.M)


class United(NamedTuple):
    """Parts of C: what an instance has of globals, and how they begin, with the library's data; the functions of both, of the library
    alone, and of the simulator alone, each with their prototypes; and the simulator's own data. How many octets the library's constants
    have, how many of them a card has in its memory, and how many octets of data that change; how many pages of memory the simulator has
    at first; and the module that it was made of."""
    fields: str
    begin: str
    both: str
    library: str
    simulator: str
    simulators_data: str
    constants: int
    kept: int
    data: int
    pages: int
    wasm: str


def objects(folder: str) -> List[str]:
    """The library's functions that it has by themselves stay as they are, and are the simulator's, too."""
    library, simulator = (printed(module(it), folder) for it in (LIBRARY, PROGRAM))
    names = lent(library, simulator, set(functions_of(optimized(library, folder))))
    library = write(f"{folder}/library.ll", lending(library, set(names.values())))
    simulator = write(f"{folder}/simulator.ll", in_section(optimized(borrowing(simulator, names), folder)))
    # What is set to 0 is the library's, and lies before all that is the simulator's.
    return [for_wasm(library, folder, "library.o"), memory_for_wasm(folder, ["-fno-zero-initialized-in-bss"]),
            for_wasm(simulator, folder, "simulator.o", ["-c", *AS_IT_IS])]


def module_of(those: List[str], exports: List[str], folder: str, stack: int) -> Tuple[Machine, str]:
    at = f"{folder}/{stack}"
    os.makedirs(at)
    wasm = lowered(linked(those, exports, at, stack, has_imports=True), at)
    return machine(wasm, at), wasm


# ---- Divided ------------------------------------------------------------------------------------------------------------

def placed(one: str, other: str) -> str:
    """A text in which the places of data are counted from where the stack ends, by the same text with another stack."""
    words, others = (re.findall(r"\w+|\W", it) for it in (one, other))
    if len(words) != len(others):
        raise NotBuilt("the code is another with another stack")

    def counted(word: str, more: str) -> str:
        numbers = [re.fullmatch(r"(\d+)(u|ull|)", it) for it in (word, more)]
        if not all(numbers) or int(numbers[1][1]) - int(numbers[0][1]) != PROGRAM_STACK - STACK:
            raise NotBuilt(f"other code with another stack: {word} and {more}")
        return f"(STACK + {int(numbers[0][1]) - STACK}{numbers[0][2]})"

    return "".join(it if it == more else counted(it, more) for it, more in zip(words, others))


def reached(functions: Dict[str, str], names: Set[str]) -> Set[str]:
    """These functions, and all that they call."""
    there: Set[str] = set()
    while names:
        there |= names
        names = {it for name in names for it in re.findall(r"\bw2c_\w+", functions[name]) if it in functions} - there
    return there


class Pieces:
    """What wasm2c makes, piece by piece; each of its lines is of one."""

    def __init__(self, text: str) -> None:
        self.functions = {it[1]: it[0] for it in FUNCTION.finditer(text)}
        self.prototypes = {it[1]: it[0] for it in PROTOTYPE.finditer(text)}
        self.data = {it[1]: it[0] for it in DATA.finditer(text)}
        self.loads = {it[2]: it[0] for it in LOAD.finditer(text)}
        self.at = {it[2]: int(it[1]) for it in LOAD.finditer(text)}
        self.globals = "".join(it[0] for it in GLOBALS.finditer(text))
        rest = text
        for it in (FUNCTION, PROTOTYPE, DATA, LOAD, GLOBALS, MEMORIES):
            rest = it.sub("", rest)
        if rest.strip() or set(self.loads) != set(self.data):
            raise NotBuilt(f"wasm2c writes another form than that of wabt 1.0.32: {rest.strip()[:100]}")

    def of(self, names: Set[str]) -> str:
        """These functions, after their prototypes."""
        of = [it for it in self.functions if it in names]
        return "".join(f"{self.prototypes[it]}\n" for it in of) + "\n" + "\n".join(self.functions[it] for it in of)

    def octets(self, name: str) -> bytes:
        return bytes(int(it, 16) for it in re.findall(r"\b0x(\w\w)\b", self.data[name]))

    def words(self, name: str) -> List[int]:
        """These data as numbers of 64 bits: what lies in them of places is one, each."""
        octets = self.octets(name)
        return [int.from_bytes(octets[at:at + 8], "little") for at in range(0, len(octets), 8)]

    def loading(self, those: List[str], other: "Pieces") -> str:
        """Lines that load these data, and put the places that lie in them: they are others in the other."""
        rows = []
        for it in those:
            rows.append(self.loads[it])
            for at, (word, more) in enumerate(zip(self.words(it), other.words(it))):
                if word != more:
                    rows.append(f"i64_store(AT({self.at[it] + 8 * at}ull, 0), {word}ull);")
        return "\n".join(rows)


def init(name: str, *loading: str) -> str:
    """The function that sets up memory."""
    return "\n".join([f"static void {name}(machine *instance) {{", "FUNC_PROLOGUE;", *loading, "}\n"])


def loading_tables(ends: int, starts: List[int]) -> str:
    """Lines that load constants from the first place on, where they end."""
    return "\n".join(f"LOAD_DATA(instance, (STACK + {at}u), table_{at}, {end - at});" for at, end in zip(starts, [*starts[1:], ends]))


def placed_in_memory(text: str, tables: List[int], data: int, ends: int) -> str:
    """Code in which tables are read where they stand, and data that change lie from DATA on."""
    return re.sub(PLACE, lambda it: it[0].replace(f"STACK + {it[1]}", f"DATA + {int(it[1]) - data}") if data <= int(it[1]) < ends else it[0],
                  in_place(text, tables, data))


def divided(small: Machine, large: Machine, exports: Set[str], starts: List[int], wasm: str) -> United:
    """The module with the stack of a card, and with that of the simulator, which has all of its places as they are in that. The
    library's constants begin at these places."""
    one, other = Pieces(small.functions), Pieces(large.functions)
    library = reached(one.functions, {f"w2c_{it}" for it in exports} & set(one.functions))
    simulator = reached(one.functions, {"w2c_main"})
    constants, *changing, last = sorted(one.data, key=one.at.get)
    parts = [placed(one.of(it), other.of(it)) for it in (library & simulator, library - simulator)]
    data, ends, heap = one.at[changing[0]] - STACK, one.at[last] - STACK, small.heap_base - STACK
    if any(ends <= int(it) != heap for it in re.findall(PLACE, "".join(parts))):
        raise NotBuilt("the library reads data of the simulator")
    if one.words(constants) != other.words(constants):
        raise NotBuilt("a constant of the library is an address")
    begin = kept("".join(parts), starts, data)
    tables, octets = [it for it in starts if begin <= it < data], one.octets(constants)
    loading = [loading_tables(begin, [0]), "#ifdef LAPD_SIMULATOR", loading_tables(len(octets), tables), "#endif",
               placed(one.loading(changing, other), other.loading(changing, one))]
    parts = ["\n".join([arrays(octets, [0, *tables]), *(one.data[it] for it in changing), placed(one.globals, other.globals),
                        init("init_memories", *loading)]), *parts]
    rest = f"{other.data[last]}\n{init('init_rest', other.loading([last], other))}"
    return United(small.fields, *(placed_in_memory(it, tables, data, ends) for it in parts), other.of(simulator - library), rest,
                  data, -(-begin // 16) * 16, -(-(ends - data) // 16) * 16, large.pages, wasm)


def united(exports: List[str], folder: str, over_gate: bool) -> United:
    """All steps, in a folder that is empty."""
    need("wasm-opt", "wasm2c")
    for name in (LIBRARY, PROGRAM):
        built(name, over_gate=over_gate, with_module=True)
    those = objects(folder)
    (small, wasm), (large, _) = (module_of(those, [*exports, "main"], folder, it) for it in (STACK, PROGRAM_STACK))
    with open(f"{folder}/{STACK}/{MAP}", encoding="utf-8") as file:
        starts = sections(file.read(), STACK)
    return divided(small, large, set(exports), starts, wasm)
