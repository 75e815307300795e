"""What wabt's wasm2c makes of a module, as the middle of files in C99: united.py takes it apart. A function a step:

    split       wasm-opt gives each value of the module a variable of its own: so folded.py finds what is a sum of another
    machine     wasm2c's output without its own head: the parts are found by what they say
    plain       its text for a machine whose memory is c/portable's; folded.py makes expressions of its lines
    asked_for   the loads and stores of c/portable/memory.c that it calls
    comment     what a file begins with: what it was made by
"""
import re
from typing import NamedTuple

from .crates import ROOT, sum_of
from .folded import AHEAD, folded
from .multiples import marked
from .static_library import NotBuilt
from .wasm import FEATURES, run, versions

# A load or a store goes less than AHEAD ahead of the place that is tested, and takes so many octets at most.
WIDEST = 8


def content(path: str) -> str:
    with open(f"{ROOT}/{path}", encoding="utf-8") as file:
        return file.read()


class Machine(NamedTuple):
    """Parts of wasm2c's output: the fields of an instance, and all functions with their prototypes and data; where the heap
    begins, and how many pages of memory there are at first."""
    fields: str
    functions: str
    heap_base: int
    pages: int


def part(text: str, pattern: str, what: str) -> str:
    found = re.findall(pattern, text, re.M | re.S)
    if len(found) != 1:
        raise NotBuilt(f"wasm2c writes another form than that of wabt 1.0.32: {what}")
    return found[0]


def split(wasm: str, folder: str) -> str:
    run(["wasm-opt", *(f"--enable-{it}" for it in FEATURES), "--ssa-nomerge", wasm, "-o", "split.wasm"], folder)
    return f"{folder}/split.wasm"


def machine(wasm: str, folder: str) -> Machine:
    run(["wasm2c", "-n", "machine", split(wasm, folder), "-o", "machine.c"], folder)
    run(["wasm2wat", "split.wasm", "-o", "machine.wat"], folder)
    with open(f"{folder}/machine.h", encoding="ascii") as file:
        fields = part(file.read(), r"^typedef struct Z_machine_instance_t \{\n(.*?)  wasm_rt_memory_t w2c_memory;\n\}", "an instance")
    with open(f"{folder}/machine.c", encoding="ascii") as file:
        text = file.read()
    body = part(text, r"^  func_types\[\d+\] = [^\n]*\n\}\n\n(static \w+ w2c_.*?)^/\* export: 'memory' \*/$", "functions")
    base = part(body, r"instance->w2c___heap_base = (\d+)ull;", "where the heap begins")
    pages = part(body, r"wasm_rt_allocate_memory\(&instance->w2c_memory, (\d+), \d+\);", "pages of memory")
    body = body.replace(part(body, r"^(static void init_data_instances\([^)]*\) \{\n\}\n)", "data that are put in later"), "")
    with open(f"{folder}/machine.wat", encoding="utf-8") as file:
        body = marked(body, file.read())
    functions = folded(plain(body)).replace("instance->", "OWN(instance)->")
    # The stack's place is inside of it.
    return Machine(plain(fields).replace("u64 w2c_g0;", "place w2c_g0;"), functions, int(base), int(pages))


def plain(body: str) -> str:
    """wasm2c's text without indentation and with short names of what is local to a function, for a machine that holds its memory
    itself. What it asks of its system are functions that begin with host_."""
    body = re.sub(r"^ +", "", body, flags=re.M)
    body = re.sub(r"^.*\bZ_env_instance;\n", "", body, flags=re.M)
    body = re.sub(r"\(\*Z_envZ_(\w+)\)\(instance->Z_env_instance(, )?", r"host_\1(instance\2", body)
    body = re.sub(r"\bZ_machine_instance_t ?\* ?", "machine *", body)
    body = body.replace("instance->w2c_memory.pages", "(u32)(instance->octets / 65536)")
    body = body.replace("&instance->w2c_memory", "instance").replace("instance->w2c_memory", "instance")
    body = re.sub(r"\b(i\d\d_(?:load|store)\w*)\(instance, (\(u64\)\(w2c_i\d+\))(?: \+ (\d+)u?)?", access, body)
    return re.sub(r"\bw2c_([BLijlp]\d+)\b", r"w_\1", body)


def access(found: "re.Match[str]") -> str:
    """The beginning of a load or a store: its place, and how far ahead of it it goes, where that is near enough."""
    name, at, ahead = found[1], found[2], int(found[3] or 0)
    return f"{name}(instance, LIMIT, {at}, {ahead}" if ahead < AHEAD else f"{name}(instance, LIMIT, {at} + {ahead}, 0"


def asked_for(memory: str, rest: str) -> str:
    """The loads and stores of c/portable/memory.c that the rest calls: some compilers warn of the others."""
    return re.sub(r"^DEFINE_(?:LOAD|STORE)\((\w+), .*\n", lambda it: it[0] if f"{it[1]}(" in rest else "", memory, flags=re.M)


MADE = """\
Made by {by} of a module with the sum
{sum}.

The code is proved, each function of it, in Rattle. Proofs end with the code as the kit's compiler has it. From there on nothing
is proved, and all is tested: that code is compiled for WebAssembly by the kit's clang, the library and the simulator as one module
in which what both have stands once (shared.py of the repository). wasm-opt lowers its addresses and splits its variables, wasm2c
writes the module as C, and folded.py makes statements of its instructions."""


def comment(text: str, wasm: str) -> str:
    """A file's first comment: a text, with what the file was made by in it."""
    made = MADE.format(by=" and ".join(versions("wasm-opt", "wasm2c")), sum=sum_of(wasm))
    rows = text.format(made=made).rstrip("\n").split("\n")
    return "/*\n" + "".join(f" * {it}".rstrip() + "\n" for it in rows) + " */\n"
