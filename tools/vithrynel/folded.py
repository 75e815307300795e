"""wasm2c's functions as C that can be read, and that C compilers make better code of. wasm2c writes a line for each instruction
of WebAssembly, which takes from a stack and puts there; here a line is a statement (statements.py), with what it takes as
expressions in it: what is taken once stands where it is taken, unless something that it reads is set between.

An address of a load or a store is a place and how far ahead of it the access goes, both as the machine of 64 bits has them: the
place is not cut to 32 bits, and is what a test is about. So accesses to fields of one struct have one place, and a compiler
leaves one test of them.
"""
import collections
import re
from typing import Dict, FrozenSet, Iterable, List, NamedTuple, Optional, Tuple

from .halves import Halves, declared, narrowed, prototype
from .static_library import NotBuilt
from .statements import alive, NAME, next_of, SLOT, Statement, statements, surely_set

# An access goes less than so far ahead of the place that is tested. One place is as good as another only where none wraps:
# an access nearer to 0 than this would lie at the far end of the stack (united.STACK), where none is.
AHEAD = 512
# So long is an expression at most.
LONGEST = 240


class Expression(NamedTuple):
    """A value: its text, what it reads of variables, and whether it reads memory. A comparison is an int; an atom needs no
    brackets; what was cut to 32 bits is kept as it was; and so is what a number was added to. Its high half is made of those of
    the values `high` (halves.py)."""
    text: str
    reads: FrozenSet[str] = frozenset()
    high: FrozenSet[str] = frozenset()
    of_memory: bool = False
    is_test: bool = False
    is_atom: bool = True
    is_call: bool = False
    whole: "Optional[Expression]" = None
    sum_of: "Optional[Tuple[Expression, int]]" = None

    @property
    def number(self) -> Optional[int]:
        found = re.fullmatch(r"(\d+)u(?:ll)?", self.text)
        return int(found[1]) if found else None

    @property
    def is_plain(self) -> bool:
        return self.is_atom and not self.of_memory and "(" not in self.text

    def operand(self) -> str:
        """As a part of another expression, an unsigned number."""
        if self.is_test:
            return f"(u32)({self.text})"
        return self.text if self.is_atom else f"({self.text})"

    def condition(self) -> str:
        return self.text


def reads(parts: Iterable[Expression]) -> FrozenSet[str]:
    return frozenset().union(*(it.reads for it in parts))


def highs(parts: Iterable[Expression]) -> FrozenSet[str]:
    return frozenset().union(*(it.high for it in parts))


def made(text: str, parts: Iterable[Expression], high: Iterable[Expression] = (), **more: bool) -> Expression:
    """Of parts, and of the high halves of these."""
    parts = list(parts)
    is_of_memory = more.pop("of_memory", False) or any(it.of_memory for it in parts)
    return Expression(text, reads(parts), highs(high), is_of_memory, **more)


def signed(sign: str, two: Expression) -> str:
    """A sign and what follows: a number near the top is added as one that is taken away."""
    for top, ending in ((1 << 64, "ull"), (1 << 32, "u")):
        if sign == "+" and two.number is not None and two.text == f"{two.number}{ending}" and two.number > top // 2:
            return f"- {top - two.number}{ending}"
    return f"{sign} {two.operand()}"


# What is written as a function of two or more, and evaluates them more than once.
MACRO = r"[A-Z]\w+"


class Folding:
    """A function as it is written: its statements, and which values of the stack are not yet set."""

    def __init__(self, name: str, of: List[Statement], halves: Halves) -> None:
        self.name, self.halves = name, halves
        self.of, self.after = of, alive(of)
        self.at_label = {it.text: at for at, it in enumerate(of) if it.kind == "label"}
        self.waiting: Dict[str, Expression] = {}
        self.rows: List[str] = []
        self.times = collections.Counter(it.sets for it in of)
        self.sums: Dict[str, Tuple[str, int]] = {}
        self.known = surely_set(of, next_of(of), [it for it, times in self.times.items() if times == 1])

    def variable(self, name: str) -> Expression:
        return Expression(name, frozenset([name]), frozenset([f"{self.name}:{name}"]))

    def asked(self, *parts: Expression) -> Tuple[Expression, ...]:
        """These, whose high halves are looked at."""
        self.halves.ask(highs(parts))
        return parts

    # -- What is set ------------------------------------------------------------------------------------------------------

    def assign(self, name: str, value: Expression) -> None:
        """Sets a variable; what reads its value of before is set first."""
        for other in [it for it, of in self.waiting.items() if name in of.reads]:
            if other in self.waiting:
                self.settle(other)
        if value.text != name:
            self.rows.append(f"{name} = {value.text};")
            self.halves.make(f"{self.name}:{name}", value.high)

    def settle(self, name: str) -> None:
        self.assign(name, self.waiting.pop(name))

    def settle_all(self, is_one: "object") -> None:
        for name in list(self.waiting):
            if name in self.waiting and is_one(name, self.waiting[name]):
                self.settle(name)

    def settle_memory(self) -> None:
        """Before memory changes: what reads it, or what a call has answered."""
        self.settle_all(lambda _, it: it.of_memory or it.is_call or any(name.startswith("instance") for name in it.reads))

    # -- What is read -----------------------------------------------------------------------------------------------------

    def value(self, name: str, at: int) -> Expression:
        """A variable's value: what is read once more after this statement is set first, unless it is plain."""
        if name not in self.waiting:
            return self.variable(name)
        it = self.waiting[name]
        is_read_again = name in self.after[at] and self.of[at].sets != name
        if is_read_again and not it.is_plain or it.is_call or len(it.text) > LONGEST:
            self.settle(name)
            return self.variable(name)
        if not is_read_again:
            del self.waiting[name]
        return it

    def simple(self, name: str, at: int) -> Expression:
        """The same where it would be evaluated more than once."""
        if name in self.waiting and not self.waiting[name].is_plain:
            self.settle(name)
        return self.value(name, at)

    def expression(self, text: str, at: int) -> Expression:
        """What stands on the right."""
        if re.fullmatch(r"\d+u(?:ll)?", text):
            return Expression(text)
        if re.fullmatch(NAME, text):
            return self.value(text, at)
        found = re.fullmatch(rf"({NAME}) (<<|>>) \(({NAME}) & (\d+)\)", text)
        if found:
            one, by = self.value(found[1], at), self.value(found[3], at)
            bits = f"{by.number & int(found[4])}" if by.number is not None else f"({by.operand()} & {found[4]})"
            # C has no shift of a number by as many bits as it has: a place stays one if it has more on each processor.
            if found[2] == ">>" or not bits.isdigit() or int(bits) > 31:
                self.asked(one)
            return made(f"{one.operand()} {found[2]} {bits}", (one, by), [one], is_atom=False)
        found = re.fullmatch(rf"({NAME}) ([-+*&|^]|[<>!=]=?) ({NAME})", text)
        if found:
            return self.pair(*found.groups(), at)
        found = re.fullmatch(rf"!\(({NAME})\)", text)
        if found:
            one, = self.asked(self.value(found[1], at))
            return made(f"!({one.condition()})" if not one.is_atom else f"!{one.text}", (one,), is_test=True)
        found = re.fullmatch(rf"({NAME}) \? ({NAME}) : ({NAME})", text)
        if found:
            return self.choice(*found.groups(), at)
        found = re.fullmatch(r"\(u(?:32|64)\)\(\(s(\d\d)\)(\S+) (\S+) \(s\d\d\)(\S+)\)", text)
        if found:
            one, two = self.asked(self.value(found[2], at), self.value(found[4], at))
            cast = f"(s{found[1]})"
            return made(f"{cast}{one.operand()} {found[3]} {cast}{two.operand()}", (one, two), is_test=True, is_atom=False)
        found = re.fullmatch(rf"((?:\([us]\d+\))+)\(({NAME})\)", text)
        if found:
            return self.cast(found[1], self.value(found[2], at))
        if text == "(u32)(instance->octets / 65536)":
            return Expression(text, of_memory=True)
        found = re.fullmatch(rf"({MACRO})\(({NAME})(?:, ({NAME}))?\)", text)
        if found:
            parts = self.asked(*(self.simple(it, at) for it in found.groups()[1:] if it))
            return made(f"{found[1]}({', '.join(it.operand() for it in parts)})", parts)
        found = re.fullmatch(r"(i\d\d_load\w*)\((.*)\)", text)
        if found:
            place, parts = self.place(found[2], at)
            return made(f"{found[1]}(AT({place}))", parts, of_memory=True)
        if re.fullmatch(r"\w+\(instance.*\)", text):
            return self.call(text, at)
        raise NotBuilt(f"wasm2c writes another form than that of wabt 1.0.32: {text}")

    def pair(self, first: str, sign: str, second: str, at: int) -> Expression:
        one, two = self.value(first, at), self.value(second, at)
        is_test = sign in ("<", ">", "<=", ">=", "==", "!=")
        if is_test:
            self.asked(one, two)
        is_low = is_test or sign == "&" and any(it.number is not None and it.number < 1 << 32 for it in (one, two))
        it = made(f"{one.operand()} {signed(sign, two)}", (one, two), [] if is_low else [one, two], is_test=is_test, is_atom=False)
        if sign == "+" and two.number is not None and two.text.endswith("ull"):
            base, more = one.sum_of or (one, 0)
            return it._replace(sum_of=(base, more + two.number))
        return it

    def choice(self, which: str, first: str, second: str, at: int) -> Expression:
        """Both are there before one is chosen."""
        for name in (first, second):
            if name in self.waiting and self.waiting[name].of_memory:
                self.settle(name)
        one, two, test = (self.value(it, at) for it in (first, second, which))
        self.asked(test)
        return made(f"{test.text if test.is_atom else f'({test.text})'} ? {one.operand()} : {two.operand()}", (one, two, test), (one, two),
                    is_atom=False)

    def cast(self, to: str, one: Expression) -> Expression:
        is_whole = set(re.findall(r"\d+", to)) == {"64"}
        it = made(f"{to}{one.text if one.is_atom and not one.is_test else f'({one.text})'}", (one,), [one] * is_whole)
        return it._replace(whole=one) if to == "(u32)" else it

    def place(self, text: str, at: int) -> Tuple[str, List[Expression]]:
        """Where a load or a store goes: the place that is tested, and how far ahead of it."""
        found = re.match(rf"instance, LIMIT, \(u64\)\(({NAME})\)(?: \+ (\d+))?, (\d+)", text)
        if not found:
            raise NotBuilt(f"wasm2c writes another form than that of wabt 1.0.32: {text}")
        it, more, ahead = self.value(found[1], at), int(found[2] or 0), int(found[3])
        if it.whole is None:
            whole = it if it.number is not None else made(f"(u64){it.operand()}", (it,))
        else:
            whole = it.whole
        base, added = whole.sum_of or (whole, 0)
        if base.text in self.sums and base.text in self.known[at]:
            of, further = self.sums[base.text]
            if added < AHEAD and added + further + more + ahead < AHEAD:
                base, added = self.variable(of), added + further
        if added + more + ahead < AHEAD:
            return f"{base.text}, {added + more + ahead}", [base]
        if added >= 1 << 63:  # less than the base
            base, added = whole, 0
        added, ahead = (added + more, ahead) if ahead else (added + more, 0)
        return f"{base.operand()} + {added}, {ahead}" if added else f"{base.text}, {ahead}", [base]

    def call(self, text: str, at: int) -> Expression:
        self.settle_memory()
        name, parts = self.words(text, at)
        it = made(f"{name}({', '.join(it.text for it in parts)})", parts, of_memory=True, is_call=True)
        return it._replace(high=frozenset([name]))

    def words(self, text: str, at: int) -> Tuple[str, List[Expression]]:
        """The name of a function that is called, and what it is handed."""
        name, words = re.fullmatch(r"(\w+)\((.*)\)", text).groups()
        parts = [self.value(one, at) if re.fullmatch(NAME, one) else Expression(one) for one in words.split(", ")]
        for which, one in enumerate(parts[1:]):
            self.halves.make(f"{name}:w_p{which}", one.high)
        if not name.startswith("w2c_"):
            self.asked(*parts)
        return name, parts

    def is_fixed(self, name: str, at: int) -> bool:
        """Whether a variable has, from this statement on, the value that it has here."""
        return name in self.known[at] if self.times[name] else name.startswith("w_p")

    def note_sum(self, name: str, value: Expression, at: int) -> None:
        """Notes a variable that is set once, to another that stays as it is, and a number."""
        if self.times[name] == 1 and value.sum_of and value.sum_of[1] < AHEAD:
            base, added = value.sum_of
            if re.fullmatch(r"w_[lp]\d+", base.text) and self.is_fixed(base.text, at):
                base_of, more = self.sums.get(base.text, (base.text, 0))
                self.sums[name] = base_of, more + added

    # -- Statements ---------------------------------------------------------------------------------------------------------

    def step(self, at: int) -> None:
        it = self.of[at]
        if it.kind != "set" or not re.fullmatch(r"w_[lp]\d+", it.sets) or it.text not in self.waiting:
            self.settle_all(lambda _, one: one.is_call)
        if it.kind == "set":
            self.set(it, at)
        elif it.kind == "do":
            self.do(it, at)
        elif it.kind == "label":
            self.settle_all(lambda name, _: name in self.after[at])
            self.waiting.clear()
            self.rows.append(f"{it.text}:;")
        else:
            self.go(it, at)

    def set(self, it: Statement, at: int) -> None:
        if re.fullmatch(SLOT, it.sets):
            value = self.expression(it.text, at)
            for other in [name for name, of in self.waiting.items() if it.sets in of.reads and name != it.sets]:
                self.settle(other)
            self.waiting.pop(it.sets, None)
            if it.sets in self.after[at]:
                self.waiting[it.sets] = value
            elif value.is_call:
                self.rows.append(f"(void){value.text};")
            return
        is_kept = it.text in self.after[at] and it.text in self.waiting
        value = self.waiting.pop(it.text) if it.text in self.waiting else self.expression(it.text, at)
        if is_kept and value.is_plain and it.sets not in value.reads:
            self.waiting[it.text] = value
            self.assign(it.sets, value)
            return
        self.note_sum(it.sets, value, at)
        self.assign(it.sets, value)
        if is_kept:
            self.waiting[it.text] = self.variable(it.sets)

    def do(self, it: Statement, at: int) -> None:
        found = re.fullmatch(r"(i\d\d_store\w*)\((.*), (\S+)\)", it.text)
        if found:
            place, parts = self.place(found[2], at)
            value = self.value(found[3], at)
            if found[1] in ("i64_store", "i64_store_8"):
                self.asked(value)
            self.settle_memory()
            self.rows.append(f"{found[1]}(AT({place}), {value.text});")
            return
        name, parts = self.words(it.text, at)
        self.settle_memory()
        self.rows.append(f"{name}({', '.join(one.text for one in parts)});")

    def go(self, it: Statement, at: int) -> None:
        value = self.value(it.reads[0], at) if it.reads else None
        if it.kind == "return":
            self.halves.make(self.name, value.high)
        elif value:
            self.asked(value)
        wanted = frozenset().union(*(self.after[self.at_label[to]] for to in it.to)) if it.to else frozenset()
        self.settle_all(lambda name, _: name in wanted)
        if it.kind == "if":
            self.rows.append(f"if ({value.condition()}) goto {it.to[0]};")
        elif it.kind == "goto":
            self.rows.append(f"goto {it.to[0]};")
        elif it.kind == "switch":
            self.rows += [f"switch ({value.text}) {{", *it.text.split("\n")[1:]]
        elif it.kind == "return":
            self.rows.append(f"return {value.text};")
        else:
            self.rows.append(it.text)
        if it.kind != "if":
            self.waiting.clear()

    def text(self) -> List[str]:
        for at in range(len(self.of)):
            self.step(at)
        return self.rows


# What does more than answer.
CALL = r"\b(?:w2c_|host_|wasm_rt_)\w+\("


def without_unread(rows: List[str]) -> List[str]:
    """The same without what sets variables that are never read."""
    while True:
        times = collections.Counter(it for row in rows for it in re.findall(r"w_l\d+", row))
        times.subtract(re.match(r"w_l\d+", row)[0] for row in rows if row.startswith("w_l"))
        rest = [row for row in rows if not re.match(r"w_l\d+ = ", row) or times[row.split()[0]] or re.search(CALL, row)]
        if len(rest) == len(rows):
            return rows
        rows = rest


class Folded(NamedTuple):
    """A function with expressions: how it begins, what it does, and the kinds of its variables."""
    head: str
    rows: List[str]
    kinds: Dict[str, str]


def folded_function(name: str, head: str, body: str, halves: Halves) -> Folded:
    kinds = {it: kind for kind, names in re.findall(r"^(u32|u64) (w_l\d+ = 0[^;]*);\n", body, re.M) for it in re.findall(r"w_l\d+", names)}
    rows = re.sub(r"^(?:u32|u64) w_[lij]\d+[^;]*;\n", "", body, flags=re.M).rstrip("\n").split("\n")
    rows = without_unread(Folding(name, statements([it for it in rows if it]), halves).text())
    used = sorted(set(re.findall(r"\bw_[ijl]\d+\b", "\n".join(rows))), key=lambda it: (int(it[3:]), it))
    return Folded(head, rows, {it: {"i": "u32", "j": "u64"}.get(it[2]) or kinds[it] for it in used})


def written(name: str, it: Folded, wide: FrozenSet[str]) -> str:
    """A function, each variable of which is as wide as it needs be."""
    kinds = {one: "place" if kind == "u64" and f"{name}:{one}" not in wide else kind for one, kind in it.kinds.items()}
    rows = [row for kind in ("u32", "place", "u64")
            for row in declared(kind, [one + " = 0" * (one[2] == "l") for one, of in kinds.items() if of == kind])]
    unused = [f"(void){one};" for one in re.findall(r"w_p\d+", it.head) if not re.search(rf"\b{one}\b", "\n".join(it.rows))]
    return narrowed(it.head, wide) + "\n".join([*rows, "FUNC_PROLOGUE;", *unused, *it.rows, "}"]) + "\n"


def folded(body: str) -> str:
    """All functions of wasm2c's text with expressions; the rest stays."""
    form = re.compile(r"^(static (?:u32|u64|void) (w2c_\w+)\([^)]*\) \{\n)(.*?)^\}\n(?=\n|\Z)", re.M | re.S)
    halves = Halves()
    made = {name: folded_function(name, head, rows, halves) for head, name, rows in form.findall(body)}
    wide = halves.wide()
    body = form.sub(lambda it: written(it[2], made[it[2]], wide), body)
    return re.sub(r"^static \w+ (w2c_\w+)\([^)]*\);$",
                  lambda it: prototype(narrowed(made[it[1]].head, wide)) if it[1] in made else it[0], body, flags=re.M)
