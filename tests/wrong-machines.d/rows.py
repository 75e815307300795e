"""The rows of wrong machines: what each changes, the laws that it breaks, and the proofs, for tests/wrong-machines."""
import functools
import os
import re

from definitions import files_in, narrowed, read
from vithrynel.crates import closure

ROWS = os.path.dirname(os.path.abspath(__file__))
ROOT = os.path.dirname(os.path.dirname(ROWS))
WORDS = "change", "breaks", "run"
# A call that does nothing: its contract is a law.
LAW = r"^pub fn {}\(\)\n((?:.*\n)*?)\{{\}}\n"
# What proofs share, and the crate on whose definitions it stands. A word that several have is the first one's.
SHARED = {
    "Plain": "",
    "Wire": "laws_wire",
    "Asking": "laws_wire",
    "Face": "laws_wire",
    "Step": "laws_order",
    "Losses": "laws_wire",
    "Circuit": "laws_order",
    "Beats": "laws_time",
    "Rested": "laws_time",
    "Answers": "laws_time",
    "Links": "model_link",
    "Both": "model_link",
    "Given": "laws_link",
    "Ends": "laws_link",
    "Teis": "model_teis",
    "Lines": "model_line",
    "Cards": "laws_line",
    "Due": "laws_trace",
    "Traces": "model_card",
    "Asked": "model_card",
    "Ports": "model_card",
    "Terminal": "model_card",
    "Bus": "laws_order",
    "Buses": "laws_order",
    "Images": "model_image",
    "Saved": "model_image",
    "Handles": "lapd_c",
}


class Fault(Exception):
    """What is wrong with a row."""


def clauses_of(contract):
    """Returns the clauses of a contract by name, each with its text; '' names the one without a name."""
    found, at = {}, 0
    for start in re.finditer(r"ensures (\w*) ?\{", contract):
        if start.start() < at:
            continue
        at, depth = start.end(), 1
        while depth:
            depth += {"{": 1, "}": -1}.get(contract[at], 0)
            at += 1
        found[start[1]] = contract[start.end() : at - 1].strip()
    return found


def name_of(path):
    """Returns the full name of a module of definitions."""
    return "Rattle." + path.removeprefix("crates/").removesuffix(".antt").replace("/", ".")


class Claim:
    """That a law is false of a wrong machine: the law, and the proof."""

    def __init__(self, row, number, law, proof):
        self.crate, self.law_name, *clause = law.split()
        # the crates of all laws of the row
        self.together = {self.crate}
        self.clause, self.proof = clause[0] if clause else "", proof
        self.function = row.replace("-", "_") + f"_{number}" * (number > 1)
        module = row.title().replace("-", "") + str(number) * (number > 1)
        self.law_at, self.proof_at = f"Rattle.wrong.specs.{module}", f"Rattle.wrong.proofs.{module}"

    def law(self):
        """Returns the imports and the text of the law, from the contract that states it. A name with a capital is a definition."""
        *modules, name = self.law_name.split("::")
        if name[0].isupper():
            return self.definition(".".join(modules), name)
        at = "/".join([f"{ROOT}/crates/{self.crate}/src", *modules])
        files = [f"{at}.rt"] if os.path.isfile(f"{at}.rt") else [f"{at}/{it}" for it in files_in(at)]
        for file in sorted(files, key=lambda it: (it.count("/"), it)):
            text = read(file)
            found = re.search(LAW.format(name), text, re.MULTILINE)
            if found:
                clauses = clauses_of(re.sub(r"^ *//.*\n", "", found[1], flags=re.MULTILINE))
                if self.clause not in clauses:
                    raise Fault(f"law {self.law_name} has no clause '{self.clause}'")
                return re.findall(r"^ghost use (.*);$", text, re.MULTILINE), clauses[self.clause]
        raise Fault(f"{self.crate} has no law {self.law_name}")

    def definition(self, module, name):
        path = f"{ROOT}/crates/{self.crate}/specs/{module.replace('.', '/')}.antt"
        if self.clause or not os.path.isfile(path) or f"\nabbrev pub {name} : Type 0\n" not in read(path):
            raise Fault(f"{self.crate} defines no law {self.law_name}")
        return [f"Rattle.{self.crate}.specs.{module}.{{{name}}}"], name

    def of_page(self):
        return f"`{self.law_name}`" + f" (`{self.clause}`)" * bool(self.clause)


class Row:
    """A wrong machine: what it changes, and the laws that it breaks, with the proofs."""

    def __init__(self, name, text):
        self.name, self.words, self.changes, laws, path, old = name, {}, [], [], "", ""
        head, *proofs = text.split("\nproof:\n")
        for line in head.splitlines():
            word, _, text = line.partition(":")
            text = text.strip()
            if word in WORDS:
                self.words[word] = text
            elif word == "law":
                laws.append(text)
            elif word == "file":
                path = text
            elif word == "old":
                old = text.replace("\\n", "\n")
            elif word == "new":
                self.changes.append((path, old, text.replace("\\n", "\n")))
            else:
                raise Fault(f"a line begins with '{word}'")
        missing = [it for it in WORDS if it not in self.words]
        if missing or not self.changes or not laws:
            raise Fault(f"it has no '{(missing or ['law' if self.changes else 'new'])[0]}:'")
        if len(proofs) != len(laws):
            raise Fault(f"it has {len(laws)} lines 'law:' and {len(proofs)} lines 'proof:'")
        self.claims = [Claim(name, number, *it) for number, it in enumerate(zip(laws, proofs), 1)]
        for it in self.claims:
            it.together = {other.crate for other in self.claims}

    def changed(self, texts):
        """Returns the modules that the row changes, by their full names, as it makes them of those that are there."""
        found = {}
        for path, old, new in self.changes:
            name = name_of(path)
            text = found.get(name, texts.get(name, ""))
            count = text.count(old) if old else 0
            if count != 1:
                raise Fault(f"an 'old:' text is in {path} {count} times, and not once")
            if "".join(old.split()) == "".join(new.split()):
                raise Fault("it changes nothing")
            found[name] = text.replace(old, new)
        return found

    def line_of_page(self):
        laws = ", ".join(it.of_page() for it in self.claims)
        return f"| `{self.name}` | {self.words['change']} | {self.words['breaks']} | {laws} | {self.words['run']} |\n"


def texts_of_rows():
    """Returns the names of all rows, each with its text, in the order of the tables."""
    found = []
    for table in sorted(it for it in os.listdir(ROWS) if it.endswith(".txt")):
        _, *parts = re.split(r"^machine: *(\S+)\n", read(f"{ROWS}/{table}"), flags=re.MULTILINE)
        found += [(name, f"{text.rstrip()}\n") for name, text in zip(parts[::2], parts[1::2])]
    return found


def rows_of(names):
    """Returns the rows of these names, or all, in order of names, and what is wrong with those that can't be read."""
    rows, there = [], texts_of_rows()
    texts, told = dict(there), [name for name, _ in there]
    faults = [f"{it}: two rows have this name" for it in texts if told.count(it) > 1]
    for name in names or sorted(texts):
        try:
            if name not in texts:
                raise Fault("no row has this name")
            rows.append(Row(name, texts[name]))
        except Fault as error:
            faults.append(f"{name}: {error}")
    return rows, faults


def text_of_law(claim):
    """Returns the module that has the law of a claim."""
    imports, law = claim.law()
    return narrowed("".join(f"use {it}\n" for it in imports) + f"\nabbrev pub Law : Type 0\nLaw = {law}\n")


def words_in(uses):
    """Returns the words that imports bring."""
    return re.findall(r"[^\s,{}]+(?=[,}])|(?<= as )\w+", uses)


def without(own, uses):
    """Returns shared imports without the words that a proof has of its own."""
    lists = re.sub(r"\{(.*)\}", lambda found: f"{{{', '.join(it for it in found[1].split(', ') if it not in own)}}}", uses)
    return "".join(it for it in lists.splitlines(True) if "{}" not in it and it.split(" as ")[-1].strip() not in own)


@functools.lru_cache(maxsize=None)
def shared_imports():
    """Returns the imports that proofs share, by the part of which they are."""
    parts = re.split(r"^(\w+):\n", read(f"{ROWS}/uses.text"), flags=re.MULTILINE)
    return {name: text.rstrip("\n") + "\n" for name, text in zip(parts[1::2], parts[2::2])}


def crates_in(text):
    """Returns the crates that a text brings in, by itself and by the shared parts that it names."""
    return set(re.findall(r"^use Rattle\.(\w+)\.", "\n".join([text, *map(shared_part, parts_of([text]))]), re.MULTILINE))


def imports_for(proof, shared, crates):
    """Returns the imports that proofs share, of those parts of which the proof has a word that is not its own. A part that
    brings in more than these crates has to be named in what the proof says, not only in an import, a field or a comment."""
    there = shared_imports()
    imported = words_in("\n".join(re.findall(r"^use .*", proof, re.MULTILINE)))
    own, used = {*imported, *re.findall(r"^(?:abbrev |unfoldable )?(?:pub )?(\S+) :", proof, re.MULTILINE)}, ""
    body = re.sub(r"^(?:use |--).*\n|\w+ = |\.\w+", "", proof, flags=re.MULTILINE)

    def is_used(text):
        said = proof if crates_in(text) <= crates else body
        return any(re.search(rf"(?<![\w-]){re.escape(it)}(?![\w-])", said) for it in words_in(text))

    for it in shared:
        text = without(own, there[it])
        if is_used(text):
            used += text
            own.update(words_in(text))
    return used


def proof_of(crates, claim):
    """Returns the proof of a claim, with the imports that it shares with others."""
    needed = closure(crates, claim.crate)
    shared = [it for it, crate in SHARED.items() if not crate or crate in needed]
    there = {"std", "wrong"}.union(*(closure(crates, it) for it in claim.together))
    return imports_for(claim.proof, shared, there) + claim.proof


@functools.lru_cache(maxsize=None)
def shared_part(name):
    return read(f"{ROWS}/lemmas-{name.lower()}.text")


def parts_of(proofs):
    """Returns the shared parts that proofs import, and those on which these stand. What is false of a machine but in a
    part that no proof imports is not to count."""
    found, texts = set(), list(proofs)
    while texts:
        parts = set(re.findall(r"^use Rattle\.wrong\.proofs\.(\w+)\.", "\n".join(texts), re.MULTILINE)) - found
        texts = [shared_part(it) for it in parts]
        found |= parts
    return [it for it in SHARED if it in found]


def needed_by(crates, rows):
    """Returns the crates on which the laws of rows and their proofs stand."""
    claims = [claim for row in rows for claim in row.claims]
    proofs = [proof_of(crates, it) for it in claims]
    texts = "".join(proofs + [shared_part(it) for it in parts_of(proofs)])
    named = {it.crate for it in claims}.union(re.findall(r"^use Rattle\.(\w+)\.", texts, re.MULTILINE))
    return set().union(*[closure(crates, it) for it in named if it in crates])
