"""Sums of what rows of wrong machines stand on, for tests/wrong-machines: of each definition and each type that a row's laws,
proofs and changes reach by name, without comments and blank space. What else stands in their modules does not count.

A word counts by the definitions that it means. Each of these has a hash, of what it says and of the hashes of what its words mean.
Definitions that name each other are hashed together. No module, file or crate has a part in it, so what only moved is the same. Nor
does it count who may name a definition. A lemma counts by its name."""
import hashlib
import re
import sys

from definitions import files_in, module_in, modules_of, read

OF_ANTT, OF_CODE = (re.compile(rf"(?:^|(?<=\s)){it}(?:\s.*)?$", re.MULTILINE) for it in ("--", "//[/!]?"))
# What begins a definition: a word before it, or its type. All lines go on with it up to the next.
BEGINS = re.compile(r"(?:(?:abbrev|unfoldable|pub|data|record) )+(\S+)|(\S+) :(?: |$)")
# A constructor or a field.
INSIDE = re.compile(r"^  (?:pub )?([^\s()]+)[^\n]*? :(?: |$)", re.MULTILINE)
# An import: the full name, and its list, or the other name for it.
IMPORT = re.compile(r"^(?:unfoldable )?(?:pub )?use (Rattle\.\w+\.[\w.]*\w)(?:\.(\{[^}]*\})| as (\S+))?$", re.MULTILINE)
WORD = r"[^\s(){}\[\],;.]+"
# A word, with what it takes of it; and a word inside one that code writes together with a sign.
CHAIN, INNER = re.compile(rf"{WORD}(?:\.{WORD})*"), re.compile(r"[^\W\d][\w'-]*")
# The full name of something of a crate.
FULL = re.compile(r"Rattle\.\w+\.(?:specs|proofs)\.")
# Variables of λ and of types. What says who may name a definition. A definition of a type, which may give constructors.
BINDS, OPEN = re.compile(r"[({]([^(){}:=]+) : |λ ([^.=]*)\."), re.compile(r"\bpub(?:\(\w+\))? ")
TYPED = re.compile(r"(?:(?:abbrev|unfoldable|pub) )*(?:data|record) ")
# A type of the code, and where one is declared; what is derived and displayed does not count.
OF_TYPE = re.compile(r"Rattle\.(\w+)\.specs\.declared\.(?:[a-z]\w*\.)*([A-Z]\w*)")
TYPE = re.compile(r"^pub(?:\(crate\))? (?:struct|enum) (\w+).*(?:;|\{\n(?:.+\n|\n)*?\})\n", re.MULTILINE)
ATTRIBUTE = re.compile(r"^ *#\[.*\n", re.MULTILINE)


# (a definition names others, and these others)
sys.setrecursionlimit(100_000)


def spelled(text, comment=OF_ANTT):
    """Returns a text as it is read: without comments, one item a line, and one space for any blank space in it."""
    items = re.split(r"\n(?=\S)", comment.sub("", text))
    return "\n".join(" ".join(it.split()) for it in items if it.strip())


def names_of(word):
    """Returns the words by which a text may name something: of an operator also what stands between its gaps."""
    return [word, *filter(None, word.split("◌"))] if "◌" in word else [word]


def meant(parts):
    """Returns what the words of parts mean."""
    return set().union(*(means for _, means in parts))


def digest(parts):
    return hashlib.sha256("\n".join(parts).encode()).hexdigest()[:16]


class Module:
    """A module: its definitions, by each name that one gives, and what its imports name."""

    def __init__(self, text):
        self.items, self.named, self.heads, self.listed, self.others = [], {}, {}, {}, {}
        for full, words, other in IMPORT.findall(text):
            for plain, as_other in re.findall(r"([^\s,{}]+)(?: as ([^\s,{}]+))?", words):
                self.listed.update({it: (full, plain) for it in names_of(as_other or plain)})
            self.others.update({other: full} if other else {})
        for line in OF_ANTT.sub("", IMPORT.sub("", text)).splitlines(True):
            self.items += [""] * (bool(BEGINS.match(line)) or not self.items)
            self.items[-1] += line
        for number, it in enumerate(self.items):
            begins = BEGINS.match(it)
            for found, words in (self.heads, filter(None, begins.groups() if begins else ())), (self.named, INSIDE.findall(it)):
                for name in (it for word in words for it in names_of(word)):
                    found.setdefault(name, set()).add(number)
        for name, numbers in self.heads.items():
            self.named.setdefault(name, set()).update(numbers)

    def inside(self, text):
        """Returns the numbers of the definitions of which a text names a field or a constructor."""
        words = set(re.findall(WORD, text)) - set(self.heads)
        return set().union(*(self.named.get(it, ()) for it in words))


class Sums:
    """The definitions and types of crates, and sums of those that texts reach."""

    def __init__(self, crates, names):
        self.crates = set(names)
        self.texts, self.modules, self.types, self.reached, self.read, self.hashes, self.spelled = {}, {}, {}, {}, {}, {}, {}
        for name in names:
            self.texts.update(modules_of(crates, name))
            for file in files_in(f"{crates}/{name}/src"):
                for it in TYPE.finditer(read(f"{crates}/{name}/src/{file}")):
                    self.types.setdefault(it[1], set()).add(OPEN.sub("", spelled(ATTRIBUTE.sub("", it[0]), OF_CODE)))

    def module(self, name):
        if name not in self.modules:
            self.modules[name] = Module(self.texts[name])
        return self.modules[name]

    def nodes(self, full, word):
        """Returns the definitions or types of this full name: modules with numbers, and names of types."""
        of_type, name = OF_TYPE.match(full), module_in(self.texts, full)
        if of_type:
            return {("type", of_type[2])}
        if not name:
            return set()
        module, found = self.module(name), set()
        for it in [*full[len(name) + 1 :].split("."), word]:
            found |= {(name, number) for number in module.heads.get(it) or module.named.get(it, ())}
            if it in module.listed and it not in module.named:
                found |= self.nodes(*module.listed[it])
        # (what is not found by its name counts as all of the module)
        return found or {(name, number) for number in range(len(module.items))}

    def after(self, node):
        """Returns what a definition or a type names."""
        if node not in self.reached:
            at, which = node
            if at == "type":
                words = {word for text in self.types.get(which, ()) for word in re.findall(r"\b[A-Z]\w*", text)}
                self.reached[node] = {("type", it) for it in words if it in self.types}
            elif at == "kit":
                self.reached[node] = set()
            else:
                own = self.module(at).inside(self.module(at).items[which])
                self.reached[node] = meant(self.said(node)).union((at, it) for it in own)
        return self.reached[node]

    def parts_of(self, module, text, name=""):
        """Returns a definition as it is read in a module, in parts: each a word, and the definitions and types that it means. Where
        it stands does not matter, nor by which name of a module it is taken, nor what else it is called there, nor who may name
        it."""
        found, fields, begins = [], set(INSIDE.findall(text)), BEGINS.match(text)
        own = names_of(begins[1] or begins[2]) if begins else []
        for line in spelled(OPEN.sub("", text)).splitlines(True):
            at, variables = 0, fields | self.variables(module, line, name, own)
            for chain in CHAIN.finditer(line):
                found.append((line[at : chain.start()], ()))
                found += [(chain[0], ())] if chain[0].split(".")[0] in variables else self.parts_of_word(module, chain[0], name)
                at = chain.end()
            found.append((line[at:], ()))
        return found

    def variables(self, module, line, name, own):
        """Returns the words of a line that are variables in it: of λ and of types, and of an equation those on the left that else
        would mean functions."""
        found, (left, equal, _) = set(" ".join(sum(BINDS.findall(line), ())).split()), line.partition(" = ")
        if name and equal and not BEGINS.match(line):
            words = [it for it in re.findall(WORD, left) if it not in own]
            found |= {it for it in words if self.is_function(self.meanings(module, it, name)[0][1])}
        return found

    def is_function(self, nodes):
        return any(at not in ("type", "kit") and not TYPED.match(self.module(at).items[it]) for at, it in nodes)

    def parts_of_word(self, module, chain, name):
        """Returns the parts of a word, with what is taken of it."""
        word, *more = chain.split(".")
        if FULL.match(chain):
            parts, more = [(more[-1], self.brought(chain, more[-1]))], []
        elif more and word in module.others:
            parts, more = [(more[0], self.brought(module.others[word], more[0]))], more[1:]
        else:
            parts = self.meanings(module, word, name)
        return [*parts, ("".join(f".{it}" for it in more), ())]

    def meanings(self, module, word, name):
        """Returns the parts of a word of a text, which stands in the module of this full name, if it has one."""
        if name and word in module.heads:
            return [(word, {(name, it) for it in module.heads[word]})]
        if word in module.listed:
            full, plain = module.listed[word]
            return [(word if "◌" in plain else plain, self.brought(full, plain))]
        return [(word, ()), *(("", self.brought(*module.listed[it])) for it in INNER.findall(word) if it in module.listed)]

    def brought(self, full, word):
        """Returns what an import brings. Of what is neither a definition nor a type, as a lemma, the name alone counts, and of the
        kit the full name."""
        return self.nodes(full, word) or (() if full.split(".")[1] in self.crates else {("kit", full)})

    def said(self, node):
        """Returns the parts of a definition or of a type."""
        if node not in self.read:
            at, which = node
            if at == "kit":
                self.read[node] = [(which, ())]
            elif at == "type":
                texts = sorted(self.types.get(which, {which}))
                self.read[node] = [("\n".join(texts), ()), *(("", {it}) for it in sorted(self.after(node)))]
            else:
                self.read[node] = self.parts_of(self.module(at), self.module(at).items[which], at)
        return self.read[node]

    def spelled_out(self, parts, ring=()):
        """Returns parts as a text, in which each word has beside it the hashes of what it means, except of those of a ring."""
        told = ({self.hash_of(it) for it in means if it not in ring} for _, means in parts)
        return "".join(" ".join([word, *sorted(hashes)]) for (word, _), hashes in zip(parts, told))

    def hash_of(self, node):
        """Returns a hash of a definition or of a type, by what it says, and by those of what it names."""
        if node not in self.hashes:
            self.visit(node, [], {})
        return self.hashes[node]

    def visit(self, node, path, places):
        """Hashes a definition, and all that it names. Those of a ring, in which each comes to each, are hashed together."""
        places[node] = lowest = len(path)
        path.append(node)
        for it in dict.fromkeys(it for _, means in self.said(node) for it in means):
            if it not in self.hashes:
                lowest = min(lowest, places[it] if it in places else self.visit(it, path, places))
        if lowest == places[node]:
            ring, path[lowest:] = set(path[lowest:]), []
            texts = {it: self.spelled_out(self.said(it), ring) for it in ring}
            self.hashes.update({it: digest([texts[it], *sorted(texts.values())]) for it in ring})
        return lowest

    def told(self, text):
        """Returns what a text says, spelled out, and the definitions and types that it names."""
        if text not in self.spelled:
            module = Module(text)
            parts = [self.parts_of(module, it) for it in module.items]
            self.spelled[text] = [self.spelled_out(it) for it in parts], set().union(*map(meant, parts))
        return self.spelled[text]

    def differ(self, name, text):
        """Returns what differs in a module if it becomes this text: the definitions, spelled out, and what they name."""
        here, there = self.module(name), Module(text)
        # (a word means what it means now)
        there.heads, there.named = here.heads, here.named
        parts = [[self.parts_of(module, it, name) for it in module.items] for module in (here, there)]
        old, new = ({self.spelled_out(it): it for it in some} for some in parts)
        gone, come = ([it for it in some if it not in others] for some, others in ((old, new), (new, old)))
        return ["gone:", *gone, "come:", *come], set().union(*(meant({**old, **new}[it]) for it in gone + come))

    def sum_of(self, texts, changes):
        """Returns a sum of texts and of changes, each a module's full name with the text that it gets, and of all that they reach."""
        told = [*map(self.told, texts), *(self.differ(*it) for it in changes)]
        left, met = set().union(*(reached for _, reached in told)), set()
        while left:
            node = left.pop()
            met.add(node)
            left |= self.after(node) - met
        return digest([*(it for said, _ in told for it in said), *sorted(map(self.hash_of, met))])
