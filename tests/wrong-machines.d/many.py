"""The crate `wrong`, which has many wrong machines at once, for tests/wrong-machines. It stands on the crates as they are, and
has a copy, for each machine, of the definitions that are changed there or stand on one that is."""
import re

from definitions import FULL, LIST, handed_on, imports_of, module_in, narrowed, words_in


class Machine:
    """A machine: the modules of definitions, with those that are changed, and a row's laws and proofs. What it has for itself
    stands in a folder of its own. Without a folder it is the machine as it is. Static libraries, of which no crate can take
    anything, it has for itself."""

    def __init__(self, folder, definitions, kept, static, changed, laws):
        self.folder, self.laws, self.kept, self.static, self.own = folder, laws, kept, static, {}
        self.texts = {**definitions, **changed, **laws}
        begun, more = set(), {*changed, *laws} if folder else set()
        while more:
            begun |= more
            self.own = dict.fromkeys(begun, True)
            more = self.with_kept() - begun

    def with_kept(self):
        """Returns the modules that name a type which their crate keeps to itself, of crates of which some module is own: the
        crate `wrong` has such types anew."""
        found = set()
        for full in self.kept:
            beside = [it for it in self.texts if it.startswith(f"Rattle.{full.split('.')[1]}.")]
            if any([self.has_own(it) for it in beside]):
                found |= {it for it in beside if f"{full}." in self.texts[it]}
        return found

    def has_own(self, name):
        """Returns whether a module is changed here, or stands on one that is."""
        if name not in self.own and name.split(".")[1] in self.static:
            self.own[name] = True
        if name not in self.own:
            imports = imports_of(self.texts, narrowed(self.texts[name], frozenset("*")))
            self.own[name] = any([self.has_own(it) for it in imports])
        return self.own[name]

    def place(self, name):
        """Returns the full name by which this machine has a module."""
        _, crate, part, path = name.split(".", 3)
        if self.has_own(name):
            return ".".join(["Rattle.wrong", part, *filter(None, [self.folder]), *[crate] * (crate != "wrong"), path])
        return name

    def placed(self, text):
        """Returns a text with the full names of modules as this machine has them."""

        def named(found):
            name = module_in(self.texts, found[0])
            if any(found[0].startswith(it) for it in self.kept):
                return placed_type(found[0])
            return (self.place(name) if name else "") + found[0][len(name) :]

        return FULL.sub(named, LIST.sub(self.taken, text))

    def taken(self, line):
        """Returns an import, as of a match of LIST, that takes what a library hands on from where that takes it: a library
        may hand it on to itself alone."""
        found = {}
        for plain, word in words_in(line[3]):
            at = line[2]
            while at in self.texts and not self.has_own(at) and plain in handed_on(self.texts[at]):
                at, plain = handed_on(self.texts[at])[plain]
            found.setdefault(at, []).append(plain if plain == word else f"{plain} as {word}")
        return "\n".join(f"{line[1]}{at}.{{{', '.join(words)}}}" for at, words in found.items())


def placed_type(full):
    """Returns the full name by which the crate `wrong` has a type that a crate keeps to itself."""
    return re.sub(r"^Rattle\.(\w+)\.specs\.declared\.", r"Rattle.wrong.specs.declared.\1.", full)


def written(machines):
    """Returns the modules of the crate `wrong` that these machines need, by their full names."""
    left, known, texts = [(it, name, {"*"}) for it in machines for name in it.laws], {}, {}
    while left:
        machine, name, words = left.pop()
        place = machine.place(name)
        if not place.startswith("Rattle.wrong.") or place in known and words <= known[place]:
            continue
        known.setdefault(place, set()).update(words)
        text = narrowed(machine.texts[name], frozenset(known[place]))
        left += [(machine, *it) for it in imports_of(machine.texts, text).items()]
        texts[place] = machine.placed(text)
    return texts


def files_of(texts):
    """Returns the files of modules with these full names, and of those that only name others, by their paths."""
    files, nodes = {}, {"specs/Lib": {}, "proofs/Lib": {}}
    for name, text in texts.items():
        _, _, part, *path = name.split(".")
        files["/".join([part, *path])] = text
        for at, it in enumerate(path):
            nodes.setdefault("/".join([part, *(path[:at] or ["Lib"])]), {})[it] = None
    files.update({it: "".join(f"pub mod {name}\n" for name in sorted(names)) for it, names in nodes.items()})
    return {f"{path}.antt": text for path, text in files.items()}


def named_types(kept, texts):
    """Returns those of the types that crates keep to themselves which modules of the crate `wrong` name, and those that these
    bring in."""
    all_texts, found = "\n".join(texts.values()), {}
    places = {"::".join(["crate", crate, *path]): full for full in kept for _, crate, _, _, *path in [full.split(".")]}
    more = {full for full in kept if f"{placed_type(full)}." in all_texts}
    while more:
        found.update((full, kept[full]) for full in more)
        more = {places[it] for full in more for it in kept[full][1] if it in places} - set(found)
    return {full: found[full] for full in kept if full in found}


def files_of_types(kept):
    """Returns the files of src/ that have types which crates keep to themselves, by their paths, and the names of these crates."""
    parts, files, below = {}, {}, {}
    for full, (file, uses, text) in kept.items():
        brought, texts = parts.setdefault(f"{full.split('.')[1]}/{file.removesuffix('.rt')}", ({}, []))
        brought.update(dict.fromkeys(uses))
        texts.append(text)
    for path, (uses, texts) in parts.items():
        brought = "".join(f"use {it};\n" for it in uses)
        files[f"src/{path}.rt"] = "\n".join(["//! Types.\n", *[brought] * bool(brought), *texts])
        names = path.split("/")
        for at in range(1, len(names)):
            below.setdefault("/".join(names[:at]), {})[names[at]] = None
    files.update({f"src/{at}/mod.rt": "//! Types.\n\n" + "".join(f"mod {it};\n" for it in names) for at, names in below.items()})
    return files, [it for it in below if "/" not in it]
