"""The definitions of the crates: what a file of specs/ has, what its imports mean, and all that some definitions need."""
import pathlib
import re

ROOT = pathlib.Path(__file__).resolve().parent.parent
CRATES = ROOT / 'crates'
NAMED = re.compile(r'^(?!unfolding )(?:(?:unfoldable|abbrev|pub|data|record) )*([^\s:()]+)')
WORD = re.compile(r"[^\W\d][\w'\-]*(?:\.[^\W\d][\w'\-]*)*")
USE = re.compile(r'^(?:ghost )?use Rattle\.(\w+)\.specs\.([\w.]+?)(?:\.\{([^}]*)\})?(?: as (\w+))?;?$')
SIGNATURE = re.compile(r'^(?:abbrev |unfoldable )?pub \w+ : ')
WIDTH = 120
# What each card has that has just begun, and keeps: by `start` and `drive` of `lapd_card`, and by `cards_stay_sound`.
PREMISES = ('lapd_card', 'Stands'), ('model_card', 'ports.Sound')


class Specs:
    """The definitions of one file, with what its imports mean."""

    def __init__(self, crate, path):
        self.definitions, self.names, self.aliases = {}, {}, {}
        self.crate, self.file = crate, name_of(path)
        name = None
        for line in path.read_text(encoding='utf-8').splitlines():
            if line.startswith(('use ', 'ghost use ')):
                self.take_use(line)
            elif line.strip() and not line.strip().startswith('--'):
                head = NAMED.match(line)
                name = head.group(1) if head and line[0] != '}' else name
                self.definitions.setdefault(name, []).append(line)

    def take_use(self, line):
        """What an import lets the file name."""
        found = USE.match(line)
        if found is None or found.group(2).startswith('declared'):
            return
        crate, path, names, alias = found.groups()
        file, *inner = re.match(r'((?:[a-z]\w*\.)*\w+)(?:\.(\w+))?', path).groups()
        inner = [it for it in inner if it]
        if alias:
            self.aliases[alias] = (crate, file)
        for name in (names or '').split(','):
            plain, _, other = name.strip().partition(' as ')
            self.names[other or plain] = (crate, file, inner[0] if inner else plain)

    def meaning(self, word):
        """The definition that a word stands for, or None."""
        first, _, rest = word.partition('.')
        if first in self.aliases and rest:
            return self.aliases[first] + (rest.partition('.')[0],)
        if first in self.names:
            return self.names[first]
        return (self.crate, self.file, first) if first in self.definitions else None

    def meanings(self, text):
        """The definitions that a text names, but for the premise."""
        keys = map(self.meaning, WORD.findall(text))
        return [key for key in keys if key and key[:2] not in PREMISES]


def name_of(path):
    """The name of a file of definitions, with the folders in specs/ that it lies in."""
    parts = path.with_suffix('').parts
    return '.'.join(parts[parts.index('specs') + 1:]) if 'specs' in parts else path.stem


def read_all():
    """The files of definitions of all crates, by crate and name."""
    paths = [(p.relative_to(CRATES).parts[0], p) for p in CRATES.glob('*/specs/**/*.antt')]
    return {(crate, name_of(p)): Specs(crate, p) for crate, p in paths}


def needed(files, roots):
    """All definitions that these name, themselves too, in the order in which they are met."""
    met, waiting = {}, list(roots)
    while waiting:
        key = waiting.pop(0)
        specs = files.get(key[:2])
        if key in met or specs is None or key[2] not in specs.definitions:
            continue
        met[key] = specs.definitions[key[2]]
        for line in met[key]:
            waiting += specs.meanings(line.partition(' -- ')[0])
    return met


def count(met):
    """How many lines these definitions have."""
    return sum(map(len, met.values()))


def folded(line):
    """The lines of a line, none of which is wider than the pages are."""
    at = line.rfind(' → ', 0, WIDTH) if len(line) > WIDTH else -1
    begin = line[:len(line) - len(line.lstrip())]
    return [line] if at < 0 else [line[:at + 2]] + folded(begin + line[at + 3:])


def shown(definition):
    """A definition without the type of a function, and without what is said of whoever may name it."""
    lines = [re.sub(r' : Type \d+ where$', ' where', line) for line in definition if not SIGNATURE.match(line)]
    return [it for line in lines for it in folded(re.sub(r'^( *)pub ', r'\1', line))]


def words_of(specs, name, met):
    """A definition and those of its file that it names, each after the first that names it."""
    if name in specs.definitions and name not in met:
        met[name] = shown(specs.definitions[name])
        for word in WORD.findall(' '.join(met[name])):
            words_of(specs, word, met)
    return met
