"""What is promised, and where it stands: clauses of calls that run lists, fields of records, laws, and records that contracts
name, for `tests/reading`.

What a clause says is its item in the list above its call; what a field of a record says is the comment above it,
and what a law says the one above its function. The fields of the two records that `Card::drive` names, of a run and of
its laws, are clauses of it. Each clause and each field must have one, and each name in such a list must be a clause."""
import pathlib
import re
import sys
from typing import List, NamedTuple, Tuple

from specs import CRATES, ROOT, WORD, Specs
from statement import CALLS, DRIVE, promises

ITEM = re.compile(r'^- ((?:`\w+`(?:, )?)+): (.*)$')
FIELD = re.compile(r'^  pub (\w+) : ?(.*)$')
RECORDS = 'Promises', 'PromisesOfOctets'
# The clauses of `drive` that are a record, whose fields are its clauses: its file in specs/ of lapd_card, its name, and where
# another file applies it, by which word.
PARTS = {'run': ('Runs', 'Runs', ('Drive', 'HasRun')), 'laws': ('Drive', 'KeepsLaws', None)}
# The records that the contracts of a crate's calls name: the file of each in specs/, its name, and the file of the words that it is
# applied to, which end so.
CALLED = {'lapd_c': (('CalledBy', 'Called', 'Asked', '_asked'), ('Questions', 'Questioned', 'QuestionWords', ('_of', '_from')))}
BINDERS = re.compile(r'\(((?:\w+ )+):')
LAW_IN = re.compile(r'^((?:///.*\n)+)(?:#\[.*\n)*pub fn (\w+)\(\)\n((?:.*\n)*?)\{\}', re.MULTILINE)
# Where laws of one card and of two stand: those that are not in the statement are printed beside it.
OF_ONE_CARD = 'laws_trace', 'model_card::ports', 'laws_trace::octets', 'model_timed', 'laws_time', 'lapd_text', 'lapd_c'
OF_TWO_CARDS = 'laws_wire', 'laws_order::teis', 'laws_order', 'laws_order::circuit', 'laws_time::circuit'


class Row(NamedTuple):
    """Promises with one sentence between them: their names, the sentence, the definitions that they name, the file in which
    they stand, and the text of each of their claims, by its name, with the words of the file that it stands in."""
    names: List[str]
    said: str
    roots: List[Tuple[str, str, str]]
    file: pathlib.Path
    claims: List[Tuple[str, str, Specs]]


def clauses_of(contract):
    """The clauses of a contract by name, each with its text."""
    found = {}
    for start in re.finditer(r'ensures (\w*) ?\{', contract):
        at, depth = start.end(), 1
        while depth:
            depth += {'{': 1, '}': -1}.get(contract[at], 0)
            at += 1
        found[start.group(1)] = contract[start.end():at - 1]
    return found


def items_of(docs):
    """The items of the list in a doc comment: the names that each begins with, and its sentence."""
    items, goes_on = [], False
    for line in (it.strip()[3:] for it in docs):
        found = ITEM.match(line.strip())
        if found:
            items.append([re.findall(r'\w+', found.group(1)), found.group(2)])
        elif goes_on and line.startswith('   '):
            items[-1][1] += ' ' + line.strip()
        goes_on = bool(found) or goes_on and line.startswith('   ')
    return items


def arguments_of(text):
    """The arguments of a call: words, and what stands in parentheses."""
    found, depth = [], 0
    for part in re.findall(r'[()]|[^()]+', text):
        depth -= part == ')'
        if depth or part in '()':
            found[-1:] = [found[-1] + part] if depth else found[-1:]
            found += [''] * (part == '(' and not depth)
        else:
            found += part.split()
        depth += part == '('
    return found


def texts_of(lines):
    """The fields of a record: by name, their text."""
    found, name = {}, None
    for line in lines:
        field = FIELD.match(line)
        name, text = field.groups() if field else (name, line.strip())
        if name:
            found[name] = (found.get(name, '') + ' ' + text).strip()
    return found


def part_of(file, record, applied):
    """The fields of a record that is a clause of `drive`: by name their text, what they name, also through the record's
    parameters, and the words of its file."""
    specs, given = Specs('lapd_card', CRATES / 'lapd_card' / 'specs' / (file + '.antt')), {}
    lines = specs.definitions[record]
    if applied:
        other = Specs('lapd_card', CRATES / 'lapd_card' / 'specs' / (applied[0] + '.antt'))
        body = ' '.join(other.definitions[applied[1]]).rpartition(' = ')[2].split(None, 1)[1]
        head = ' '.join(it for it in lines if not FIELD.match(it))
        names = [name for them in BINDERS.findall(head) for name in them.split()]
        given = {name: other.meanings(it) for name, it in zip(names, arguments_of(body))}
    return {name: (text, specs.meanings(text) + [it for word in WORD.findall(text) for it in given.get(word, [])], specs)
            for name, text in texts_of(lines).items()}


def clauses(call):
    """What a call that runs a list promises."""
    crate, file = CALLS[call]
    path = CRATES / crate / 'src' / (file + '.rt')
    found = re.search(r'((?: *///.*\n)+) *pub fn %s\b.*\n((?:.*\n)*?) *\{\n' % call, path.read_text(encoding='utf-8'))
    specs, texts = Specs(crate, path), {}
    for name, text in clauses_of(found.group(2)).items():
        is_part = call == DRIVE and name in PARTS
        texts.update(part_of(*PARTS[name]) if is_part else {name: (text, specs.meanings(text), specs)})
    items = items_of(found.group(1).splitlines())
    told = [name for names, _ in items for name in names]
    for name in texts:
        if told.count(name) != 1:
            sys.exit('reading: %s: %d sentences for the clause %s' % (path.relative_to(ROOT), told.count(name), name))
    for name in told:
        if name not in texts:
            sys.exit('reading: %s: no clause %s' % (path.relative_to(ROOT), name))
    return [Row(names, said, [key for name in names for key in texts[name][1]], path,
                [(name, texts[name][0], texts[name][2]) for name in names]) for names, said in items]


def fields(record):
    """What is promised of a run: the fields of a record."""
    path = CRATES / 'laws_promises' / 'specs' / (record + '.antt')
    specs, found, comment, inside = Specs('laws_promises', path), [], [], False
    for line in path.read_text(encoding='utf-8').splitlines():
        field = FIELD.match(line)
        if not line.startswith(' '):
            comment, inside = [], line.startswith('pub record %s ' % record) or inside and not line.strip()
        elif inside and line.strip().startswith('--'):
            comment.append(line.strip()[2:].strip())
        elif inside and field:
            if not comment:
                sys.exit('reading: %s: no sentence above the field %s' % (path.relative_to(ROOT), field.group(1)))
            found.append([[field.group(1)], ' '.join(comment), field.group(2)])
            comment = []
        elif inside and found:
            found[-1][2] += ' ' + line.strip()
    if not found:
        sys.exit('reading: %s has no record %s' % (path.relative_to(ROOT), record))
    return [Row(names, said, specs.meanings(text), path, [(names[0], text, specs)]) for names, said, text in found]


def files_at(place):
    """The files in which the laws of a crate or of one of its modules stand."""
    crate, *modules = place.split('::')
    at = CRATES.joinpath(crate, 'src', *modules)
    return sorted(at.glob('*.rt')) + [it for it in [at.with_suffix('.rt')] if it.exists()]


def laws_of(place):
    """The laws of a crate or a module, which are functions that do nothing."""
    laws, inner = [], {it.partition('::')[2] for it in OF_ONE_CARD + OF_TWO_CARDS if it.startswith(place + '::')}
    for path in files_at(place):
        if path.stem in inner:
            continue
        specs, text = Specs(place.partition('::')[0], path), path.read_text(encoding='utf-8')
        for docs, name, contract in LAW_IN.findall(text):
            claims = [(clause, it, specs) for clause, it in clauses_of(contract).items()]
            said = ' '.join(it[3:].strip() for it in docs.splitlines())
            laws.append(Row([name], said, specs.meanings(contract), path, claims))
    return laws


def records_of(place):
    """The records that contracts of a crate name, each as one promise."""
    return [record_of(place, *it) for it in CALLED.get(place, ())]


def record_of(place, file, record, other, end):
    """A record as a promise: what it says is the comment above it."""
    path = CRATES / place / 'specs' / (file + '.antt')
    specs, asked = Specs(place, path), Specs(place, path.with_name(other + '.antt'))
    found = re.search(r'((?:^-- .*\n)+)pub record %s ' % record, path.read_text(encoding='utf-8'), re.MULTILINE)
    if not found:
        sys.exit('reading: %s: no sentence above the record %s' % (path.relative_to(ROOT), record))
    roots = [(place, file, record)] + [(place, other, it) for it in asked.definitions if it.endswith(end)]
    said = ' '.join(it[3:] for it in found.group(1).splitlines())
    return Row([record], said, roots, path, [(record, '', specs)])


def named_laws(name):
    """The laws of this name in any crate, each by its file, with what its contract names."""
    found = []
    for path in sorted(CRATES.glob('*/src/**/*.rt')):
        law = re.search(r'^pub fn %s\(\)\n((?:.*\n)*?)\{\}' % re.escape(name), path.read_text(encoding='utf-8'), re.MULTILINE)
        if law:
            specs = Specs(path.relative_to(CRATES).parts[0], path)
            found.append((str(path.relative_to(ROOT)), specs.meanings(law.group(1))))
    return found


def rows_at(place):
    """All that is promised at a place: clauses of a call, fields of a record, or a record that contracts name, and laws."""
    return clauses(place) if place in CALLS else fields(place) if place in RECORDS else records_of(place) + laws_of(place)


def listed():
    """The names in the statement, by their places. Each must be there, and all of a row, or none."""
    found = {}
    for it in promises():
        found.setdefault(it.place, []).append(it.name)
    for place, names in found.items():
        rows = rows_at(place)
        for name in names:
            if not any(name in row.names for row in rows):
                sys.exit('reading: tests/statement.txt: %s has no %s' % (place, name))
        for it in promises():
            text = next((text for row in rows for clause, text, _ in row.claims if (place, clause) == (it.place, it.name)), '')
            law = it.law.split('::')[-1]
            if it.place == place and law[:1].isupper() and text.strip() != law:
                sys.exit('reading: tests/statement.txt: %s %s does not say %s' % (place, it.name, law))
        for row in rows:
            missing = [it for it in row.names if it not in names]
            if missing and len(missing) < len(row.names):
                sys.exit('reading: tests/statement.txt: %s has %s without %s' % (place, row.names[0], ', '.join(missing)))
    return found
