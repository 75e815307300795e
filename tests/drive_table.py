"""The clauses of `Card::drive`, for `tests/reading`: that each stands, and says what tests/drive.txt has, word for word.

The contract itself can be cut: who deletes a clause with its sentence leaves all else as it was, and every crate is proved. So
tests/drive.txt has each clause a second time: its name on a line, and below it what it says, first in words (the sentence of the doc
comment above the call, which clauses of one sentence share), then in formulas after `=`. Most clauses stand in two records that
the contract names: so how it names them is held as well."""
import re
import sys

from promised import PARTS, clauses, clauses_of
from specs import CRATES, ROOT, Specs
from statement import CALLS, DRIVE

TABLE = ROOT / 'tests' / 'drive.txt'
BLOCK = re.compile(r'^(\w+(?: \w+)*)\n((?:    .*\n)+)', re.MULTILINE)


def records():
    """What a caller owes, and how the contract names its records: the name of each, what it says, and its formulas; of a record
    also the definition by which it is named."""
    crate, file = CALLS[DRIVE]
    source = (CRATES / crate / 'src' / (file + '.rt')).read_text(encoding='utf-8')
    contract = source[source.index('pub fn %s<' % DRIVE):]
    contract = contract[:contract.index('\n    {\n')]
    named = clauses_of(contract)
    yield ['requires'], 'what a caller owes.', re.findall(r'requires \w* ?\{ (.*) \}', contract)
    for name, (_, _, applied) in PARTS.items():
        by = ' '.join(Specs(crate, CRATES / crate / 'specs' / (applied[0] + '.antt')).definitions[applied[1]]) if applied else ''
        yield [name], 'a record of the clauses below.', [' '.join(it.split()) for it in (named[name], by) if it]


def as_written():
    """What the call says: the names of the clauses that share a sentence, the sentence, and the formula of each."""
    return [*records(), *((it.names, ' '.join(it.said.split()), [' '.join(text.split()) for _, text, _ in it.claims])
                          for it in clauses(DRIVE))]


def as_held():
    """What tests/drive.txt says, likewise."""
    found = []
    for names, body in BLOCK.findall(TABLE.read_text(encoding='utf-8')):
        said, *formulas = [' '.join(it.split()) for it in re.split(r'^    = ', body, flags=re.MULTILINE)]
        found.append((names.split(), said, formulas))
    return found


def check_drive():
    """Stops unless the clauses of `drive` are those of tests/drive.txt. How many there are."""
    held, written = as_held(), as_written()
    for (names, said, formulas), there in zip(held + [((), '', ())] * len(written), written + [((), '', ())] * len(held)):
        if (list(names), said, list(formulas)) != (list(there[0]), there[1], list(there[2])):
            sys.exit('reading: tests/drive.txt: %s is not what the call has: %s' % (' '.join(names) or 'nothing', ' '.join(there[0]) or 'nothing'))
    return sum(len(names) for names, _, _ in held if names not in [['requires'], *([it] for it in PARTS)])
