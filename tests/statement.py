"""The promises of tests/statement.txt, for `tests/reading` and `tests/wrong-machines`."""
import pathlib
import re
import sys
from typing import List, NamedTuple

DRIVE = 'drive'
# The calls that run lists of events, whose clauses are promises: the crate and the file of each.
CALLS = {'drive_frames': ('laws_promises', 'frame_call'), 'drive_timed': ('laws_promises', 'timed_call'), DRIVE: ('lapd_card', 'drive')}
PATH = pathlib.Path(__file__).resolve().parent / 'statement.txt'
LINE = re.compile(r'(\S+) (\w+)(?: as (\w+) (\S+))?')


class Promise(NamedTuple):
    """A promise: where it stands, its name, the law of another crate, or '', and its words, or ''. If that law is false, it is."""
    place: str
    name: str
    law: str
    said: str

    def laws(self) -> List[str]:
        """The laws as a row of wrong machines names them, `CRATE FUNCTION`, that break this promise."""
        crate, _, module = self.place.partition('::')
        own = [] if crate[0].isupper() or crate in CALLS else ['%s %s' % (crate, '::'.join(filter(None, [module, self.name])))]
        return own + [self.law] * bool(self.law)


def promises() -> List[Promise]:
    """All promises, in the order of the list."""
    found = []
    for number, line in enumerate(PATH.read_text(encoding='utf-8').splitlines(), 1):
        if not line.strip() or line.startswith('#'):
            continue
        if line.startswith('    ') and found:
            found[-1] = found[-1]._replace(said=(found[-1].said + ' ' + line.strip()).strip())
            continue
        words = LINE.fullmatch(line)
        if words is None:
            sys.exit("statement: tests/statement.txt, line %d: it is no 'PLACE NAME' and no 'PLACE NAME as CRATE LAW'" % number)
        place, name, crate, law = words.groups()
        promise = Promise(place, name, '%s %s' % (crate, law) if crate else '', '')
        if any(it[:2] == promise[:2] for it in found):
            sys.exit('statement: tests/statement.txt, line %d: %s %s stands there twice' % (number, place, name))
        found.append(promise)
    return found
