"""What is known of the differences: the blocks of differences.txt. For tests/others."""
import fnmatch
import pathlib
from typing import Dict, List, NamedTuple

LIST = pathlib.Path(__file__).resolve().parent / 'differences.txt'
SIDES = 'profile', 'theirs', 'open'


class Known(NamedTuple):
    """A block: a difference with its title, the cells that have it, whose it is, and why; and of how many cells mISDN and libpri
    agree against ours, with what they do."""
    table: str
    title: str
    at: List[str]
    events: List[str]
    cells: Dict[str, int]
    alike: str
    shows: str
    side: str
    why: str
    both: int
    both_do: str

    def names(self, stack, column, event):
        return stack in self.cells and any(map(_match(column), self.at)) and self.names_event(event)

    def names_event(self, event):
        return any(map(_match(event), self.events))

    def names_state(self, state):
        """Whether it names all columns of a state."""
        return any(it.rstrip('*') in ('', state) for it in self.at)


def _match(text):
    return lambda pattern: fnmatch.fnmatchcase(text, pattern)


def _known(block):
    """A block's fields."""
    heading, *lines = block.splitlines()
    table, _, title = heading.partition(': ')
    fields = dict(line.strip().partition(': ')[::2] for line in lines)
    if fields.get('side') not in SIDES or not fields.get('why') or not fields.get('cells'):
        raise SystemExit('others: %s: a block has a table, a title, cells, a side and a why: %s' % (LIST.name, heading))
    cells = {}
    for item in fields['cells'].split(', '):
        stack, _, count = item.partition(' ')
        cells[stack] = int(count or 0)
    both, _, both_do = fields.get('both', '0').partition('; ')
    return Known(table, title, fields.get('at', '').split('; '), fields.get('events', '').split('; '), cells,
                 fields.get('alike', ''), fields.get('shows', ''), fields['side'], fields['why'], int(both), both_do)


def known() -> List[Known]:
    """All blocks, in their order."""
    text = '\n'.join(line for line in LIST.read_text(encoding='utf-8').splitlines() if not line.startswith('#'))
    return [_known(block.strip('\n')) for block in text.split('\n\n') if block.strip()]


def judge(table, differences, blocks, stacks):
    """What is wrong with these stacks: differences in no block, and blocks that count otherwise."""
    mine = [block for block in blocks if block.table == table]
    found = {(block.title, stack): 0 for block in mine for stack in block.cells}
    for it in differences:
        block = next((block for block in mine if block.names(it.stack, it.column, it.event)), None)
        if block is None:
            yield '%s, %s, %s at %s: ours: %s; theirs: %s' % (table, it.stack, it.event, it.column, it.ours, it.theirs)
        else:
            found[block.title, it.stack] += 1
    for block in mine:
        for stack, count in block.cells.items():
            if stack in stacks and found[block.title, stack] != count:
                yield '%s: %s: %s has %d cells, not %d' % (table, block.title, stack, found[block.title, stack], count)


def judge_both(table, differences, blocks):
    """What is wrong with the cells in which mISDN and libpri agree against ours, as libpri's differences: blocks that count
    otherwise."""
    names = [next((block.title for block in blocks if block.table == table and block.names(it.stack, it.column, it.event)), None)
             for it in differences]
    for block in blocks:
        if block.table == table and names.count(block.title) != block.both:
            yield '%s: %s: mISDN and libpri agree in %d cells, not %d' % (table, block.title, names.count(block.title), block.both)
