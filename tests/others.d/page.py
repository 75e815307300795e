"""The part of docs/CONFORMANCE.md that says how many cells are equal with whom, and each difference that remains: from
differences.txt and the tables alone, without others' sources. For tests/others."""
import pathlib

import differences
import links
import tables
import teis

ROOT = pathlib.Path(__file__).resolve().parent.parent.parent
PAGE = ROOT / 'docs' / 'CONFORMANCE.md'
BEGIN, END = '<!-- printed by tests/others --page -->', '<!-- end -->'
STACKS = 'misdn', 'libpri', 'lapd_core'
TABLES = 'links', 'network', 'terminal'
PARTS = {'links': 'links', 'sequences': 'links', 'network': 'network', 'terminal': 'terminal'}


def there(table, stack, ours):
    """How many cells of a table a stack has; None of a table that it does not have."""
    if table == 'links':
        return sum(links.has(stack, *at) for at in ours)
    if stack == 'lapd_core':
        return None
    return len(set(teis.cells(table)) - set(teis.NOT_THERE.get((table, stack), ())))


def equal(table, stack, ours, blocks):
    """How many cells are equal, and how many a stack has; None of a table that it does not have."""
    most = there(table, stack, ours)
    return None if most is None else (most - sum(it.cells.get(stack, 0) for it in blocks if it.table == table), most)


def counted(table, ours, blocks):
    """A row of the first table: of how many cells each stack has, how many are equal."""
    cells = len(ours) if table == 'links' else len(teis.cells(table))
    pairs = [equal(table, stack, ours, blocks) for stack in STACKS]
    return '|%s|%d|%s|' % (PARTS[table], cells, '|'.join('%d/%d' % it if it else '' for it in pairs))


def row(block):
    """A row of the second: a difference that is not theirs, how many cells each stack has of it, and whose it is."""
    numbers = [str(block.cells[it] or '*') if it in block.cells else '' for it in STACKS]
    return '|%s|%s|%s|%s|' % (PARTS[block.table], block.title, '|'.join(numbers), block.side)


def row_of_theirs(table, blocks):
    """The last row of a part: how many differences are theirs, and of how many cells."""
    theirs = [it for it in blocks if it.side == 'theirs' and PARTS[it.table] == table]
    sums = [sum(it.cells.get(stack, 0) for it in theirs) for stack in STACKS]
    return '|%s|%d others|%s|theirs|' % (table, len(theirs), '|'.join(str(it or '') for it in sums))


def row_of_both(block):
    """A row of the last: in how many cells mISDN and libpri agree against ours, and what they do."""
    return '|%s|%s|%d|%s|' % (PARTS[block.table], block.title, block.both, block.both_do)


def of_both(blocks):
    """In how many cells mISDN and libpri agree against ours."""
    of_links = sum(it.both for it in blocks if it.table == 'links')
    of_teis = sum(it.both for it in blocks if it.table != 'links')
    return ('In %d cells mISDN and libpri agree against ours, also at the next answer: %d of a link, %d of TEI management.'
            % (of_links + of_teis, of_links, of_teis))


def printed(path):
    """The lines of the part."""
    ours, blocks = tables.link_cells(path.read_text(encoding='utf-8')), differences.known()
    return ['|Equal|Cells|mISDN|libpri|lapd_core|', '|---|---|---|---|---|', *(counted(it, ours, blocks) for it in TABLES), '',
            '|Part|Difference|mISDN|libpri|lapd_core|Whose|', '|---|---|---|---|---|---|',
            *(line for table in TABLES for line in [*(row(it) for it in blocks if it.side != 'theirs' and it.table == table),
                                                    row_of_theirs(PARTS[table], blocks)]), '',
            of_both(blocks), '',
            '|Part|Difference|Cells|What they do|', '|---|---|---|---|', *(row_of_both(it) for it in blocks if it.both)]


def parts():
    """The lines of the page before the part, those of it, and those after it."""
    lines = PAGE.read_text(encoding='utf-8').splitlines()
    if BEGIN not in lines:
        raise SystemExit('others: %s has no line %s' % (PAGE.name, BEGIN))
    at = lines.index(BEGIN)
    end = lines.index(END, at)
    return lines[:at + 1], lines[at + 2:end - 1], lines[end:]


def differences_from(path):
    """What is wrong with the page."""
    if parts()[1] != printed(path):
        yield '%s has not what tests/others --page prints (--write)' % PAGE.name


def write(path):
    before, _, after = parts()
    PAGE.write_text('\n'.join(before + [''] + printed(path) + [''] + after) + '\n', encoding='utf-8')
