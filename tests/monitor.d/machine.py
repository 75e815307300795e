"""The part of tests/monitor that compares the monitor's rows with the machine: rows.cc, and what it has to have played."""
import re
import subprocess

import built

TABLES = built.ROOT / 'crates' / 'tool_tables' / 'stdout'
# Events of the printed tables that no link hears of: the request is refused before it, or its line has it no more.
OF_NO_LINK = ('data request over N201', 'the TEI leaves the line')
WRONG_TERMS = ('k', 'n200', 'reading')


def states_of(head):
    """The states of a table's columns, as rows.cc tells them apart: also whether a release is owed."""
    cells = head.strip('|').split('|')[1:]
    return {cell[0] + (', release' if ', release' in cell else '') for cell in cells}


def cells():
    """Each event of the printed tables of a link, without its numbers, with each state and reading in which it is there."""
    found, states, is_of_link = set(), set(), False
    for line in TABLES.read_text(encoding='utf-8').splitlines():
        if line.startswith('#'):
            is_of_link, states = re.match(r'### States? \d', line) is not None, set()
        elif is_of_link and line.startswith('|Event'):
            states = states_of(line)
        elif states and line.startswith('|') and not line.startswith('|---'):
            events, reading = re.fullmatch(r'(.*?)(?: \((profile|annex B)\))?', line.split('|')[1]).groups()
            for event in re.sub(r' N\([SR]\)=\d', '', events).split(', '):
                readings = [reading] if reading else ['profile', 'annex B']
                found |= {(event, state, it) for state in states for it in readings if event not in OF_NO_LINK}
    return {it for it in found if 'release' not in it[1] or it[2] == 'annex B'}  # the profile refuses that release


def played(test, runs, *wrong):
    words = [str(test.built.work / 'rows'), str(test.seed), str(runs), *wrong]
    said = subprocess.run(words, capture_output=True, text=True, check=False)
    if said.returncode not in (0, 1):
        raise AssertionError('rows: %s' % said.stderr)
    return said.returncode, said.stdout.splitlines()


def rows(test):
    """The answers that a card may give next are those that the monitor allows, and no others; so are the states; and all is played."""
    test.built.rows()
    status, lines = played(test, test.count(300, 6000))
    if status != 0:
        test.fails('the rows of the monitor are not those of the machine: ' + '\n'.join(it for it in lines if ' seed ' in it))
    wanted = cells()
    found = {tuple(it.split('|')[:3]) for it in lines if it.count('|') == 3}
    if len(wanted) < 300:
        test.fails('%s has only %d events in states' % (TABLES.name, len(wanted)))
    for event, state, reading in sorted(wanted - found):
        test.fails('rows: %s in state %s was not played by %s' % (event, state, reading))
    for wrong in WRONG_TERMS:
        if played(test, 60, wrong)[0] == 0:
            test.fails('rows: a monitor that is told another %s is not noticed' % wrong)
    names = sum(it.startswith('row|') for it in lines)
    test.says('%d events in states of the printed tables, by %d rows: %s' % (len(wanted & found), names, lines[-1]))


PARTS = {it.__name__: it for it in (rows,)}
