"""Compares the cells of a link with what others' links do. For tests/others."""
import subprocess
from typing import NamedTuple

from tables import COLUMNS, REQUESTS, Outcome, words_of

# What a stack does not have; and where a limit of the tables is at work, which none has.
NOT_THERE = {
    'misdn': (),
    'libpri': ('clear busy', 'set busy', 'release request', 'the line is down'),
    'lapd_core': ('clear busy', 'set busy', 'the line is down'),
}
LIMITS = [('7, two outstanding', 'data request')]


# What may come next: an answer to what the link waits for.
NEXT = {'5': 'UA F=1', '7': 'RR F=1 N(R)=0', '8': 'RR F=1 N(R)=0'}


class Difference(NamedTuple):
    """A cell in which a stack does something else."""
    stack: str
    column: str
    event: str
    ours: Outcome
    theirs: Outcome


def has(stack, column, event):
    """Whether a stack has a cell."""
    return event not in NOT_THERE[stack] and (column, event) not in LIMITS


def outcomes(program, cells):
    """What a stack's program does in each of these cells."""
    lines = ''.join('begin %s\n%s\n' % (COLUMNS[column], words_of(event)) for column, event in cells)
    ran = subprocess.run([program], input=lines, stdout=subprocess.PIPE, encoding='utf-8', check=True)
    for (_, event), line in zip(cells, ran.stdout.splitlines()):
        served, control, contents, told, timer, state = line.split('|')
        name, _, is_started = timer.partition(' ')
        yield Outcome(items(control), tuple(sorted(items(told))), items(contents), name + ('*' if is_started else ''), int(state),
                      event in REQUESTS and served == '0')


def afterwards(program, cells):
    """What a stack's program does at the next answer, after each of these cells, without whether it serves it."""
    lines = ''.join('begin %s\n%s\n%s\n' % (COLUMNS[column], words_of(event), words_of(NEXT[column[0]])) for column, event in cells)
    ran = subprocess.run([program], input=lines, stdout=subprocess.PIPE, encoding='utf-8', check=True)
    return [line.partition('|')[2] for line in ran.stdout.splitlines()[1::2]]


def items(text):
    return tuple(filter(None, text.split('; ')))


def compare(stack, program, cells):
    """How many cells are equal, the differences, and how many cells the stack does not have."""
    common = [at for at in cells if has(stack, *at)]
    differences = [Difference(stack, *at, cells[at], theirs) for at, theirs in zip(common, outcomes(program, common))
                   if theirs != cells[at]]
    return len(common) - len(differences), differences, len(cells) - len(common)
