"""Compares TEI management, of the network's side and of a terminal, with what others' does. Ours is lapd.c. For tests/others."""
import re
import subprocess

from links import Difference
from tables import tables_of

FIRST, SECOND, CHECK, RESPONSE = 'hear 1 1 127', 'hear 1 2 127', 'hear 7 0 64', 'hear 5 0 64'

# Columns: the events that lead there. A terminal's verify of its TEI begins a check.
NETWORK = {
    'no TEI': [],
    '64': [FIRST],
    '64 and 65': [FIRST, SECOND],
    '64, checked': [FIRST, CHECK],
    '64, checked, one response': [FIRST, CHECK, RESPONSE],
    '64, second period': [FIRST, CHECK, 'expire'],
    '64, second period, one response before': [FIRST, CHECK, RESPONSE, 'expire'],
    '64 and 65, 64 checked': [FIRST, SECOND, CHECK],
}
NETWORK_EVENTS = {
    'identity request, Ri 1': FIRST,
    'identity request, Ri 2': SECOND,
    'identity request, Ri 3': 'hear 1 3 127',
    'identity request, Ai 64': 'hear 1 4 64',
    'identity request, Ai 70': 'hear 1 4 70',
    'identity request, Ai 5': 'hear 1 4 5',
    'identity request of six octets': 'octets FCFF030F000401FF00',
    'identity verify, Ai 64': CHECK,
    'identity verify, Ai 65': 'hear 7 0 65',
    'check response, Ai 64': RESPONSE,
    'check response, Ai 65': 'hear 5 0 65',
    'check response, Ai 70': 'hear 5 0 70',
    'check response, Ai 65 and 64': 'hear 5 0 65 64',
    'message of another type': 'hear 9 0 64',
    'message of the network': 'octets FEFF030F00000681',
    'T201 expires': 'expire',
    'SABME of TEI 70': 'octets 008D7F',
    'SABME of TEI 5': 'octets 000B7F',
}
ASSIGNED = 'hear 2 last 64'
TERMINAL = {
    'no TEI': [],
    'asking, one request': ['ask'],
    'asking, three requests': ['ask', 'expire', 'expire'],
    '64': ['ask', ASSIGNED],
    '64, verifying': ['ask', ASSIGNED, 'verify'],
    '64, verifying, two sent': ['ask', ASSIGNED, 'verify', 'expire'],
}
TERMINAL_EVENTS = {
    'T202 expires': 'expire',
    'assigned by the outstanding Ri, Ai 64': ASSIGNED,
    'assigned by the outstanding Ri, Ai 70': 'hear 2 last 70',
    'assigned by the outstanding Ri, Ai 5': 'hear 2 last 5',
    'assigned by another Ri, Ai 64': 'hear 2 7 64',
    'assigned by another Ri, Ai 70': 'hear 2 7 70',
    'denied, outstanding Ri': 'hear 3 last 127',
    'denied, another Ri': 'hear 3 7 127',
    'check request, Ai 64': 'hear 4 0 64',
    'check request, Ai 70': 'hear 4 0 70',
    'check request, Ai 127': 'hear 4 0 127',
    'identity remove, Ai 64': 'hear 6 0 64',
    'identity remove, Ai 70': 'hear 6 0 70',
    'identity remove, Ai 127': 'hear 6 0 127',
    'message of another type': 'hear 9 0 64',
    'message of a terminal': 'octets FCFF030F00000781',
    'request to ask': 'ask',
    'request to verify': 'verify',
}
SIDES = {'network': (NETWORK, NETWORK_EVENTS), 'terminal': (TERMINAL, TERMINAL_EVENTS)}
# What has no counterpart, by stack: columns and events. A terminal that has a TEI does not ask for one.
NEVER_ASKED = [(column, 'request to ask') for column in TERMINAL if column != 'no TEI']
NEVER_VERIFIED = [(column, event) for column in TERMINAL for event in TERMINAL_EVENTS
                  if 'verifying' in column or event == 'request to verify']
# A check of mISDN's is over at the end of a period with one response.
OVER = [('64, second period, one response before', event) for event in NETWORK_EVENTS]
NOT_THERE = {('network', 'misdn'): OVER, ('terminal', 'misdn'): NEVER_ASKED + [('no TEI', 'request to verify')],
             ('terminal', 'libpri'): NEVER_ASKED + NEVER_VERIFIED}


# The printed table has room for two TEIs.
LIMITS = [(column, event) for column in ('64 and 65', '64 and 65, 64 checked')
          for event in (*('identity request, Ri %d' % ri for ri in (1, 2, 3)), 'identity request of six octets')]


def cells(side):
    columns, events = SIDES[side]
    return [(column, event) for column in columns for event in events]


def outcomes(program, side, asked):
    """What a stack's program does in each of these cells: its messages, its timer and the TEIs on the line."""
    columns, events = SIDES[side]
    lines, ends = [], []
    for column, event in asked:
        lines += [side, *columns[column], events[event]]
        ends.append(len(columns[column]))
    ran = subprocess.run([program], input='\n'.join(lines) + '\n', stdout=subprocess.PIPE, encoding='utf-8', check=True)
    answers = iter(ran.stdout.splitlines())
    for before in ends:
        for _ in range(before):
            next(answers)
        yield shown(*next(answers).split('|'))


def shown(messages, timer, teis):
    return '; '.join([*filter(None, [messages]), 'timer ' + timer if timer else 'no timer', 'TEI ' + teis if teis else 'no TEI'])


def meant(column, cell):
    """What a cell of the printed table says in these words."""
    teis = set(re.findall(r'\d+', column.partition(',')[0]))
    timer, messages = 'runs' if 'checked' in column or 'period' in column else '', []
    for item in filter(None, cell.split('; ')):
        if item.startswith('identity '):
            messages.append(item)
        elif item in ('+T201', '-T201'):
            timer = 'starts' if item[0] == '+' else ''
        elif item[0] == '+':
            teis.add(item[1:])
        elif item[0] == '-':
            teis.discard(item[1:])
    return shown('; '.join(messages), timer, ' '.join(sorted(teis)))


def printed(page):
    """What the printed table of the network's side says, of the cells that are here too."""
    for column, event, cell in tables_of(page.partition('\n## TEI management')[2]):
        if column in NETWORK and event in NETWORK_EVENTS and (column, event) not in LIMITS:
            yield (column, event), meant(column, cell)


def not_as_printed(page, ours):
    """The cells in which lapd.c does not do what is printed."""
    wanted = dict(printed(page))
    for at, does in zip(wanted, outcomes(ours, 'network', list(wanted))):
        if does != wanted[at]:
            yield '%s at %s: printed: %s; lapd.c: %s' % (at[1], at[0], wanted[at], does)
    if len(wanted) < 60:
        yield 'only %d cells are printed' % len(wanted)


def compare(stack, side, ours, theirs):
    """How many cells are equal, the differences, and how many cells the stack does not have."""
    everywhere = cells(side)
    common = [at for at in everywhere if at not in NOT_THERE.get((side, stack), ())]
    differences = [Difference(stack, *at, one, other) for at, one, other in
                   zip(common, outcomes(ours, side, common), outcomes(theirs, side, common)) if one != other]
    return len(common) - len(differences), differences, len(everywhere) - len(common)
