"""The tables of a link and of TEI management, as `tool_tables` prints them, cell by cell; and how a cell of a link is played
on another's (link.c). For tests/others."""
import re
from typing import Dict, Iterator, NamedTuple, Tuple

# The columns of a link that others are put into at once: state, whether layer 3 asked, RC, contents outstanding and unsent,
# own and peer busy, reject exception, and the timer that runs. Columns in which answers find no room have no counterpart, nor
# have those of a release that is owed: only one of the three keeps it, half.
COLUMNS = {
    '4': '4 0 0 0 0 0 0 0 0',
    '5, layer 3 asked': '5 1 0 0 0 0 0 0 200',
    '5, RC = N200': '5 1 3 0 0 0 0 0 200',
    '5 again, one outstanding': '5 0 0 1 0 0 0 0 200',
    '5 again, one unsent': '5 0 0 0 1 0 0 0 200',
    '6': '6 0 0 0 0 0 0 0 200',
    '6, RC = N200': '6 0 3 0 0 0 0 0 200',
    '7, nothing outstanding': '7 0 0 0 0 0 0 0 203',
    '7, one outstanding': '7 0 0 1 0 0 0 0 200',
    '7, two outstanding': '7 0 0 2 0 0 0 0 200',
    '7, reject exception': '7 0 0 0 0 0 0 1 203',
    '7, own busy': '7 0 0 0 0 1 0 0 203',
    '7, peer busy, one unsent': '7 0 0 0 1 0 1 0 200',
    '7, peer busy, one outstanding': '7 0 0 1 0 0 1 0 200',
    '7, both busy, one unsent': '7 0 0 0 1 1 1 0 200',
    '8, nothing outstanding': '8 0 0 0 0 0 0 0 200',
    '8, one outstanding': '8 0 0 1 0 0 0 0 200',
    '8, reject exception': '8 0 0 0 0 0 0 1 200',
    '8, T200 for the third time': '8 0 3 1 0 0 0 0 200',
    '8, RC = N200': '8 0 3 0 0 0 0 0 200',
    '8, own busy': '8 0 0 0 0 1 0 0 200',
    '8, peer busy, one unsent': '8 0 0 0 1 0 1 0 200',
    '8, peer busy, one outstanding': '8 0 0 1 0 0 1 0 200',
    '8, both busy, one unsent': '8 0 0 0 1 1 1 0 200',
}
NO_COUNTERPART = 'two answers wait', '5, release'
# What stands after an event whose row differs by the reading.
PROFILE, ANNEX_B = ' (profile)', ' (annex B)'
# Requests, of which it counts whether they are refused.
REQUESTS = {
    'clear busy': 'ready', 'set busy': 'busy', 'data request': 'data 41', 'data request over N201': 'data ' + 9 * '41',
    'establish request': 'establish', 'release request': 'release',
}
OTHER_WORDS = {
    'T200 expires': 't200', 'T203 expires': 't203', 'the TEI leaves the line': 'leave', 'the line is down': 'down',
    'UI P=0': 'frame 00810341', 'UI over N201': 'frame 008103' + 9 * '41', 'UI F=0': 'frame 02810341', 'XID P=0': 'frame 0081AF',
    'FRMR F=0': 'frame 0281870000000001', 'control field undefined': 'frame 008123', 'frame of wrong size': 'frame 0081010000',
    'I over N201': 'frame 00810000' + 9 * '41',
}
UNNUMBERED = {'SABME': 0x6F, 'DISC': 0x43, 'UA': 0x63, 'DM': 0x0F}
SUPERVISORY = {'RR': 1, 'RNR': 5, 'REJ': 9}
FRAME = re.compile(r'(RR|RNR|REJ|UA|DM|SABME|DISC) ')
REFUSALS = 'unserved', 'wrong-state', 'queue-full', 'too-long'


class Outcome(NamedTuple):
    """What an event leads to. A timer that was started by it has a star."""
    control: Tuple[str, ...]
    told: Tuple[str, ...]
    contents: Tuple[str, ...]
    timer: str
    state: int
    is_refused: bool

    def __str__(self):
        return '; '.join([*self.control, *self.told, *self.contents, self.timer or 'no timer', str(self.state),
                          *['refused'] * self.is_refused])


def words_of(event):
    """The line of link.c that plays an event."""
    if event in REQUESTS or event in OTHER_WORDS:
        return REQUESTS.get(event) or OTHER_WORDS[event]
    name, _, rest = event.partition(' ')
    numbers = dict(re.findall(r'(P|F|N\(S\)|N\(R\))=(\d+)', rest))
    first, bit = ('02', int(numbers['F'])) if 'F' in numbers else ('00', int(numbers['P']))
    if name in UNNUMBERED:
        return 'frame %s81%02X' % (first, UNNUMBERED[name] + 16 * bit)
    last = 2 * int(numbers['N(R)']) + bit
    if name == 'I':
        return 'frame 0081%02X%02X41' % (2 * int(numbers['N(S)']), last)
    return 'frame %s81%02X%02X' % (first, SUPERVISORY[name], last)


def outcome_of(cell, column, event):
    """What a cell says."""
    fields = COLUMNS[column].split()
    state, timer, is_started = int(fields[0]), {'0': '', '200': 'T200', '203': 'T203'}[fields[-1]], False
    bit = (re.findall(r'[PF]=(\d)', event) or ['?'])[0]
    control, told, contents, is_refused = [], [], [], False
    for item in filter(None, cell.split('; ')):
        if re.fullmatch(r'\*\*\d\*\*', item):
            state = int(item.strip('*'))
        elif item[0] == '+':
            timer, is_started = item[1:], True
        elif item[0] == '-':
            timer = '' if timer == item[1:] else timer
        elif FRAME.match(item):
            control.append(item.replace('F=P', 'F=' + bit))
        elif item.startswith('I '):
            contents.append(item)
        elif item in REFUSALS:
            is_refused = event in REQUESTS
        else:
            told.append(item)
    star = '*' if timer and is_started else ''
    return Outcome(tuple(control), tuple(sorted(told)), tuple(contents), timer + star, state, is_refused)


def by_annex_b(row):
    """The events of a row, without those that it has for the profile alone."""
    return [it.replace(ANNEX_B, '') for it in re.split(r', (?![RA]i )', row) if not it.endswith(PROFILE)]


def tables_of(text) -> Iterator[Tuple[str, str, str]]:
    """Each cell of tables by annex B: its column, its event, and what it says."""
    heads = []
    for line in text.splitlines():
        if not line.startswith('|') or line.startswith('|---'):
            continue
        first, *cells = line[1:-1].split('|')
        if first == 'Event':
            heads = cells
            continue
        for at, cell in enumerate(cells):
            if cell == '"':
                cells[at] = cells[at - 1]
        for event in by_annex_b(first):
            yield from ((head, event, cell) for head, cell in zip(heads, cells))


def numbered(event):
    """Where the numbers of a frame do not matter, and P and F of one that is not served, each that a row stands for."""
    found = re.fullmatch(r'(I|RR|RNR|REJ) ([PF])=1', event)
    if not found:
        return [event]
    name, bit = found.groups()
    ends = ['N(S)=%d N(R)=%d' % (ns, nr) for ns in (0, 1) for nr in (0, 1)] if name == 'I' else ['N(R)=0', 'N(R)=1']
    return ['%s %s=%d %s' % (name, bit, value, end) for value in (0, 1) for end in ends]


def link_cells(page) -> Dict[Tuple[str, str], Outcome]:
    """What ours does by annex B: by column and event."""
    links = page.partition('\n## TEI management')[0].partition('\n### ')[2]
    cells = {}
    for column, name, cell in tables_of(links):
        if not any(part in column for part in NO_COUNTERPART):
            for event in numbered(name):
                cells[column, event] = outcome_of(cell, column, event)
    return cells
