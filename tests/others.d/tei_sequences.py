"""Plays random sequences on TEI management, ours and another's (teis.c), each up to its first difference. For tests/others."""
import subprocess

from sequences import Tally
from teis import NETWORK_EVENTS, TERMINAL_EVENTS, shown

MOST_REQUESTS = 6
MANAGED = [it for it in NETWORK_EVENTS if it.startswith(('identity verify', 'check response')) or it == 'T201 expires'] + [
    'message of another type', 'message of the network']


def network(dice):
    """Terminals ask, each by a number of its own, verify and answer."""
    events, asked = [], 0
    for _ in range(dice.randint(3, 14)):
        if asked < MOST_REQUESTS and dice.random() < 0.4:
            asked += 1
            events.append(('identity request, Ri %d' % (100 + asked), 'hear 1 %d 127' % (100 + asked)))
        else:
            event = dice.choice(MANAGED)
            events.append((event, NETWORK_EVENTS[event]))
    return events


def terminal(dice):
    """A terminal asks, and hears what is for it and for others."""
    names = [*TERMINAL_EVENTS, 'request to ask', 'T202 expires', 'assigned by the outstanding Ri, Ai 64']
    events = [('request to ask', 'ask')]
    for _ in range(dice.randint(3, 14)):
        event = dice.choice(names)
        events.append((event, TERMINAL_EVENTS[event]))
    return events


MADE = {'network': network, 'terminal': terminal}


def answers(program, side, sequences):
    """What each event leads to: a list for each sequence."""
    text = ''.join('\n'.join([side, *(line for _, line in events)]) + '\n' for events in sequences)
    ran = subprocess.run([program], input=text, stdout=subprocess.PIPE, encoding='utf-8', check=True)
    lines = iter(ran.stdout.splitlines())
    return [[shown(*next(lines).split('|')) for _ in events] for events in sequences]


def can_be(event, before):
    """Whether layer 3 would ask so: for a TEI if there is none and nothing runs, for a verify of one that is there."""
    if event == 'request to ask':
        return 'no timer; no TEI' in before
    return event != 'request to verify' or 'no timer; TEI' in before


def is_known_to(stack, event, blocks):
    """Whether the stack has this event, and no block names it for each column."""
    named = any(stack in it.cells and '*' in it.at and it.names_event(event) for it in blocks)
    return not named and (stack != 'libpri' or event != 'request to verify')


def possible(events, ours):
    """The events without the first request that can't be."""
    before = 'no timer; no TEI'
    for at, ((event, _), answer) in enumerate(zip(events, ours)):
        if not can_be(event, before):
            return events[:at] + events[at + 1:]
        before = answer
    return events


def all_possible(program, side, sequences):
    """The sequences without requests that can't be. What is left out changes what comes after it, so each is played again."""
    while True:
        kept = [possible(events, ours) for events, ours in zip(sequences, answers(program, side, sequences))]
        if kept == sequences:
            return kept
        sequences = kept


def play(stack, side, ours, theirs, dice, count, blocks):
    """Plays sequences on both; a difference at an event that a block names ends its sequence, and is none."""
    blocks = [it for it in blocks if it.table == side]
    made = [MADE[side](dice) for _ in range(count)]
    known = [[it for it in events if is_known_to(stack, it[0], blocks)] for events in made]
    sequences = all_possible(ours, side, known)
    events, differing = 0, []
    for asked, one, other in zip(sequences, answers(ours, side, sequences), answers(theirs, side, sequences)):
        at = next((at for at, (left, right) in enumerate(zip(one, other)) if left != right), None)
        events += len(asked) if at is None else at
        if at is not None and not any(stack in it.cells and it.names_event(asked[at][0]) for it in blocks):
            differing.append(([event for event, _ in asked[:at + 1]], [one[at]], [other[at]]))
    return Tally(count, events, differing)
