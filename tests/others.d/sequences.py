"""Plays random sequences on ours and on another's link (link.c), and compares what each event leads to: frames, what is told,
which timers run until when, and the state. So what no cell shows is compared, too: V(A), V(S), V(R), RC, flags and the queue.
For tests/others."""
import random
import subprocess
from typing import NamedTuple

from tables import REQUESTS, words_of

BEGIN = 'begin 4 0 0 0 0 0 0 0 0'
# What is asked for and what comes, and how often of 100.
OFTEN = [('I', 16), ('supervisory', 28), ('data request', 16), ('wait 1000', 10), ('wait 10000', 3), ('SABME', 3), ('DISC', 2),
         ('UA', 5), ('DM', 3), ('FRMR F=0', 1), ('UI P=0', 1), ('malformed', 1), ('release request', 3), ('establish request', 2),
         ('set busy', 3), ('clear busy', 3)]
MALFORMED = 'control field undefined', 'frame of wrong size', 'I over N201'


class Tally(NamedTuple):
    """How many sequences and events were played, and the sequences that differ, each with its last event and both answers."""
    sequences: int
    events: int
    differing: list


class Peer:
    """Guesses what the other end of a link would send: it knows how many I-frames came from it, and went to it."""

    def __init__(self, dice):
        self.dice, self.came, self.went = dice, 0, 0

    def number(self, right):
        """Mostly one that may be, else any."""
        return self.dice.randint(0, min(4, self.went)) if self.dice.random() < right else self.dice.randint(0, 4)

    def event(self, kind):
        pick, bit = self.dice.choice, self.dice.randint(0, 1)
        if kind == 'I':
            ns = self.came if self.dice.random() < 0.7 else self.dice.randint(0, 3)
            self.came += ns == self.came
            return 'I P=%d N(S)=%d N(R)=%d' % (bit, ns, self.number(0.85))
        if kind == 'supervisory':
            return '%s %s=%d N(R)=%d' % (pick(['RR', 'RNR', 'REJ']), pick('PF'), bit, self.number(0.9))
        if kind in ('SABME', 'DISC'):
            return '%s P=%d' % (kind, bit)
        if kind in ('UA', 'DM'):
            return '%s F=%d' % (kind, bit)
        self.went += kind == 'data request'
        return pick(MALFORMED) if kind == 'malformed' else kind


def short(dice):
    """A sequence that begins by either end's establishment."""
    peer = Peer(dice)
    begin = ['establish request', 'UA F=1'] if dice.random() < 0.4 else ['SABME P=1']
    kinds, weights = zip(*OFTEN)
    return begin + [peer.event(kind) for kind in dice.choices(kinds, weights, k=dice.randint(4, 14))]


def long(dice):
    """A sequence in which numbers go round, as nearly all is right."""
    events, came, went, known = ['SABME P=1'], 0, 0, 0
    for _ in range(700):
        kind = dice.random()
        if kind < 0.35:
            events.append('I P=0 N(S)=%d N(R)=%d' % (came, known))
            came = (came + 1) % 128
        elif kind < 0.65 and (went - known) % 128 < 2:
            events.append('data request')
            went = (went + 1) % 128
        elif kind < 0.65:
            known = (known + dice.randint(1, 2)) % 128
            events.append('RR P=%d N(R)=%d' % (dice.randint(0, 1), known))
        elif kind < 0.75:
            known = went
            events.append('%s F=0 N(R)=%d' % (dice.choice(['RR', 'REJ']), known))
        elif kind < 0.80:
            events.append('REJ P=0 N(R)=%d' % known)
        elif kind < 0.84:
            events.append('I P=0 N(S)=%d N(R)=%d' % ((came + 3) % 128, known))
        elif kind < 0.88:
            events += ['wait 1000', 'RR F=1 N(R)=%d' % known]
        elif kind < 0.90:
            events += ['RNR P=1 N(R)=%d' % known, 'RR P=0 N(R)=%d' % known]
        else:
            known = went
            events.append('RR P=0 N(R)=%d' % known)
    return events


def calm(dice):
    """A sequence in which the other end does nothing wrong, is never busy and loses nothing; links come and go."""
    events = []
    for _ in range(dice.randint(1, 3)):
        came, went, known = 0, 0, 0
        events += dice.choice([['SABME P=1'], ['establish request', 'UA F=1'], ['establish request', 'wait 1000', 'UA F=1']])
        for _ in range(dice.randint(0, 10)):
            kind = dice.random()
            if kind < 0.4:
                known = dice.randint(known, went)
                events.append('I P=%d N(S)=%d N(R)=%d' % (dice.randint(0, 1), came, known))
                came += 1
            elif kind < 0.7 and went - known < 2:
                went += 1
                events.append('data request')
            elif kind < 0.95:
                known = dice.randint(known, went)
                events.append('RR %s N(R)=%d' % (dice.choice(['P=0', 'P=1', 'F=0']), known))
            else:
                events.append('UI P=0')
        events += dice.choice([['DISC P=1'], ['DISC P=0'], ['RR P=0 N(R)=%d' % went, 'release request', 'UA F=1']])
    return events


def line_of(event):
    return event if event.startswith('wait ') else words_of(event)


def answers(program, sequences, words=()):
    """What each event leads to: a list for each sequence."""
    text = ''.join('\n'.join([BEGIN, *map(line_of, events)]) + '\n' for events in sequences)
    ran = subprocess.run([program, *words], input=text, stdout=subprocess.PIPE, encoding='utf-8', check=True)
    lines = iter(ran.stdout.splitlines())
    return [[next(lines).split('|') for _ in events] for events in sequences]


def is_played(stack, state, event, blocks):
    """Whether no block names it for the whole state that is not made alike."""
    return not any(stack in it.cells and it.table == 'links' and not it.alike and it.names_state(state) and it.names_event(event)
                   for it in blocks)


def put_to(stack, events, ours, blocks):
    """What another is asked, and what ours answered to it: without requests that ours refused, and what a block names. What
    ours was asked then is not the same any more, so ours is asked again."""
    state, kept = '4', []
    for event, answer in zip(events, ours):
        is_refused = event in REQUESTS and answer[0] == '0'
        if not is_refused and is_played(stack, state, event, blocks):
            kept.append(event)
        state = answer[-1]
    return kept


def shown(answer):
    """An answer without whether it was served, and what is told in one order."""
    _, control, contents, told, timers, state = answer
    return control, contents, '; '.join(sorted(filter(None, told.split('; ')))), timers, state


def play(stack, ours, theirs, sequences, blocks, words):
    """Plays sequences on both."""
    sequences = [put_to(stack, events, answer, blocks) for events, answer in zip(sequences, answers(ours, sequences))]
    events, differing = 0, []
    for asked, one, other in zip(sequences, answers(ours, sequences), answers(theirs, sequences, words)):
        events += len(asked)
        for at, (left, right) in enumerate(zip(one, other)):
            if shown(left) != shown(right):
                differing.append((asked[:at + 1], shown(left), shown(right)))
                break
    return Tally(len(sequences), events, differing)
