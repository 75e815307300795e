"""The printed part of docs/PROMISES.md, for `tests/reading`.

The words of a promise are those of tests/statement.txt. The number of lines is that of the definitions which it names, and of
those that these name in turn, without comments, imports and blank lines. Promises of one card count what they need beside
the machine and the ports, which the last table has; laws of two cards what they need beside those of one card. The last
table counts each definition once. Premises that each card has, and keeps (PREMISES), are not counted, nor are what the
prover's library defines and the types of the .rt files.

A promise refutes the rows of tests/wrong-machines.d that name its law, if tests/wrong-machines --record has each down as
refuted over the definitions as they are (`--last` tells which others it has). A clause of `Card::drive` also refutes the edits of
lapd_card that name it after `breaks:`, if tests/wrong-bodies --record has them down.

The law that docs/PROOFS.md prints whole, HEADLINE, needs at most MOST_LINES.
The worked run of a promise is that of RUNS: a file of worked values that names a definition which the promise needs."""
import sys
import textwrap

sys.path.insert(0, __file__.rpartition('/')[0] + '/wrong-machines.d')
from premises import ALWAYS, of_claim, of_definition
from promised import CALLS, DRIVE, OF_ONE_CARD, OF_TWO_CARDS, RECORDS, listed, rows_at
from specs import CRATES, ROOT, count, needed, read_all
from statement import promises
from recorded import refuted_as_they_are
from rows import rows_of
from tried import refused_as_they_are
from vithrynel.crates import uses

# Of more words than so many a reader finds the premises at the statement's fields.
MOST_OF_PREMISES, MANY_PREMISES = 35, 'at each of its fields'
MACHINE = [('model_card', 'Run', 'moments'), ('model_card', 'Run', 'after_all'), ('model_card', 'Card', 'fresh')]
PORTS = [('model_card', 'ports.Run', 'moments'), ('model_card', 'ports.Run', 'after_all'),
         ('model_card', 'ports.Run', 'meant_all'), ('model_card', 'ports.Card', 'fresh'), ('lapd_card', 'Drive', 'events_of')]
# The worked runs of promises, by crate and file of its specs/.
RUNS = {
    'ok': 'laws_line card/WorkedCard', 'ran': 'laws_line card/WorkedCard', 'taken': 'laws_line card/WorkedCard',
    'refused': 'laws_line card/WorkedClauses', 'counters': 'laws_trace WorkedCounters',
    'counters_before': 'laws_trace WorkedCounters', 'counters_add_up': 'test_product WorkedCounters',
    'within_limit': 'laws_line card/WorkedClauses', 'linear': 'laws_line card/WorkedClauses',
    'isolated': 'laws_line card/WorkedClauses', 'never_full': 'laws_trace WorkedPremises',
    'codec': 'model_card ports/Worked', 'others_stay': 'laws_line card/WorkedBroken',
    'calls_come_to_an_end': 'laws_trace WorkedPremises',
    'ranges_are_served': 'laws_trace Configurations', 'the_other_side_is_heard': 'laws_trace WorkedOtherSide',
    'units_go_out': 'laws_trace WorkedUnits', 'frames_are_read': 'laws_trace WorkedFrames',
    'links_take_turns_meanwhile': 'laws_trace WorkedTurns', 'what_is_told_was_heard': 'laws_trace WorkedDeliveries',
    'what_is_given_is_due': 'laws_trace WorkedDue', 'answers_suit_events': 'laws_trace WorkedRequests',
    'answers_are_given': 'laws_trace WorkedAnswers', 'nothing_is_lost_in_vain': 'laws_trace WorkedLoss',
    'teis_are_managed': 'laws_trace WorkedManaging', 'asking_ends': 'laws_trace WorkedAsking', 'timers_are_timely': 'laws_trace WorkedObserver',
    'links_move': 'laws_trace WorkedObserver', 'news_is_told': 'laws_trace WorkedNews',
    'rooms_are_told': 'laws_trace WorkedRooms', 'counters_count': 'laws_trace WorkedCounters',
    'link_counters_count': 'laws_trace WorkedLinkCounters',
    'causes_are_told': 'laws_trace WorkedCauses', 'a_dead_line_is_told': 'laws_time WorkedSilence', 'answers_come_in_time': 'laws_time circuit/WorkedLongEnough',
    'commands_are_answered': 'laws_time circuit/WorkedAnswered',
    'calls_bear_noise': 'laws_time circuit/WorkedArriving', 'an_answer_tells_what_came': 'laws_time circuit/WorkedCaughtUp',
    'a_call_outlasts_noise': 'laws_time circuit/WorkedInCall', 'a_call_takes_beats': 'laws_time circuit/WorkedInBeats',
    'a_call_comes_in_time': 'laws_time circuit/WorkedInTime', 'frames_come_in_beats': 'laws_time circuit/WorkedInBeats',
   
    'falling_due_ends': 'laws_time WorkedFallingDue',
    'timers_are_true': 'model_timed Worked', 'timers_run_the_same': 'model_timed WorkedOctets',
    'frames_are_heard': 'model_card ports/WorkedText', 'given_frames_are_heard': 'laws_trace octets/Worked',
    'frames_go_at_once': 'model_card ports/WorkedText',
    'a_call_comes_through': 'laws_wire Worked', 'a_terminal_comes_through': 'laws_wire WorkedTerminals',
    'assignments_hold': 'laws_order teis/Worked', 'two_terminals_differ': 'laws_order teis/Worked',
    'a_call_comes_through_in_octets': 'laws_order circuit/WorkedCall', 'calls_are_of_frames': 'laws_order circuit/WorkedMixed',
    'all_is_told_in_beats': 'laws_order circuit/Worked',
    'what_is_lost_arrives': 'laws_wire WorkedRecovering', 'expiries_are_counted': 'laws_wire WorkedCounted',
    'a_call_with_losses_comes_through': 'laws_wire WorkedAnswering',
    'a_call_with_losses_comes_to_rest': 'laws_wire WorkedSettling', 'a_call_ends': 'laws_wire WorkedEnding',
    'delivered_in_order': 'laws_order Worked', 'delivered_though_damaged': 'laws_order circuit/WorkedDamaged',
    'releases_end': 'laws_order WorkedRelease',
    'releases_are_told': 'laws_order WorkedInTheEnd'}
# The law that the pages print whole, and the most lines that it may need.
HEADLINE, MOST_LINES = 'a_call_comes_through', 200
# How many wrong machines the page names at a promise; tests/wrong-machines --page has all.
MOST_ROWS = 1
# Premises that many laws of two cards have: what the page calls them.
SHARED = {'a call': ['CanCall c line d other tei'], 'talk': ['All (IsTalk service tei) ds'],
          'rough talk': ['All (IsRoughTalk service tei) ds'], 'full talk': ['All (IsFullTalk service tei) ds'],
          'possible steps': ['All (IsPossible service tei w) hs'], 'within k': ['(terms c service tei).k ≤ k', '(terms d service tei).k ≤ k'],
          'a noisy call': ['IsFit l', 'All IsIdle before', 'All (AreAsked l) (b ∷ bs)', 'AreClear l (before ++ calls l b ∷ bs) (begins l)'],
          'a quiet call': ['CanCall l.near l.near_line l.far l.far_line l.tei', 'All (AsksData l) (b ∷ bs)', 'All IsClean (b ∷ bs)',
                           'NoneFallsDue l.rate (calls l b ∷ bs ++ replicate n plain) (begins l)'],
          'a quiet line': ['Begins l', 'All (IsTalk l) (b ∷ before)', 'All IsClean (b ∷ before)', 'All IsClean bs'],
          'at rest': ['All (AsksData l) bs', 'IsAtRest l r', 'NoneFallsDue l.rate (bs ++ replicate n plain) r'],
          'a timed line': ['IsInRange c', 'number < c.lines', 'ArePrompt w.kind late before begun', 'ArePrompt w.kind late steps t']}
# What some of these say, in words.
IN_WORDS = {'a call': 'two cards, one of each side, with one TEI', 'talk': 'data is asked for; frames are sent and received',
            'rough talk': 'frames are lost and timers expire, too', 'full talk': 'so, and ends are busy and ready again',
            'a noisy call': 'T200 is long enough; noise makes no frame', 'a quiet call': 'no noise; no timer falls due'}


def refuted():
    """For each promise the rows of wrong machines that break it, of those that were refuted over the definitions as they are; for
    each clause of `Card::drive` also the wrong bodies of lapd_card that name it, of those that were refused over the code as it is."""
    found, (rows, faults) = {}, rows_of([])
    if faults:
        sys.exit('reading: tests/wrong-machines.d: ' + faults[0])
    for row in refuted_as_they_are(rows):
        for it in row.claims:
            found.setdefault((it.crate, it.law_name.split('::')[-1]), set()).add(row.name)
    laws = {it: [(law.split()[0], law.split()[1].split('::')[-1]) for law in it.laws()] for it in promises()}
    broken = {(it.place, it.name): {name for key in keys for name in found.get(key, ())} for it, keys in laws.items()}
    for edit, clauses in refused_as_they_are('lapd_card', uses()).items():
        for clause in clauses:
            if (DRIVE, clause) not in broken:
                sys.exit('reading: %s breaks %s, which is no promise of `Card::drive`' % (edit, clause))
            broken[(DRIVE, clause)].add(edit)
    return {it: sorted(names) for it, names in broken.items()}


class Statement:
    """What tests/statement.txt lists, and what is proved beside it; how much each has to be read."""

    def __init__(self):
        self.names, self.files, self.refuted = listed(), read_all(), refuted()
        self.machine, self.below = needed(self.files, MACHINE), needed(self.files, MACHINE + PORTS)
        places = [*CALLS, *RECORDS, *dict.fromkeys([*OF_ONE_CARD, *self.names, *OF_TWO_CARDS])]
        parts = {place: parted(rows_at(place), set(self.names.get(place, []))) for place in dict.fromkeys(places)}
        self.rows_of = {place: sorted(rows, key=lambda it, them=self.names.get(place): them.index(it.names[0]))
                        for place, (rows, _) in parts.items() if rows}
        self.beside = {place: rows for place, (_, rows) in parts.items() if rows}
        for name in sorted({*RUNS} - {name for them in self.names.values() for name in them}):
            sys.exit('reading: RUNS has %s, which is no promise' % name)
        self.of_one = sum((rows for place, rows in self.rows_of.items() if place not in OF_TWO_CARDS), [])
        self.read = {**self.below, **self.needs(self.of_one)}

    def needs(self, rows):
        """The definitions that these rows need."""
        return needed(self.files, [key for it in rows for key in it.roots])

    def lines(self, rows, read=None):
        """How many lines these need beside what is read: the machine and the ports, if nothing else is said."""
        read = self.below if read is None else read
        return count({key: text for key, text in self.needs(rows).items() if key not in read})

    def run_of(self, row):
        """The file of worked values of a promise. It has to name a definition that the promise needs."""
        run = RUNS.get(row.names[0])
        if run is None:
            return None
        crate, file = run.split()
        key = crate, file.replace('/', '.')
        if key not in self.files:
            sys.exit('reading: RUNS: crates/%s/specs/%s.antt is not there' % (crate, file))
        specs, needs = self.files[key], self.needs([row])
        files, named = {it[:2] for it in needs}, set(specs.names.values())
        if not (named & set(needs) or set(specs.aliases.values()) & files or key in files):
            sys.exit('reading: RUNS: crates/%s/specs/%s.antt names nothing that %s needs' % (crate, file, row.names[0]))
        return 'crates/%s/specs/%s.antt' % (crate, file)

    def statements_of(self, row):
        """The files of definitions that a promise names, in its own crate; or in any, if none is there."""
        files = [it[:2] for it in dict.fromkeys(row.roots) if it[:2] in self.files and it[2] != ALWAYS]
        crate = row.file.relative_to(CRATES).parts[0]
        own = [it for it in dict.fromkeys(files) if it[0] == crate]
        return ['crates/%s/specs/%s.antt' % (it[0], it[1].replace('.', '/')) for it in own or dict.fromkeys(files)]

    def premises_of(self, row):
        """The premises of a promise: what all of its claims share, and then what each has beside that."""
        found = {}
        for clause, text, specs in row.claims:
            for field, them in of_claim(text, specs, self.files).items():
                found['%s %s' % (clause, field) if field else clause] = them
        shared = [it for it in next(iter(found.values())) if all(it in them for them in found.values())]
        shared = [] if len(found) == 1 and ' ' in next(iter(found)) else shared
        own = {name.rpartition(' ')[2]: [it for it in them if it not in shared] for name, them in found.items()}
        said, parts, alike = {}, [quoted(shared)] * bool(shared), {}
        for name, them in own.items():
            alike.setdefault(tuple(them), []).append(name)
        for them, names in alike.items():
            parts += ['%s: %s' % (', '.join('*%s*' % it for it in names), shortest(them, said))] * bool(them)
            said[names[0]] = them
        text = '. '.join(parts)
        return text if len(text.split()) <= MOST_OF_PREMISES else MANY_PREMISES

    def sentence_of(self, place, row):
        """The words of a promise. Each must have some."""
        said = ' '.join(it.said for it in promises() if it.place == place and it.name in row.names and it.said)
        return said or sys.exit('reading: tests/statement.txt: %s %s has no words' % (place, row.names[-1]))

    def block(self, place, row, read=None):
        """A promise on the page."""
        if HEADLINE in row.names and self.lines([row], read) > MOST_LINES:
            sys.exit('reading: %s needs over %d lines' % (HEADLINE, MOST_LINES))
        broken = sorted({it for name in row.names for it in self.refuted[(place, name)]})
        files = self.statements_of(row) or [row.file.relative_to(ROOT).as_posix()]
        run = self.run_of(row)
        told = {'Premises': self.premises_of(row), 'Lines': '%d: %s' % (self.lines([row], read), ', '.join('`%s`' % it for it in files)),
                'Run': run and '`%s`' % run, 'Refutes': some_of(broken)}
        return ['', '|%s|%s|' % (', '.join('`%s`' % it for it in row.names), self.sentence_of(place, row)), '|---|---|',
                *('|%s|%s|' % it for it in told.items() if it[1])]


def some_of(rows):
    """The first rows of wrong machines; `tests/wrong-machines --statement` has all."""
    return ', '.join('`%s`' % it for it in rows[:MOST_ROWS])


def quoted(premises):
    """Premises as a list of code; those of SHARED by their names."""
    named = {name: them for name, them in SHARED.items() if all(it in premises for it in them)}
    rest = [it for it in premises if not any(it in them for them in named.values())]
    return '; '.join([*named] + ['`%s`' % it for it in rest])


def shortest(premises, said):
    """Premises as a list of code, or as those of another clause that was said before and what there is besides, in fewer words."""
    ways = [quoted(premises)]
    for name, them in said.items():
        if all(it in premises for it in them):
            ways.append('; '.join(['as *%s*' % name] + [quoted([it for it in premises if it not in them])] * (len(them) < len(premises))))
    return min(ways, key=lambda it: len(it.split()))


def parted(rows, names):
    """Those of which one has one of these names, and the others."""
    return [it for it in rows if names & set(it.names)], [it for it in rows if not names & set(it.names)]


def title(place):
    """What the pages call a place."""
    return '`Card::drive`' if place == DRIVE else '`%s`' % place if place in CALLS or place in RECORDS else 'laws of `%s`' % place


def page():
    """The printed part of docs/PROMISES.md."""
    it, lines = Statement(), []
    trace = it.files[('laws_trace', 'Trace')]
    always = of_definition(trace.definitions[ALWAYS], trace, it.files)['']
    lines += ['', '`%s`: %s.' % (ALWAYS, quoted(always))]
    told = ['%s%s: %s.' % (name.capitalize(), ' (%s)' % IN_WORDS[name] if name in IN_WORDS else '', '; '.join('`%s`' % it for it in them))
            for name, them in SHARED.items()]
    lines += sum((textwrap.wrap(it, 120, break_on_hyphens=False, break_long_words=False) for it in told), [])
    for place, rows in it.rows_of.items():
        lines += ['', '## %s' % (title(place)[0].upper() + title(place)[1:])]
        for row in rows:
            lines += it.block(place, row, it.read if place in OF_TWO_CARDS else None)
    return lines[1:] + beside(it) + together(it)


def beside(it):
    """What is proved and not in the statement."""
    lines = ['', '## Beside the statement', '', '|Of|Also proved|', '|---|---|']
    for place, rows in it.beside.items():
        if place in OF_TWO_CARDS and place in it.names:
            continue
        lines.append('|%s|%s|' % (title(place).replace('laws of ', ''), ', '.join('`%s`' % name for row in rows for name in row.names)))
    return lines


def together(it):
    """The last table: what all of the statement needs beside the machine and the ports, each definition counted once."""
    ports = count(it.below) - count(it.machine)
    rows, lines = [], ['', '## All together', '', '|All together|Lines|', '|---|---|', '|the machine: what a run of frames is|%d|' % count(it.machine),
                       '|the ports: what a run of octets is, and which run of frames it means|%d|' % ports]
    places = [place for place in it.rows_of if place not in OF_TWO_CARDS]
    for place in places:
        rows = rows + it.rows_of[place]
        if place in (DRIVE, places[-1]):
            said = ', '.join(map(title, CALLS)) if place == DRIVE else 'and all other promises of one card'
            lines.append('|%s|%d|' % (said, it.lines(rows)))
    of_two = sum((rows for place, rows in it.rows_of.items() if place in OF_TWO_CARDS), [])
    return lines + ['|beside it, the laws of two cards|%d|' % it.lines(of_two, it.read)]
