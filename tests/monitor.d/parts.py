"""The parts of tests/monitor that are about what is judged."""
import collections
import os
import pathlib
import re

import runs

HERE = pathlib.Path(__file__).resolve().parent
SETTINGS = {  # of the wrong rows: words of the generator, whether the configuration is known
    'known': (('plain=2', 'k=7'), True),
    'unknown': (('plain=2', 'k=7'), False),
    'asked': (('plain=2', 'k=7', 'stim=40'), True),
    'asked-at-end': (('plain=2', 'k=7', 'stim=40', 'tap=100'), True),
}
FEWEST_SEEN = 36


class Test:
    """What is tried, over which programs, and what was wrong."""

    def __init__(self, built, pool, is_long, seed):
        self.built, self.pool, self.is_long, self.seed = built, pool, is_long, seed
        self.faults, self.skipped = [], []

    def count(self, short, long):
        return long if self.is_long else short

    def fails(self, words, is_missing=False):
        if is_missing and os.environ.get('MONITOR') != 'required':
            self.skipped.append(words)
            print('monitor: SKIPPED: %s' % words)
        else:
            self.faults.append(words)

    def says(self, words):
        print('monitor: %s' % words, flush=True)

    def runs(self, program, count, words_of, **more):
        """Runs by their seeds, in order, each with its words."""
        seeds = range(self.seed, self.seed + count)
        return self.pool.map(lambda it: (it, runs.run(self.built, program, it, words_of(it), **more)), seeds)

    def tells(self):
        for words in self.faults:
            print('monitor: FAILED: %s' % words)
        if not self.faults:
            self.says('all is as it should be')
        return int(bool(self.faults))


def no_alarm(test, name, found, ends=('network', 'user'), of=runs.ALARMS):
    frames = decided = capped = count = 0
    for seed, run in found:
        count += 1
        frames += run.summary['frames']
        capped += any(it['verdict'] == 'cannot judge' for it in run.told)
        for it in run.alarms(ends, of)[:2]:
            test.fails('%s, seed %d: %s' % (name, seed, runs.in_words(it)))
        wrong, some = run.wrong_readings(ends)
        decided += some
        for it in wrong:
            test.fails('%s, seed %d: the other reading is said to fit the %s' % (name, seed, it['end']))
    test.says('%s: %d runs, %d frames, no alarm wanted; the reading was told of %d ends; in %d runs it could not judge at times'
              % (name, count, frames, decided, capped))


def cards(test):
    def words_of(seed):
        words = ['from=%d' % (seed * 37 % 900)] if seed % 3 == 0 else []
        if seed % 2 == 0:
            words += ['again=%d' % (seed % 9)]
        if seed % 5 == 0:
            words += ['down=2', 'restart=%d' % (seed % 2)]
        return words + ['octets=1', 'ms=20000'] if seed % 8 == 1 else words
    no_alarm(test, 'two cards', test.runs('pair', test.count(200, 10000), words_of))


def machines(test):
    no_alarm(test, 'two plain machines', test.runs('pair', test.count(30, 1000), lambda seed: ['plain=3', 'again=%d' % (seed % 5)]))
    mixed = test.runs('pair', test.count(20, 1000), lambda seed: ['plain=%d' % (1 + seed % 2), 'again=%d' % (seed % 7)])
    no_alarm(test, 'a card and a plain machine', mixed)


def peers(test):
    found = test.runs('pair', test.count(50, 1000), lambda seed: ['stim=%d' % (5 + seed % 60)])
    no_alarm(test, 'a peer that sends wrong frames', found, ('user',))


def buses(test):
    """TEIs that are lost and doubled; an end that lost its TEI unseen falls silent."""
    found = test.runs('bus', test.count(24, 1000), lambda seed: ['restart=%d' % (seed % 4 == 0), 'ms=60000'])
    no_alarm(test, 'a network and its terminals', found, of=('not our table', 'unlikely'))


# ---- Wrong rows ----

def names_of_faults():
    return re.findall(r'\[[A-Z0-9_]+\] = \{"(\w+)"', (HERE / 'faults.c').read_text(encoding='utf-8'))


def wrong_run(test, name, setting, seed):
    words, is_known = SETTINGS[setting]
    words = [*words, 'fault=%d' % names_of_faults().index(name)]
    return runs.run(test.built, 'pair', seed, words, is_known, at_end=setting == 'asked-at-end')


def seen_file():
    """Of each wrong row the setting and the seed where it is seen, and with which words; or why it never is."""
    for line in (HERE / 'seen.txt').read_text(encoding='utf-8').splitlines():
        if line and not line.startswith('#'):
            yield [it.strip() for it in line.split('|')]


def faults(test):
    """Each is seen where the table says, and named by a row; NONE is never seen."""
    def seen(row):
        name, setting, seed, words = row
        if setting == 'never':
            return name, None
        alarms = wrong_run(test, name, setting, int(seed)).alarms(('user',), ('not our table',))
        return name, any(words in it['why'] for it in alarms)
    rows = list(seen_file())
    if [it[0] for it in rows] != names_of_faults()[1:]:
        test.fails('monitor.d/seen.txt does not list the wrong rows in their order')
    found = dict(test.pool.map(seen, rows))
    count = sum(it is True for it in found.values())
    for name, is_seen in found.items():
        if is_seen is False:
            test.fails('the wrong row %s is not seen, or not named as in monitor.d/seen.txt' % name)
    if count < FEWEST_SEEN:
        test.fails('only %d wrong rows are seen' % count)
    if test.is_long:
        print_faults(test, 8)
    test.says('of %d wrong rows %d are seen, each named' % (len(found), count))


def print_faults(test, count):
    """In how many of so many runs each wrong row is seen, by its settings, and in which words the first time."""
    names = names_of_faults()
    jobs = [(name, setting, seed) for name in names for setting in SETTINGS for seed in range(1000, 1000 + count)]
    seen, first, unlikely = collections.Counter(), {}, collections.Counter()
    for job, run in zip(jobs, test.pool.map(lambda it: wrong_run(test, *it), jobs)):
        alarms = run.alarms(('user',), ('not our table',))
        seen[job[:2]] += bool(alarms)
        unlikely[job[0]] += bool(run.alarms(('user',), ('unlikely',)))
        if alarms:
            first.setdefault(job[0], '%s | %d | %s' % (job[1], job[2], alarms[0]['why'].split('; or ')[0]))
    print('%-18s %s  in the words of its first alarm' % ('', ' '.join('%-13s' % it for it in SETTINGS)))
    for name in names:
        cells = ' '.join('%-13s' % ('%d/%d' % (seen[name, it], count)) for it in SETTINGS)
        more = ', unlikely in %d' % unlikely[name] if unlikely[name] else ''
        print('%-18s %s  %s%s' % (name, cells, first.get(name, 'never'), more))
    if seen and any(seen['none', it] for it in SETTINGS):
        test.fails('an end without a wrong row departs')


# ---- Frames that the tap missed, and too many states ----

def missed(test):
    """At most two alarms for each frame that is taken out; all say that a frame may be missing, but those that follow one."""
    def of(seed):
        drawn, text = runs.tapped(test.built.work / 'pair', seed, ['k=7', 'loss=0'])
        lines = text.splitlines()
        out = set(range(300 + seed, len(lines), 400))
        kept = '\n'.join(it for i, it in enumerate(lines) if i not in out) + '\n'
        _, told, _, _ = runs.judged(test.built.program, runs.options(drawn), kept)
        return seed, len(out), [it for it in told if it['verdict'] == 'not our table']
    count = alarms = unmarked = 0
    for seed, gone, found in test.pool.map(of, range(test.seed, test.seed + test.count(10, 200))):
        count, alarms = count + gone, alarms + len(found)
        unmarked += sum(not it['or_missed'] for it in found)
    if alarms > 2 * count:
        test.fails('%d alarms for %d frames that the tap missed' % (alarms, count))
    if unmarked > 0:
        test.fails('%d alarms for frames that the tap missed do not say so' % unmarked)
    test.says('%d frames were taken out: %d alarms, %d without a word of it' % (count, alarms, unmarked))


def cap(test):
    """With an unknown window and many losses there are too many states."""
    run = runs.run(test.built, 'pair', 1, ['k=127', 'loss=25', 'load=39', 'plain=3', 'ms=9000'], is_known=False)
    if not any(it['verdict'] == 'cannot judge' for it in run.told):
        test.fails('too many states, and it does not say so')
    if run.alarms():
        test.fails('too many states, and an alarm: %s' % runs.in_words(run.alarms()[0]))


PARTS = {it.__name__: it for it in (cards, machines, peers, buses, faults, missed, cap)}
