"""The parts of tests/monitor about stacks that nobody here wrote: libpri in the tests of tests/interop, and with --long the Linux
kernel's in those of tests/kernel."""
import collections
import os
import pathlib
import subprocess

import built
import kernel_log
import runs

ROOT = built.ROOT
LIBPRI = {'interop_terminals': [], 'interop_trunk': [], 'interop': ['hdlc.c']}
KERNEL_SEEDS = range(1, 13)


def classes(test, name, text, words):
    """What is told of a capture, counted; a departure is a fault."""
    _, told, summary, _ = runs.judged(test.built.program, ['--json', *words], text)
    for it in [it for it in told if it['verdict'] == 'not our table'][:2]:
        test.fails('%s: %s' % (name, runs.in_words(it)))
    return collections.Counter(it['verdict'] for it in told), summary['frames']


def libpri(test):
    """libpri as the network of terminals whose TEIs get lost and doubled; with --long also of a trunk, and as a terminal."""
    if not any(pathlib.Path(it, 'libpri.h').exists() for it in ('/usr/include', '/usr/local/include')):
        raise built.Missing('there is no libpri.h (libpri-dev)')
    to = test.built.work / 'libpri'
    (to / 'tapped').mkdir(parents=True, exist_ok=True)
    built.done(['cc', '-O2', '-DLAPD_OWN_MEMORY', '-c', '-o', to / 'lapd.o', ROOT / 'dist' / 'lapd.c'])
    of = lambda name: ROOT / 'tests' / 'c' / name
    for name, more in list(LIBPRI.items())[:test.count(1, 3)]:
        sources = map(of, [name + '.c', *more, 'libpri_terminal.c', 'memory.c'])
        built.done(['cc', '-std=c99', '-D_DEFAULT_SOURCE', '-Wall', '-Wextra', '-Werror', '-O1', '-I%s' % (ROOT / 'include'),
                    '-I%s' % of(''), '-o', to / name, *sources, to / 'lapd.o', '-lpri'])
    env = {**os.environ, 'TAPPED': str(to / 'tapped')}
    built.done([to / 'interop_terminals', test.count(60, 200)], env=env)
    for seed in ('1', '2', '3') if test.is_long else ():
        built.done([to / 'interop_trunk', seed], env=env)
    if test.is_long:
        built.done([to / 'interop'], env=env)
    counted, frames, count = collections.Counter(), 0, 0
    for path in sorted((to / 'tapped').glob('*.txt')):
        its, some = classes(test, 'libpri, ' + path.stem, path.read_text(), ['--k', '7'])
        counted, frames, count = counted + its, frames + some, count + 1
    if frames < 10000:
        test.fails('libpri sent only %d frames' % frames)
    words = ', '.join('%s %d' % it for it in sorted(counted.items()))
    test.says('libpri: %d runs, %d frames, no departure wanted; %s' % (count, frames, words))


def kernel(test):
    """The kernel's stack, by the logs of tests/kernel: what departs is told, and is a fault only of our own end."""
    if not test.is_long:
        return
    for seed in KERNEL_SEEDS:
        words = [str(ROOT / 'tests' / 'kernel' / 'run'), '--seed', str(seed)]
        said = subprocess.run(words, capture_output=True, text=True, check=False, errors='replace')
        if 'SKIPPED' in said.stdout:
            raise built.Missing(said.stdout.strip())
        numbers = kernel_log.numbers_of(said.stdout)
        kernel_is_network = numbers['side'].startswith('nt')
        words = ['--json', *(['--k-user', numbers['k']] if kernel_is_network else ['--k', numbers['k'], '--k-user', '127'])]
        _, told, summary, _ = runs.judged(test.built.program, words, '\n'.join(kernel_log.tapped(said.stdout)) + '\n')
        counted = collections.Counter('%(end)s %(verdict)s' % it for it in told)
        test.says('kernel, seed %d (%s): %d frames; %s' % (seed, numbers['side'], summary['frames'], dict(counted)))
        ours = 'user' if kernel_is_network else 'network'
        for it in [it for it in told if it['verdict'] == 'not our table' and it['end'] == ours][:2]:
            test.fails('kernel, seed %d: our own end: %s' % (seed, runs.in_words(it)))


PARTS = {it.__name__: it for it in (libpri, kernel)}
