"""Compiles others' stacks, each with the program that plays it, and ours over lapd.c. For tests/others."""
import concurrent.futures
import pathlib
import shutil
import subprocess

HERE = pathlib.Path(__file__).resolve().parent
ROOT = HERE.parent.parent
STRICT = ['-std=c99', '-O1', '-Wall', '-Wextra', '-Wpedantic', '-Werror']
# Code of others is not ours to warn of.
THEIRS = ['-std=gnu11', '-O1', '-w', '-fgnu89-inline']
# What kernel.h stands for, and what libosmocore makes as it is built. linux/errno.h the C library itself asks for.
EMPTY = ['linux/%s.h' % it for it in ('types', 'socket', 'list', 'skbuff', 'net', 'completion', 'slab', 'timer', 'kernel', 'module',
                                      'string', 'random')] + ['net/sock.h']
EMPTY += ['osmocom/core/bit%dgen.h' % bits for bits in (16, 32, 64)]
STACKS_OF = {'link': ('misdn', 'libpri', 'lapd_core'), 'teis': ('misdn', 'libpri')}


def stubs(work):
    """The headers that are empty, in a folder of their own."""
    for name in EMPTY:
        path = work / 'stubs' / name
        path.parent.mkdir(parents=True, exist_ok=True)
        path.write_text('', encoding='utf-8')
    (work / 'stubs' / 'linux' / 'errno.h').write_text('#include_next <linux/errno.h>\n', encoding='utf-8')
    return work / 'stubs'


def flags(stack, folder, work):
    """How a stack's files are compiled."""
    common = THEIRS + ['-I%s' % HERE, '-I%s' % (work / 'stubs')]
    if stack == 'misdn':
        return common + ['-include', 'kernel.h', '-I%s' % (folder / 'include'), '-I%s' % (folder / 'drivers/isdn/mISDN')]
    if stack == 'lapd_core':
        return common + ['-I%s' % (folder / 'include'), '-I%s' % (folder / 'src/gsm')]
    return common + ['-I%s' % folder]


def objects(found, lapd):
    """Each object: its name, its file and its flags."""
    work_of = {stack: it.folder for stack, it in found.items()}
    yield 'lapd', lapd / 'lapd.c', lambda work: ['-std=c99', '-O1']
    for kind, stacks in STACKS_OF.items():
        yield kind, HERE / ('%s.c' % kind), lambda work: STRICT
        yield 'our_' + kind, HERE / ('our_%s.c' % kind), lambda work: STRICT + ['-I%s' % lapd]
        for stack in stacks:
            if stack in found:
                yield ('%s_%s' % (stack, kind), HERE / ('%s_%s.c' % (stack, kind)),
                       lambda work, stack=stack: flags(stack, work_of[stack], work))
    # What else a stack's program is linked with.
    for stack, name, path in [('misdn', 'layer2', 'drivers/isdn/mISDN/layer2.c'), ('misdn', 'fsm', 'drivers/isdn/mISDN/fsm.c'),
                              ('lapd_core', 'msgb', 'src/msgb.c')]:
        if stack in found:
            yield name, work_of[stack] / path, lambda work, stack=stack: flags(stack, work_of[stack], work)


# What else a stack's files are linked with, which its program does not include.
ALSO = {'misdn_teis': ['layer2', 'fsm'], 'lapd_core_link': ['msgb'], 'our_link': ['lapd'], 'our_teis': ['lapd']}


def run(command):
    ran = subprocess.run(list(map(str, command)), stdout=subprocess.PIPE, stderr=subprocess.STDOUT, encoding='utf-8')
    if ran.returncode:
        raise SystemExit('others: %s\n%s' % (' '.join(map(str, command)), ran.stdout[-3000:]))


def built(compiler, found, work, lapd=ROOT / 'dist'):
    """Builds the programs, and returns the folder in which they lie."""
    if shutil.which(compiler) is None:
        return None
    stubs(work)
    wanted = list(objects(found, lapd))
    with concurrent.futures.ThreadPoolExecutor(2) as pool:
        list(pool.map(run, [[compiler, *flags_of(work), '-c', path, '-o', work / (name + '.o')] for name, path, flags_of in wanted]))
        programs = [name for name, _, _ in wanted if '_' in name]
        list(pool.map(run, [[compiler, '-o', work / name, *(work / ('%s.o' % it) for it in
                             [name, name.rpartition('_')[2], *ALSO.get(name, [])])] for name in programs]))
    return work


def costs(compiler, found, work):
    """Builds the programs that tell what a frame costs, each once more to count its blocks, into a folder."""
    stubs(work)
    also = {stack: [it.folder / 'src/msgb.c'] * (stack == 'lapd_core') for stack, it in found.items()}
    for flag, end in ([], ''), (['-DCOUNTED'], '_counted'):
        common = work / ('cost%s.o' % end)
        run([compiler, *STRICT, '-O2', *flag, '-c', HERE / 'cost.c', '-o', common])
        for stack, it in found.items():
            run([compiler, *flags(stack, it.folder, work), '-O2', HERE / (stack + '_cost.c'), *also[stack], common,
                 '-o', work / (stack + end)])
