"""The parts of tests/monitor that are about captures, outputs and the command line."""
import json
import os
import pathlib
import re
import resource
import shutil
import subprocess

import built
import captures
import runs

HERE = pathlib.Path(__file__).resolve().parent
ROOT = HERE.parent.parent
SEED, WORDS = 7, ['plain=2', 'fault=1', 'k=7', 'ms=40000', 'tap=40']  # an end that departs a few times


def told_of(test, name, words=('--k', '7')):
    said = subprocess.run([str(test.built.program), *words, '--json', str(name)], capture_output=True, text=True, check=False)
    lines = [json.loads(it) for it in said.stdout.splitlines()]
    return said.returncode, lines, said.stderr


def comparable(lines):
    """What is told, without numbers and lines, which the kinds of captures have of their own."""
    return [(round(it['time'], 2), it['end'], it['verdict'], it['sent'], it['why']) for it in lines[:-1]]


def kinds(test):
    """Each kind of capture says the same."""
    _, text = runs.tapped(test.built.work / 'pair', SEED, WORDS)
    frames = list(captures.frames_of(text))
    files = {
        'text': text.encode(),
        'pcap': captures.pcap(frames),
        'pcap-low-nano': captures.pcap(frames, '<', True),
        'pcap-of-the-user': captures.pcap(frames, side=0),
        'pcapng': captures.pcapng(frames),
        'pcapng-high': captures.pcapng(frames, '>', resolution=9),
        'pcapng-203': captures.pcapng(frames, link_type=captures.LAPD),
        'pcapng-203-of-the-user': captures.pcapng(frames, link_type=captures.LAPD, at_network=False),
        'gsmtap': captures.gsmtap(frames),
    }
    said = {}
    for name, octets in files.items():
        path = test.built.work / name
        path.write_bytes(octets)
        status, lines, fault = told_of(test, path)
        said[name] = comparable(lines)
        if status != 1 or fault:
            test.fails('%s: status %d, %s' % (name, status, fault))
    for name, its in said.items():
        if its != said['text'] or not its:
            test.fails('%s says another thing than text' % name)
    words = [str(test.built.program), '--k', '7', '--json', '-']
    piped = subprocess.run(words, input=files['pcapng'], capture_output=True, check=False)
    if comparable([json.loads(it) for it in piped.stdout.splitlines()]) != said['text']:
        test.fails('a pcapng from a pipe says another thing')
    test.says('%d kinds of captures say the same %d things' % (len(files), len(said['text'])))


def refused(test):
    """What can't be judged is refused, with a sentence and status 2; so are wrong words."""
    frames = [(1.0, True, bytes.fromhex('02017F'))]
    pcap = captures.pcap(frames)
    cases = [
        ('203.pcap', captures.pcap(frames, link_type=captures.LAPD), 'does not say who sent'),
        ('1.pcap', captures.pcap(frames, link_type=9), 'link type 9 has no LAPD'),
        ('203.pcapng', captures.pcapng(frames, link_type=captures.LAPD, has_directions=False), 'without a direction'),
        ('cut.pcap', pcap[:-1], 'packet 1'),
        ('empty', b'', 'it is empty'),
        ('noise', b'\x00\x01\x02\x03', 'neither pcap'),
        ('words', b'1 X 00\n', 'line 1: the second word'),
        ('digits', b'1 N 0\n', 'line 1: its octets'),
        ('time', b'1x N 00\n', 'line 1: its time'),
        ('more', b'1 N 00 damaged x\n', 'too many words'),
        ('cut.pcapng', captures.pcapng(frames)[:-5], 'the file ends'),
    ]
    for name, octets, words in cases:
        path = test.built.work / name
        path.write_bytes(octets)
        said = subprocess.run([str(test.built.program), str(path)], capture_output=True, text=True, check=False)
        if said.returncode != 2 or words not in said.stderr:
            test.fails('%s is not refused in these words: %s: %s' % (name, words, said.stderr))
    lines = [([], 'one FILE'), (['a', 'b'], 'two files'), (['--k', '0', 'a'], '--k wants a number'), (['--k'], 'wants a value'),
             (['--nothing', 'a'], 'what is --nothing'), (['--tap', 'x', 'a'], 'one of between'), (['/nowhere'], 'No such file'),
             (['--live', 'x:1'], '--live wants'), (['--live', 'dahdi:1'], 'two channels'), (['--live', 'misdn:x'], 'wants CARD')]
    for words, fault in lines:
        said = subprocess.run([str(test.built.program), *words], capture_output=True, text=True, check=False)
        if said.returncode != 2 or fault not in said.stderr:
            test.fails('lapd-monitor %s: status %d, %s' % (' '.join(words), said.returncode, said.stderr))


def manual(test):
    """The manual has the options that there are, and mandoc finds nothing in it."""
    said = subprocess.run([str(test.built.program), '--help'], capture_output=True, text=True, check=False)
    page = (ROOT / 'monitor' / 'lapd-monitor.1').read_text(encoding='utf-8')
    options = set(re.findall(r'--([a-z0-9-]+)', said.stdout))
    of_page = {it for it in re.findall(r'Fl -([a-z0-9-]+)', page)}
    if said.returncode != 0 or options != of_page:
        test.fails('the manual and --help have other options: %s' % sorted(options ^ of_page))
    if shutil.which('mandoc'):
        words = ['mandoc', '-T', 'lint', '-W', 'warning', str(ROOT / 'monitor' / 'lapd-monitor.1')]
        lint = subprocess.run(words, capture_output=True, text=True, check=False)
        if lint.returncode != 0:
            test.fails('mandoc: %s' % lint.stdout)
    version = subprocess.run([str(test.built.program), '--version'], capture_output=True, text=True, check=False)
    if not re.fullmatch(r'lapd-monitor \d+\.\d+\n', version.stdout):
        test.fails('--version says %r' % version.stdout)
    names = test.built.package()
    for name in ('./usr/bin/lapd-monitor', './usr/share/man/man1/lapd-monitor.1.gz', './usr/share/doc/lapd-monitor/copyright'):
        if name not in names:
            test.fails('the Debian package lacks %s' % name)


def octets(test):
    """Octets of the line say what their frames say; a damaged frame may not have been heard."""
    drawn, text = runs.tapped(test.built.work / 'pair', 3, ['octets=1', 'ms=20000', 'loss=0'])
    _, told, summary, _ = runs.judged(test.built.program, runs.options(drawn), text)
    if told or summary['frames'] < 100:
        test.fails('octets: %d frames, %s' % (summary['frames'], told[:1]))
    asked = ('0 N 02017F\n20 U 020173\n2000 N 02010101\n2020 U 02010101\n'
             '4000 N 02010101%s\n7000 N 02010101\n7020 U 02010101\n')
    for damage, is_told in (('', True), (' damaged', False)):
        _, told, _, _ = runs.judged(test.built.program, ['--json', '--tap', 'user'], asked % damage)
        if bool(told) != is_told:
            test.fails('an enquiry that is not answered%s: %s' % (damage, told))


# ---- Outputs ----

def annotated(test):
    """tshark reads each packet, and the comments are what is told."""
    if not shutil.which('tshark'):
        raise built.Missing('there is no tshark')
    source, target = test.built.work / 'annotate.pcapng', test.built.work / 'annotated.pcapng'
    _, text = runs.tapped(test.built.work / 'pair', SEED, WORDS)
    frames = list(captures.frames_of(text))
    for octets in (captures.pcapng(frames), captures.pcap(frames), captures.pcapng(frames, link_type=captures.LAPD), text.encode()):
        source.write_bytes(octets)
        _, lines, fault = told_of(test, source, ('--k', '7', '--annotate', str(target)))
        words = ['tshark', '-r', str(target), '-T', 'fields', '-e', 'frame.number', '-e', 'lapd.sapi', '-e', 'frame.comment']
        said = subprocess.run(words, capture_output=True, text=True, check=False)
        rows = [it.split('\t') for it in said.stdout.split('\n') if re.match(r'\d+\t', it)]
        comments = {int(it[0]) for it in rows if len(it) > 2 and it[2]}
        wanted = {it['frame'] for it in lines[:-1] if it['frame'] > 0}
        if said.returncode != 0 or len(rows) != len(frames) or comments != wanted or not wanted or fault:
            test.fails('the capture with comments: %d of %d packets, comments of %s, %s'
                       % (len(rows), len(frames), sorted(comments ^ wanted), said.stderr))
        if any(it[1] != '0' for it in rows):
            test.fails('the capture with comments: tshark finds no LAPD')


def seconds_of(words):
    before = resource.getrusage(resource.RUSAGE_CHILDREN)
    subprocess.run(words, stdout=subprocess.DEVNULL, stderr=subprocess.DEVNULL, check=False)
    after = resource.getrusage(resource.RUSAGE_CHILDREN)
    return after.ru_utime + after.ru_stime - before.ru_utime - before.ru_stime


def speed(test):
    """With windows up to 7, all known: sets up to 500 states, and less of the processor a frame than tshark takes."""
    if not shutil.which('tshark'):
        raise built.Missing('there is no tshark')
    frames, offset = [], 0.0
    for seed in range(1, 13):
        words = ['k=7', 'n200=3', 't200=1000', 't203=10000', 'loss=%d' % (seed % 12), 'tap=50']
        _, text = runs.tapped(test.built.work / 'pair', seed, words)
        frames += [(at + offset, sender, octets) for at, sender, octets in captures.frames_of(text)]
        offset += 130000
    path = test.built.work / 'speed.pcap'
    path.write_bytes(captures.pcap(frames))
    words = [str(test.built.program), '--quiet', '--k', '7', '--n200', '3', '--t200', '1000', '--t203', '10000', str(path)]
    own, its = min(seconds_of(words) for _ in range(2)), min(seconds_of(['tshark', '-r', str(path)]) for _ in range(2))
    said = subprocess.run([it for it in words if it != '--quiet'], capture_output=True, text=True, check=False).stdout
    most = int(re.search(r'at most (\d+) states', said).group(1))
    if own > its:
        test.fails('%d frames take %.2f s, and tshark takes %.2f s' % (len(frames), own, its))
    if most > 500:
        test.fails('an end has up to %d states' % most)
    test.says('%d frames a second, tshark %d; at most %d states' % (len(frames) / own, len(frames) / its, most))


def hostile(test):
    """Changed captures, with sanitizers."""
    test.built.hostile()
    _, text = runs.tapped(test.built.work / 'pair', SEED, [*WORDS[:-2], 'ms=3000', 'stim=60'])
    _, bus = runs.tapped(test.built.work / 'bus', SEED, ['ms=6000'])
    _, octets = runs.tapped(test.built.work / 'pair', SEED, ['octets=1', 'ms=1500'])
    names = []
    for name, of in (('link', text), ('bus', bus)):
        frames = list(captures.frames_of(of))[:60]
        kinds_of = {'pcap': captures.pcap(frames), 'pcapng': captures.pcapng(frames), 'gsmtap': captures.gsmtap(frames),
                    '203': captures.pcapng(frames, link_type=captures.LAPD), 'txt': '\n'.join(of.splitlines()[:60]).encode()}
        for kind, written in kinds_of.items():
            names.append(test.built.work / ('hostile-%s.%s' % (name, kind)))
            names[-1].write_bytes(written)
    names.append(test.built.work / 'hostile-octets')
    names[-1].write_text('\n'.join(octets.splitlines()[:500]))
    count = test.count(3000, 300000)
    words = [str(test.built.work / 'hostile'), str(count), str(test.seed), *map(str, names)]
    said = subprocess.run(words, capture_output=True, text=True, check=False, env={**os.environ, 'ASAN_OPTIONS': 'detect_leaks=1'})
    if said.returncode != 0:
        test.fails('hostile captures: %s' % (said.stdout + said.stderr)[-2000:])
    test.says(said.stdout.strip())


PARTS = {it.__name__: it for it in (kinds, refused, manual, octets, annotated, speed, hostile)}
