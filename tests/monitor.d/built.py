"""Builds lapd-monitor by its CMakeLists.txt, with another compiler and sanitizers for hostile captures, and the generators."""
import os
import pathlib
import shutil
import subprocess

HERE = pathlib.Path(__file__).resolve().parent
ROOT = HERE.parent.parent
STRICT_C = ['-std=c11', '-Wall', '-Wextra', '-Wpedantic', '-Wconversion', '-Wshadow', '-Werror', '-O2']
STRICT_CC = ['-std=c++17', '-Wall', '-Wextra', '-Wpedantic', '-Wconversion', '-Wshadow', '-Werror']
SANITIZED = ['-O1', '-g', '-fsanitize=address,undefined', '-fno-sanitize-recover=all']
PARTS_OF_AN_END = ['frame', 'state', 'set', 'closure', 'rows_down', 'rows_up', 'rows_own', 'watch', 'departure', 'estimates',
                   'verdict']
AN_END = ['ends.c', 'plain.c', 'plain_frames.c', 'faults.c']
GENERATORS = {'pair': ['pair.c', *AN_END], 'bus': ['bus.c', *AN_END]}


class Missing(Exception):
    """What is not installed."""


class Broken(Exception):
    """What does not compile."""


def need(*tools):
    for tool in tools:
        if not shutil.which(tool):
            raise Missing('there is no %s (tests/setup)' % tool)


def done(words, **more):
    said = subprocess.run([str(it) for it in words], capture_output=True, text=True, check=False, **more)
    if said.returncode != 0:
        raise Broken('%s:\n%s' % (' '.join(str(it) for it in words[:3]), (said.stdout + said.stderr)[-3000:]))
    return said


class Built:
    """The programs, in a folder."""

    def __init__(self, work, jobs):
        need('cmake', 'cc', 'c++')
        if not any(pathlib.Path(it, 'pcap', 'pcap.h').exists() for it in ('/usr/include', '/usr/local/include')):
            raise Missing('there is no pcap/pcap.h (libpcap-dev)')
        self.work, self.jobs = pathlib.Path(work), jobs

    def monitor(self):
        """The program, as a user builds it, with warnings as errors."""
        to = self.work / 'cmake'
        done(['cmake', '-S', ROOT / 'monitor', '-B', to, '-DMONITOR_WARNINGS_ARE_ERRORS=ON', '-DCMAKE_INSTALL_PREFIX=/usr'])
        done(['cmake', '--build', to, '-j', self.jobs])
        self.program = to / 'lapd-monitor'

    def package(self):
        """Its Debian package: the names of the files in it."""
        need('dpkg-deb')
        done(['cpack', '-G', 'DEB'], cwd=self.work / 'cmake')
        package, = (self.work / 'cmake').glob('*.deb')
        return [line.split()[-1] for line in done(['dpkg-deb', '-c', package]).stdout.splitlines()]

    def generators(self):
        library = [self.work / 'lapd.o', self.work / 'lapd_malloc.o']
        for it in library:
            if not it.exists():
                done(['cc', '-O2', '-c', '-o', it, ROOT / 'dist' / (it.stem + '.c')])
        for name, files in GENERATORS.items():
            done(['cc', *STRICT_C, '-I%s' % (ROOT / 'dist'), '-o', self.work / name, *[HERE / it for it in files], *library])

    def hostile(self):
        """Over all parts but main.cc, with sanitizers, by another compiler if it is there; not the library."""
        parts = [it.stem for it in (ROOT / 'monitor' / 'src').glob('*.cc') if it.name != 'main.cc']
        self.with_parts('hostile', ['hostile.cc'], parts, 'clang++' if shutil.which('clang++') else 'c++', SANITIZED)

    def rows(self):
        self.with_parts('rows', ['rows.cc', 'cards.cc'], PARTS_OF_AN_END, 'c++', ['-O2'])

    def with_parts(self, name, files, parts, compiler, flags):
        """A program over parts of the monitor."""
        to = self.work / ('parts-' + name)
        to.mkdir(exist_ok=True)
        sources = [ROOT / 'monitor' / 'src' / (it + '.cc') for it in sorted(parts)] + [HERE / it for it in files]
        words = ' '.join([compiler, *STRICT_CC, *flags, '-isystem', str(ROOT / 'dist'), '-I%s' % (ROOT / 'monitor' / 'src')])
        makes = ['%s -c -o %s %s' % (words, to / (it.stem + '.o'), it) for it in sources]
        done(['xargs', '-d', '\n', '-P', self.jobs, '-I{}', 'sh', '-c', '{} || exit 255'], input='\n'.join(makes))
        library = [self.work / 'lapd.o', self.work / 'lapd_malloc.o']
        done([compiler, *flags, '-o', self.work / name, *to.glob('*.o'), *library, '-lpcap'])
