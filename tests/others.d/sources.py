"""Where others' sources come from: Debian's packages, fetched once into a cache outside the repository. For tests/others.

The packages of sources are named by a list of apt's own, which lies in the cache: the machine's configuration stays as it is.
Of Linux alone the files that are needed are kept."""
import os
import pathlib
import re
import shutil
import subprocess
import tempfile
from typing import NamedTuple

CACHE = pathlib.Path(os.environ.get('XDG_CACHE_HOME') or pathlib.Path.home() / '.cache') / 'vithrynel' / 'others'
KEYS = '/usr/share/keyrings/debian-archive-keyring.gpg'
OF_LINUX = 'drivers/isdn/mISDN', 'include/linux/mISDNif.h'
STACKS = ('misdn', 'linux-source'), ('libpri', 'libpri'), ('lapd_core', 'libosmocore')


class NotThere(Exception):
    """A source can't be fetched."""


class Source(NamedTuple):
    """A stack's name, the name and version of its package, and the folder."""
    stack: str
    version: str
    folder: pathlib.Path


def said(*command, **more):
    """What a command writes, or NotThere."""
    try:
        ran = subprocess.run(list(map(str, command)), stdout=subprocess.PIPE, stderr=subprocess.STDOUT, encoding='utf-8',
                             timeout=600, **more)
    except (FileNotFoundError, subprocess.TimeoutExpired) as fault:
        raise NotThere(str(fault)) from fault
    if ran.returncode:
        raise NotThere('%s: %s' % (command[0], (ran.stdout.splitlines() or ['status %d' % ran.returncode])[-1]))
    return ran.stdout


def in_cache(stack):
    """A source that was fetched."""
    for folder in sorted(CACHE.glob(stack + '=*')):
        return Source(stack, folder.name.partition('=')[2], folder)
    return None


class Apt:
    """apt with lists of its own, in a folder: those of the machine that name Debian, for packages and for their sources."""

    def __init__(self, folder):
        (folder / 'lists' / 'partial').mkdir(parents=True)
        (folder / 'archives' / 'partial').mkdir(parents=True)
        targets = said('apt-get', 'indextargets', '--format', '$(REPO_URI) $(RELEASE)', 'Created-By: Packages').splitlines()
        known = sorted({it for it in targets if 'debian' in it})
        if not known:
            raise NotThere('apt-get knows no list of Debian')
        signed = '[signed-by=%s] ' % KEYS if os.path.exists(KEYS) else ''
        lines = ['%s %s%s main\n' % (kind, signed, it) for it in known for kind in ('deb', 'deb-src')]
        (folder / 'sources.list').write_text(''.join(lines), encoding='utf-8')
        self.options = ['-o', 'APT::Sandbox::User=root', '-o', 'Acquire::Retries=3', '-o', 'Dir::Etc::sourceparts=-',
                        '-o', 'Dir::Etc::sourcelist=%s' % (folder / 'sources.list'),
                        '-o', 'Dir::State::Lists=%s' % (folder / 'lists'), '-o', 'Dir::Cache=%s' % folder]
        self.get(folder, 'update')

    def get(self, work, *words):
        said('apt-get', '-q', *self.options, *words, cwd=work)

    def newest_linux(self):
        """The name of the package that has the sources of the newest kernel."""
        names = re.findall(r'Depends: (linux-source-\S+)', said('apt-cache', *self.options, 'depends', 'linux-source'))
        if not names:
            raise NotThere('there is no linux-source')
        return names[0]


def linux(apt, work):
    """Fetches Linux' sources, and leaves what is needed in a folder."""
    name = apt.newest_linux()
    apt.get(work, 'download', name)
    package = next(work.glob('*.deb'))
    members = ' '.join('%s/%s' % (name, it) for it in OF_LINUX)
    said('bash', '-c', 'set -o pipefail; dpkg-deb --fsys-tarfile "$0" | tar -xO "./usr/src/$1.tar.xz" | tar -xJ ' + members,
         package, name, cwd=work)
    return work / name, package.name.rpartition('_')[0]


def debian(apt, package, work):
    """Fetches a package of sources, and leaves them in a folder."""
    apt.get(work, 'source', '--download-only', package)
    archive, description = next(work.glob('*.orig.tar.*')), next(work.glob('*.dsc'))
    said('tar', '-xf', archive, cwd=work)
    return next(it for it in work.iterdir() if it.is_dir() and it.name.startswith(package)), description.name[:-len('.dsc')]


def fetch(apt, stack, package, work):
    """Fetches a source into the cache."""
    work.mkdir()
    folder, version = linux(apt, work) if package == 'linux-source' else debian(apt, package, work)
    try:
        os.rename(folder, CACHE / ('%s=%s' % (stack, version)))
    except OSError:
        # another run was quicker
        shutil.rmtree(folder)


def sources(tell):
    """The sources that there are, by stack; those that are not in the cache are fetched into it. Of one that can't be it is told
    why."""
    missing = [(stack, package) for stack, package in STACKS if in_cache(stack) is None]
    if missing:
        CACHE.mkdir(parents=True, exist_ok=True)
        with tempfile.TemporaryDirectory(dir=CACHE) as name:
            fetch_all(missing, pathlib.Path(name), tell)
    return {stack: in_cache(stack) for stack, _ in STACKS if in_cache(stack)}


def fetch_all(missing, work, tell):
    try:
        apt = Apt(work / 'apt')
    except NotThere as fault:
        for stack, _ in missing:
            tell(stack, fault)
        return
    for stack, package in missing:
        try:
            fetch(apt, stack, package, work / stack)
        except NotThere as fault:
            tell(stack, fault)
