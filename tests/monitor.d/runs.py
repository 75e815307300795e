"""Runs of two ends, or of a bus, and what lapd-monitor says of them."""
import json
import subprocess
from typing import NamedTuple

ALARMS = ('not our table', 'fell silent', 'unlikely')


class Run(NamedTuple):
    """A run: what was drawn, what was tapped, and what is said of it."""

    drawn: dict
    text: str
    status: int
    told: list
    summary: dict
    fault: str

    def alarms(self, ends=('network', 'user'), of=ALARMS):
        return [it for it in self.told if it['verdict'] in of and it['end'] in ends]

    def wrong_readings(self, ends=('network', 'user')):
        """Ends of which the other reading is said to fit; and how many were decided at all."""
        wrong, decided = [], 0
        for end in self.summary['ends']:
            profile, annex_b = end['unexplained_by_profile_alone'], end['unexplained_by_annex_b_alone']
            if end['end'] in ends and profile != annex_b:
                decided += 1
                if (annex_b < profile) != (self.drawn.get('annexb') == '1'):
                    wrong.append(end)
        return wrong, decided


def tapped(program, seed, words):
    said = subprocess.run([str(program), str(seed), *words], capture_output=True, text=True, check=False)
    if said.returncode != 0:
        raise AssertionError('%s %s %s: %s' % (program, seed, ' '.join(words), said.stderr))
    return dict(it.split('=') for it in said.stderr.split()), said.stdout


def options(drawn, is_known=True, at_end=True):
    """The options by which lapd-monitor knows what was drawn."""
    words = ['--json']
    if is_known:
        words += ['--k', drawn['k'], '--n200', drawn['n200'], '--t200', drawn['t200'], '--t203', drawn['t203']]
    if at_end and drawn['tap'] in ('0', '100'):
        words += ['--tap', 'network' if drawn['tap'] == '0' else 'user']
    if drawn['down'] != '0' or drawn.get('restart', '0') != '0':
        words += ['--down']
    return words


def judged(monitor, words, text):
    said = subprocess.run([str(monitor), *words, '-'], input=text, capture_output=True, text=True, check=False)
    lines = [json.loads(it) for it in said.stdout.splitlines()]
    if said.returncode == 2 or not lines:
        raise AssertionError('lapd-monitor %s: %s' % (' '.join(words), said.stderr))
    return said.returncode, lines[:-1], lines[-1], said.stderr


def run(built, program, seed, words=(), is_known=True, at_end=True):
    drawn, text = tapped(built.work / program, seed, words)
    status, told, summary, fault = judged(built.program, options(drawn, is_known, at_end), text)
    return Run(drawn, text, status, told, summary, fault)


def in_words(told):
    return '%(time)s s, frame %(frame)d, TEI %(tei)d, %(end)s: %(verdict)s: %(sent)s: %(why)s' % told
