"""The calls of include/lapd.h, for `tests/reading --calls`: what each is, and its contract.

Each is an export of crates/lapd_c. Its contract has the record of its kind (KINDS), which says what such a call comes to,
and at most MOST clauses of its own; those of ALONE have only these. What a call asks for is the first argument of its
record: of an event that is its word in specs/Asked.antt, of a question the machine's word in specs/QuestionWords.antt. That
record must be the one that stands in RECORDS, applied to what the call was given and what it leaves. Its own clauses must be
those in tests/calls.txt, word for word: a call and a clause on a line, and below it what the clause says. A call requires nothing
but that its handle is one, and no two of its clauses have one name."""
import re
import sys

from promised import clauses_of
from specs import CRATES, ROOT

HEADER = ROOT / 'include' / 'lapd.h'
OWN_CLAUSES = ROOT / 'tests' / 'calls.txt'
PROTOTYPE = re.compile(r'^(?:LAPD_STATUS|uint32_t) (lapd_\w+)\(', re.MULTILINE)
EXPORT = re.compile(r'^pub extern "C" fn (lapd_\w+)\((?:.|\n)*?\) -> u32\n((?:.*\n)*?)\{\n', re.MULTILINE)
# The records, and what a call is that has one.
KINDS = {'Called': 'event', 'IsCallOf': 'several events', 'IsMomentCall': 'expiry of what is due first', 'Questioned': 'question',
         'IsQuestion': 'question', 'IsCardStart': 'start', 'IsTimedStart': 'start', 'IsClockStart': 'start of a clock',
         'IsFreed': 'end', 'IsTimersCall': 'lengths of timers', 'IsClockCall': 'event of a clock', 'IsCardSave': 'save',
         'IsCardRestore': 'start of the card of an image', 'IsClockSave': 'save of a clock',
         'IsClockRestore': 'start of the clock of an image'}
# The record of each call, up to the handle before and after it, its status, and what is written.
RECORDS = {
    'lapd_card_start': 'IsCardStart kinds.Octets config.now',
    'lapd_card_start_frames': 'IsCardStart kinds.Frames config.now',
    'lapd_card_start_timed': 'IsTimedStart kinds.Octets config.now lengths.now',
    'lapd_card_start_frames_timed': 'IsTimedStart kinds.Frames config.now lengths.now',
    'lapd_card_free': 'IsFreed IsHandle card_of status.no_card',
    'lapd_card_save': 'IsCardSave',
    'lapd_card_restore': 'IsCardRestore image.now',
    'lapd_card_set_lengths': 'IsTimersCall',
    'lapd_octet': 'Called (octet_asked line octet)',
    'lapd_pull': 'Called (pull_asked line)',
    'lapd_frame': 'Called (frame_asked line octets.now)',
    'lapd_frame_failed': 'Called (failed_asked line cause)',
    'lapd_next_frame': 'Called (next_frame_asked line (length out.old))',
    'lapd_expire': 'Called (expire_asked line timer.now)',
    'lapd_request': 'Called (request_asked line request service tei contents.now)',
    'lapd_exchange': 'IsCallOf of_octets line None',
    'lapd_fall_due': 'IsMomentCall',
    'lapd_next_moment': 'IsQuestion of_any',
    'lapd_now': 'IsQuestion of_any',
    'lapd_changed_at': 'IsQuestion of_any',
    'lapd_next_link': 'IsQuestion of_any',
    'lapd_counters': 'IsQuestion of_any',
    'lapd_link_counters': 'Questioned of_any (Some line) (link_counters_of line service tei)',
    'lapd_next_waiting': 'Questioned of_frames None (waiting_from from)',
    'lapd_begun': 'Questioned of_octets (Some line) (begun_of line)',
    'lapd_heard': 'Questioned of_octets (Some line) (heard_of line)',
    'lapd_begun_frame': 'Questioned of_octets (Some line) (begun_frame_of line out.old)',
    'lapd_heard_frame': 'Questioned of_octets (Some line) (heard_frame_of line out.old)',
    'lapd_state': 'Questioned of_any (Some line) (state_of line service tei)',
    'lapd_room': 'Questioned of_any (Some line) (room_of line service tei)',
    'lapd_stored': 'Questioned of_any None stored_of',
    'lapd_limit': 'Questioned of_any None limit_of',
    'lapd_lines': 'Questioned of_any None lines_of',
    'lapd_clock_start': 'IsClockStart config.now',
    'lapd_clock_set_lengths': 'IsClockCall (lengths_status (lengths_given t200 t203 t201 t202))'
                              ' (after_lengths (lengths_given t200 t203 t201 t202))',
    'lapd_clock_apply': 'IsClockCall (λ c. apply_status c line (order_in order.now) now)'
                        ' (λ c. after_apply c line (order_in order.now) now)',
    'lapd_clock_apply_report': 'IsClockCall (λ c. report_status c line report.now now) (λ c. after_report c line report.now now)',
    'lapd_clock_due': 'IsClockCall (λ c. timer_status (due_at c now)) (λ c. after_due c now)',
    'lapd_clock_next': 'IsClockCall (λ c. timer_status (next_moment c)) (λ c. c)',
    'lapd_clock_free': 'IsFreed IsHandle clock_of status.no_clock',
    'lapd_clock_save': 'IsClockSave',
    'lapd_clock_restore': 'IsClockRestore image.now',
}
LEAVES = re.compile(r' handle\.old handle\.new result(?: (\w+)\.old \1\.new| \((\w+)\.old, (\w+)\.old\) \(\2\.new, \3\.new\))?')
ALONE = 'lapd_version', 'lapd_frame_read', 'lapd_frame_text', 'lapd_image_octets'
REQUIRES = {'{ IsHandle handle.old }'}
MOST = 3
ASKS = re.compile(r'\(?(?:of_\w+ )?(?:\(Some line\) |None )?\(?(\w+_(?:asked|of|from))\b')


def exports():
    """The exports by name, each with its clauses."""
    found = {}
    for path in sorted((CRATES / 'lapd_c' / 'src').glob('*.rt')):
        for name, contract in EXPORT.findall(path.read_text(encoding='utf-8')):
            found[name] = clauses_of(contract)
            if len(found[name]) != contract.count('ensures'):
                sys.exit('reading: %s has two clauses of one name' % name)
            if set(re.findall(r'requires\*? ?(.*)', contract)) != (REQUIRES if name not in ALONE else set()):
                sys.exit('reading: %s requires something else than that its handle is one' % name)
    return found


def own_clauses():
    """What tests/calls.txt says of each call: its own clauses, by their names."""
    found, text = {}, OWN_CLAUSES.read_text(encoding='utf-8')
    for head, body in re.findall(r'^(lapd_\w+ \w+)\n((?:    .*\n)+)', text, re.MULTILINE):
        found[tuple(head.split())] = ' '.join(body.split())
    return found


def check_own(there):
    """Stops unless the own clauses of all calls are those of tests/calls.txt."""
    said, written = own_clauses(), {}
    for name, clauses in there.items():
        written.update({(name, clause or 'it'): ' '.join(text.split()) for clause, text in clauses.items() if text.split()[0] not in KINDS})
    for name, clause in sorted(said.keys() | written.keys()):
        if said.get((name, clause)) != written.get((name, clause)):
            sys.exit('reading: tests/calls.txt: %s has another clause %s: %s' % (name, clause, written.get((name, clause), 'none')))


def row_of(name, clauses):
    """A call: what it is, what it asks for, its record, and its other clauses."""
    records = [(clause, text.split()[0]) for clause, text in clauses.items() if text.split()[0] in KINDS]
    if len(records) != (name not in ALONE):
        sys.exit('reading: %s has %d records: %s' % (name, len(records), ', '.join(it for _, it in records)))
    own = [clause or 'it' for clause in clauses if clause not in [it for it, _ in records]]
    if len(own) > MOST:
        sys.exit('reading: %s has %d clauses beside its record: %s' % (name, len(own), ', '.join(own)))
    if not records:
        return name, 'alone', '', '', own
    clause, record = records[0]
    text = ' '.join(clauses[clause].split())
    if not text.startswith(RECORDS.get(name, '-')) or not LEAVES.fullmatch(text[len(RECORDS[name]):]):
        sys.exit('reading: %s has another record than RECORDS of tests/calls_table.py says: %s' % (name, text))
    asks = ASKS.match(clauses[clause].split(None, 1)[1])
    return name, KINDS[record], asks.group(1) if asks else '', record, own


def calls():
    """The table of the calls, in the order of the header."""
    named, there = PROTOTYPE.findall(HEADER.read_text(encoding='utf-8')), exports()
    for name in sorted(set(named) ^ set(there)):
        sys.exit('reading: %s is %s' % (name, 'no export of lapd_c' if name in named else 'not in include/lapd.h'))
    rows = [row_of(name, there[name]) for name in named]
    check_own(there)
    return ['|Call|What it is|What it asks for|Record|Other clauses|', '|---|---|---|---|---|'] + [
        '|`%s`|%s|%s|%s|%s|' % (name, kind, '`%s`' % asks if asks else '', '`%s`' % record if record else '',
                                ', '.join('`%s`' % it for it in own)) for name, kind, asks, record, own in rows]
