"""The judge: what ends of lines and processes of a server wrote down of numbered messages, and what is wrong with it.

- From a line: what is granted comes to the server, and what comes for the first time comes in order. It may come again to another
  association, if one of both became active or ended soon after it was sent; and to the same, if that became active again. It may be
  missing if the end of the line was told that its link gave it up; and, if the gateway was killed or its server came too late, if
  its link was released or established then.
- To a line: what a process sends comes once and in order. It may be missing if the process was told something of that line soon
  after it; or if its association ended soon after it, and nothing came that was sent between.
- Nothing comes that was not sent."""
import bisect
import collections

SPOILED = 30  # a message after which nothing is told any more
TOLD_SECONDS = 12  # N200 + 1 times T200, and what waits on a link
ABOUT_ALL = ("ended", "replaced", "killed", "stopped")
Row = collections.namedtuple("Row", "moment event line source number octets")


def rows_of(path):
    """The rows of a record. What was cut off as a process was killed is none."""
    with open(path, encoding="ascii") as file:
        words = [line.split() for line in file if line.endswith("\n")]
    return [Row(int(it[0]), it[1], *map(int, it[2:])) for it in words]


class Verdict:
    """Faults, each of a kind; and what was counted."""

    def __init__(self):
        self.faults = []
        self.counts = collections.Counter()

    def fault(self, kind, *what):
        self.faults.append((kind, *what))

    def __str__(self):
        kinds = collections.Counter(it[0] for it in self.faults)
        counts = ", ".join(f"{name} {value}" for name, value in sorted(self.counts.items()))
        return f"{counts}; faults: {dict(kinds) or 'none'}" + "".join(f"\n    {it}" for it in self.faults[:5])


def by_line(rows, event):
    found = collections.defaultdict(list)
    for row in rows:
        if row.event == event:
            found[row.line].append(row)
    return found


def follows(moments, moment, seconds):
    """Whether one of these moments is soon after that moment."""
    at = bisect.bisect_left(moments, moment)
    return at < len(moments) and moments[at] - moment < seconds * 1e6


def associations(record):
    """The rows of one process by associations, each with the moments at which it became active, or ended."""
    found = [[]]
    for row in record:
        if row.event == "joined":
            found.append([])
        found[-1].append(row)
    return [([it.moment for it in rows if it.event in ("active", "ended", "killed", "stopped")], rows) for rows in found]


def told_of_line(ends, line, is_release_told):
    """What the end of a line was told to have been given up, and when its link changed."""
    given_up, changes = set(), []
    for row in ends:
        if row.line == line and row.event == "given-up":
            given_up.update(range(row.number - row.octets + 1, row.number + 1))
        elif row.line == line and row.event in ("up", "down", "cut") and is_release_told:
            changes.append(row.moment)
    return given_up, changes


def judge_up(verdict, ends, records, is_release_told):
    """Messages from the ends of lines."""
    sent, actives = by_line(ends, "sent"), {}
    arrived = collections.defaultdict(list)  # by line: moment, number, octets, association
    for name, record in enumerate(records):
        for at, (active, rows) in enumerate(associations(record)):
            last, actives[name, at] = {}, active
            for row in rows:
                if row.event == "active":
                    last = {}
                if row.event != "came" or row.source != 0:
                    continue
                if row.number <= last.get(row.line, 0):
                    verdict.fault("twice" if row.number == last[row.line] else "order", "up", row)
                last[row.line] = max(row.number, last.get(row.line, 0))
                arrived[row.line].append((row.moment, row.number, row.octets, (name, at)))
    for line in set(sent) | set(arrived):
        when = {row.number: row.moment for row in sent[line]}
        first = of_line(verdict, line, when, sorted(arrived[line]), actives)
        given_up, changes = told_of_line(ends, line, is_release_told)
        for number, moment in when.items():
            if number not in first:
                verdict.counts["missing, told"] += 1
                if number not in given_up and not follows(changes, moment, TOLD_SECONDS):
                    verdict.fault("missing", "up", line, number)


def of_line(verdict, line, when, arrived, actives):
    """What arrived of a line whose messages were sent then; where each came first."""
    first, greatest = {}, 0
    for moment, number, octets, association in arrived:
        verdict.counts["came up"] += 1
        if number not in when:
            verdict.fault("invented", "up", line, number)
        elif number in first:
            verdict.counts["twice"] += 1
            verdict.counts["octets twice"] += octets
            before, other = first[number]
            changes = sorted(actives[association] + actives[other])
            is_again = any(before < it <= moment for it in actives[association])
            if (other == association and not is_again) or not follows(changes, when[number], TOLD_SECONDS):
                verdict.fault("twice", "up", line, number)
        else:
            first[number] = moment, association
            if number < greatest:
                verdict.fault("order", "up", line, number, greatest)
            greatest = max(greatest, number)
    return first


def judge_down(verdict, ends, records):
    """Messages of the processes."""
    came = collections.defaultdict(list)
    for row in ends:
        if row.event == "came" and row.source != 0:
            came[row.source, row.line].append(row)
    over = next((row.moment for row in ends if row.event == "over"), float("inf"))  # what is told then is of the end of the run
    for record in records:
        told, ended = collections.defaultdict(list), []
        for row in record:
            if row.moment >= over:
                break
            if row.event in ("up", "down", "error"):
                told[row.line].append(row.moment)
            elif row.event in ABOUT_ALL:
                ended.append(row.moment)
        for line, sent in by_line(record, "sent").items():
            of_source(verdict, line, sent, came.pop((sent[0].source, line), []), told[line], ended)
    for (source, line), rows in came.items():
        verdict.fault("invented", "down", source, line, rows[0].number)


def of_source(verdict, line, sent, came, told, ended):
    when = {row.number: row.moment for row in sent}
    last, seen = 0, set()
    for row in came:
        verdict.counts["came down"] += 1
        if row.number not in when:
            verdict.fault("invented", "down", row)
        elif row.number in seen:
            verdict.fault("twice", "down", row)
        elif row.number < last:
            verdict.fault("order", "down", row)
        seen.add(row.number)
        last = max(last, row.number)
    for number, moment in when.items():
        if number not in seen:
            verdict.counts["missing, told"] += 1
            if not follows(told, moment, TOLD_SECONDS) and not is_last_before(ended, moment, number, when, seen):
                verdict.fault("missing", "down", line, sent[0].source, number)


def is_last_before(ended, moment, number, when, seen):
    """Whether the association ended soon after that moment, and nothing that was sent from then to its end came."""
    at = bisect.bisect_left(ended, moment)
    if at == len(ended) or ended[at] - moment > TOLD_SECONDS * 1e6:
        return False
    return not any(it in seen for it in range(number + 1, max(when) + 1) if when.get(it, ended[at]) < ended[at])


def judged(ends, records, is_release_told=False):
    """The verdict over the rows of the ends, and of each process."""
    verdict = Verdict()
    judge_up(verdict, ends, records, is_release_told)
    judge_down(verdict, ends, records)
    return verdict


# ---- Records that are spoiled ------------------------------------------------------------------------------------------

def changed(rows, at, row):
    return [*rows[:at], *[row] * (row is not None), *rows[at + 1:]]


def spoiled(ends, records):
    """Records with one fault each, and the kinds of faults of which one has to be told."""
    up = next((which, at) for which, rows in enumerate(records) for at, row in enumerate(rows)
              if row.event == "came" and row.source == 0 and row.number > SPOILED)
    rows, (which, at) = records[up[0]], up
    row = rows[at]

    def with_rows(new):
        return ends, [*records[:which], new, *records[which + 1:]]
    yield "a message that did not come to the server", ("missing",), with_rows(changed(rows, at, None))
    yield "a message twice to the server", ("twice",), with_rows([*rows[:at + 1], row, *rows[at + 1:]])
    yield "a message that was never sent, at the server", ("invented",), with_rows(changed(rows, at, row._replace(number=10 ** 6)))
    later = next(it for it in range(at + 1, len(rows)) if rows[it].event == "came" and rows[it].line == row.line
                 and rows[it].source == 0)
    swapped = changed(changed(rows, at, row._replace(number=rows[later].number)), later, rows[later]._replace(number=row.number))
    yield "two messages in another order, at the server", ("order",), with_rows(swapped)
    at, row = next((at, row) for at, row in enumerate(ends) if row.event == "came" and row.number > SPOILED)
    yield "a message that did not come to a line", ("missing",), (changed(ends, at, None), records)
    yield "a message twice to a line", ("twice",), ([*ends[:at + 1], row, *ends[at + 1:]], records)
    yield "a message of nobody, at a line", ("invented",), (changed(ends, at, row._replace(source=999)), records)
    later = next(it for it in range(at + 1, len(ends)) if ends[it][1:4] == row[1:4])
    swapped = changed(changed(ends, at, row._replace(number=ends[later].number)), later, ends[later]._replace(number=row.number))
    yield "two messages in another order, at a line", ("order",), (swapped, records)
