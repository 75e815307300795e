"""When each wrong body and each wrong machine was refused last, and over what: a line each, its name, the day, and a sum of what
it was tried over ('-' is a day for which no sum was written down). Before the sum stands 'by-hand:' if no clause refused it, and
an answer under proofs/ did not fit."""
import datetime
import fcntl

AS_THEY_ARE, BY_HAND, EARLIER, UNKNOWN, NEVER = KINDS = (
    "over the code and definitions as they are", "over these, as an answer under proofs/ did not fit", "over earlier ones",
    "over some that were not written down", "never")
# Before the sum of one that no clause refused, but an answer under proofs/.
HAND_WRITTEN = "by-hand:"


def read(path):
    with open(path, encoding="utf-8") as it:
        return it.read()


def days_in(text):
    """Returns for each name in the text of such a file the day and the sum."""
    return {line.split()[0]: line.split()[1:] for line in text.splitlines() if line and not line.startswith("#")}


def record(path, sums, names):
    """Writes down that these names, with their sums, were refused today. What is no name any more is left out."""
    today = datetime.date.today().isoformat()
    with open(path, "r+", encoding="utf-8") as it:
        # (two runs may write at a time)
        fcntl.flock(it, fcntl.LOCK_EX)
        text = it.read()
        told = {**days_in(text), **{name: [today, sum_of] for name, sum_of in sums.items()}}
        head = "".join(f"{line}\n" for line in text.splitlines() if line.startswith("#"))
        it.seek(0)
        it.write(head + "".join(f"{name} {' '.join(told[name])}\n" for name in sorted(told) if name in names))
        it.truncate()


def kind_of(told, name, sum_of):
    """Returns over what this name was refused last, if its sum is now this one."""
    day, over = told.get(name, ("", ""))
    if day and over == "-":
        return UNKNOWN
    now = {sum_of: AS_THEY_ARE, f"{HAND_WRITTEN}{sum_of}": BY_HAND}
    return now.get(over, EARLIER) if day else NEVER


def print_last(path, sums):
    """Prints when each of these names was refused last, and how many over what there is now."""
    told, count = days_in(read(path)), dict.fromkeys(KINDS, 0)
    for name in sums:
        kind = kind_of(told, name, sums[name])
        count[kind] += 1
        print(" ".join([f"{name}:", *told.get(name, [])[:1], kind]))
    print("; ".join(f"{number} {words}" for words, number in count.items() if number or words != BY_HAND))
