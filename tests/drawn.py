"""Which wrong bodies a commit draws, for tests/wrong-bodies, and how many checks run side by side."""
import hashlib
import os
import re
import subprocess

from bodies import Edit

ROOT = os.path.dirname(os.path.dirname(os.path.abspath(__file__)))
# Of how many edits one is drawn, and how many of a crate.
ONE_IN, MOST_OF_A_CRATE = 20, 18
# What a check has to itself at most, in KB.
ROOM = 4 << 20


def drawn(crates, asked):
    """Returns what the commit that is checked out draws of these, by crate: the names of edits that one check tries."""
    # (where there is no commit, all draw the same)
    commit = subprocess.run(["git", "-C", ROOT, "rev-parse", "HEAD"], stdout=subprocess.PIPE, check=False).stdout.decode().strip()
    names = [(name, *at) for name, some in asked.items() for at in some if at[1].endswith(".edit")]
    names.sort(key=lambda it: hashlib.sha256(f"{commit} {it[0]}/{it[2].removesuffix('.edit')}".encode()).digest())
    left, found = -(-len(names) // ONE_IN), {}
    for name in dict.fromkeys(it[0] for it in names):
        batch = []
        for edit in (Edit(crates[name], *it[1:]) for it in names if it[0] == name):
            if len(batch) < min(left, MOST_OF_A_CRATE) and not edit.is_alone() and all(edit.goes_with(it) for it in batch):
                batch.append(edit)
        left -= len(batch)
        found.update({name: [it.label for it in batch]} if batch else {})
        if left == 0:
            break
    return found


def beside():
    """Returns how many checks run side by side: one processor is left to others, and each has room."""
    with open("/proc/meminfo", encoding="ascii") as file:
        free = int(re.search(r"MemAvailable: *(\d+)", file.read())[1])
    return max(1, min(len(os.sched_getaffinity(0)) - 1, free // ROOM))
