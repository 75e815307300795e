"""What rows of wrong machines are tried over, and which the prover refuted over just that, for tests/wrong-machines and
tests/reading."""
from days import days_in
from definitions import read
from rows import ROOT, ROWS, Fault, parts_of, proof_of, shared_part, text_of_law
from sums import Sums
from vithrynel.crates import uses

# When each row was refuted last: its name, the day, and a sum of what it was tried over.
LAST = f"{ROWS}/last.days"


def sums_of(rows):
    """Returns for each row a sum of what it is tried over: its changes, laws and proofs, and the definitions that these reach."""
    crates, found = uses(), {}
    sums = Sums(f"{ROOT}/crates", crates)
    for row in rows:
        proofs = [proof_of(crates, it) for it in row.claims]
        texts = [*map(text_of_law, row.claims), *proofs, *map(shared_part, parts_of(proofs))]
        try:
            found[row.name] = sums.sum_of(texts, row.changed(sums.texts).items())
        except Fault:
            # (it does not fit: --stands tells why)
            found[row.name] = ""
    return found


def refuted_as_they_are(rows):
    """Returns the rows that were refuted over the definitions as they are."""
    told, sums = days_in(read(LAST)), sums_of(rows)
    return [it for it in rows if told.get(it.name, [""])[1:] == [sums[it.name]]]
