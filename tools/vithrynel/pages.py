"""Pages of docs/ that are taken elsewhere: a link to what is not taken with them is none there."""
import re
from typing import Set

BEGIN = """\
Pages that are named without a link, as MACHINE.md, are in docs/ of the repository.
"""


def taken(text: str, there: Set[str]) -> str:
    """A page for a place where these files are."""
    text = re.sub(r"\[([^]]+)\]\(([^)#]+)[^)]*\)", lambda it: it[0] if it[2] in there else it[1], text)
    head, _, rest = text.partition("\n\n")
    return f"{head}\n\n{BEGIN}\n{rest}"
