"""What the manual lapd(3) says of each call, in its table of all calls."""
import re
from typing import Dict, List, NamedTuple, Set

CELLS = r"T\{\n(lapd_\w+)\(((?:[^T]|T(?!\}))*)\)\nT\}\tT\{\n((?:[^T]|T(?!\}))*)\nT\}\t(\w+)\t(\w+)\n"


class Row(NamedTuple):
    """A call, its words, what it answers besides LAPD_OK, and whether an interrupt handler may make it; what becomes of memory."""
    name: str
    words: str
    answers: str
    interrupt: str
    memory: str


def table_of_calls(page: str) -> List[Row]:
    """The rows of the table; none where anything in it is no row."""
    page = page.replace("\\:", "")  # a place where a long name may go on in the next line
    table = re.search(r"^\.TS\n.*?^_\n(.*?)^\.TE$", page, re.M | re.S)
    if not table or re.sub(CELLS, "", table[1]):
        return []
    return [Row(*(" ".join(it.split()) for it in row)) for row in re.findall(CELLS, table[1])]


def statuses_of(answers: str, numbers: Dict[str, int]) -> Set[int]:
    """The numbers of what a call answers: statuses, two of them with all between, and each refusal."""
    found: Set[int] = set()
    for it in answers.split(", "):
        if it == "each refusal":
            found |= {number for name, number in numbers.items() if name.startswith("LAPD_REFUSED_")}
        else:
            first, _, last = it.partition(" to ")
            found |= set(range(numbers[f"LAPD_{first}"], numbers[f"LAPD_{last or first}"] + 1))
    return found
