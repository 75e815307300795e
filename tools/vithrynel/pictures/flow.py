"""The way of an octet, of a request and of what it leads to, through the crates; who owns what, and the machine of each."""
from typing import NamedTuple, Sequence, Tuple

from ..svg import Drawing

WIDTH, TOP, HIGH, GAP = 1090, 62, 62, 22
OCTET, REQUEST, ANSWER = "blue", "violet", "green"
COLUMNS = ((226, OCTET, "an octet comes"), (424, REQUEST, "layer 3 asks"), (622, ANSWER, "what it leads to"))


class Row(NamedTuple):
    """A part: its name and crate; what it does with an octet, with a request, and with the answer; what it owns, and its machine."""

    name: str
    crate: str
    does: Tuple[Sequence[str], Sequence[str], Sequence[str]]
    owns: Sequence[str]
    machine: str


ROWS = (
    Row("your program", "", (["lapd_octet"], ["lapd_data"], ["reads the report"]), ["the time, report and", "frame buffers"], ""),
    Row("calls of C", "lapd_c", (["tests card and line"], ["tests lengths"], ["fills lapd_report,", "tells who has room"]),
        ["which links wait", "for room"], "Called"),
    Row("timed card", "lapd_timed, lapd_clock", ([], [], ["starts and stops", "timers as ordered"]), ["the timers that run"], "model_timed"),
    Row("card", "lapd_card, lapd_count", (["to the line's port"], ["to the line"], ["counts what came", "and what is told"]),
        ["lines, counters, and", "the shelf (lapd_store)"], "model_card"),
    Row("port", "lapd_line, lapd_bits", (["ends a frame,", "or it does not"], [], []), ["the frame under way"], "model_bits"),
    Row("line", "lapd_line, lapd_frame", (["reads the frame,", "finds its link"], ["refused by the first", "row that holds?"], ["puts notes in order"]),
        ["TEIs, unit data"], "model_line"),
    Row("link; TEI management", "lapd_link, lapd_tei", (["the row of its state", "(lapd_link_steps)"], ["contents take a slot", "of the shelf"],
        ["an outcome: notes,", "contents, orders"]), ["state, numbers, flags,", "and what waits"], "model_link, model_teis"),
)


def upper(number: int) -> float:
    return TOP + number * (HIGH + GAP)


def words(draw: Drawing, x: float, y: float, rows: Sequence[str], ink: str) -> None:
    """One or two rows of words, in the middle of a box whose upper edge is at y."""
    for number, row in enumerate(rows):
        draw.text(x, y + (36 if len(rows) == 1 else 27 + 17 * number), row, ink, 12.5)


def box(draw: Drawing, number: int, row: Row) -> None:
    y = upper(number)
    draw.box(20, y, WIDTH - 40, HIGH, "paper" if row.crate else "on-amber", "ink" if row.crate else "amber", round=8)
    draw.text(32, y + (26 if row.crate else 36), row.name, size=13.5, bold=True)
    draw.text(32, y + 46, row.crate, "soft", 11.5, mono=True)
    words(draw, 806, y, row.owns, "soft")
    machines = row.machine.split(", ")
    for at, machine in enumerate(machines):
        draw.text(950, y + (36 if len(machines) == 1 else 27 + 17 * at), machine, "soft", 11.5, mono=True)
    for (x, ink, _), rows in zip(COLUMNS, row.does):
        words(draw, x + 26, y, rows, ink)


def way(draw: Drawing, x: float, ink: str, column: int) -> None:
    """The arrows of a column: from each part that does something to the next one that does; the answer goes up."""
    at = [number for number, row in enumerate(ROWS) if row.does[column] or (column < 2 and row.name == "timed card")]
    for one, other in zip(at, at[1:]):
        begin, end = upper(one) + HIGH - 12, upper(other) + 12
        draw.arrow([(x + 10, end), (x + 10, begin)] if column == 2 else [(x + 10, begin), (x + 10, end)], ink, 2.4)


def draw(_: str) -> str:
    """The picture."""
    it = Drawing(
        "The way of an octet and of a request",
        "From the program down: the calls of C, the timed card, the card, the port of a line, the line, and a link or TEI management. An "
        "octet goes through all of them, a request through all but the port. What it leads to goes up again, and is a report. Beside "
        "each part stands what it owns, and the machine that its contracts name.",
    )
    for x, ink, head in COLUMNS:
        it.text(x + 2, 46, head, ink, 13.5, bold=True)
    it.text(806, 46, "owns", "soft", 13.5, bold=True)
    it.text(950, 46, "its machine", "soft", 13.5, bold=True)
    for number, row in enumerate(ROWS):
        box(it, number, row)
    for column, (x, ink, _) in enumerate(COLUMNS):
        way(it, x, ink, column)
    return it.written(WIDTH, int(upper(len(ROWS))))
