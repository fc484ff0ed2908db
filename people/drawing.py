"""Drawing as text: the timeline in letters, in bands that fit a page."""
from typing import Iterable, Iterator, List, Optional

from people.answers import ACCEPTED
from people.following import Claim, State
from people.sections import WHOLE, Section, Shown
from people.timeline import MARKS, Cell, Column, Row, label, rows_of

# Without a range, the events of a drawing.
MOST_EVENTS = 1000
PAGE_WIDTH = 120
LEAST_COLUMN = 3
REFUSED = "refused"
FILLS = {State.WAITS: ".", State.TURN: "=", State.LET_GO: "-", State.SPOILED: "~"}


def draw(columns: Iterable[Column], section: Section = WHOLE) -> Iterator[str]:
    """The lines of the drawing, each band as soon as it is full; then what is left out, and what the signs mean."""
    band, shown = Band(), Shown(section)
    try:
        for column in columns:
            shown.see(column.step.number, column.shown)
            if column.shown and not band.takes(column):
                yield from band.lines()
                band = Band()
                band.takes(column)
    except Exception:
        # What came is drawn, whatever cut it short.
        yield from band.lines()
        raise
    shown.check()
    yield from band.lines()
    if shown.left_out():
        yield from (shown.left_out(), "")
    yield from legend()


class Band:
    """Some columns of the drawing side by side, as many as fit the page."""

    def __init__(self):
        self.columns: List[Column] = []
        self.room = len(REFUSED) + 1
        self.width = LEAST_COLUMN

    def takes(self, column: Column) -> bool:
        """Takes a column if there is room for it, and for the names of its rows."""
        room = max([self.room] + [len(name(claim)) + 1 for claim in column.cells])
        width = max(self.width, len(str(column.step.number)) + 1)
        if self.columns and room + width * (len(self.columns) + 1) > PAGE_WIDTH:
            return False
        self.columns.append(column)
        self.room, self.width = room, width
        return True

    def lines(self) -> Iterator[str]:
        if not self.columns:
            return
        steps = [column.step for column in self.columns]
        refused = [str(step.answer) if step.answer != ACCEPTED else "" for step in steps]
        yield "event".ljust(self.room) + "".join(f"{step.number:>{self.width}}" for step in steps)
        yield (REFUSED.ljust(self.room) + "".join(f"{text:>{self.width}}" for text in refused)).rstrip()
        last_object: Optional[int] = None
        for row in rows_of(self.columns):
            if row.claim.object_number != last_object:
                last_object = row.claim.object_number
                yield f"object {last_object}"
            yield self.row_text(row)
        yield ""

    def row_text(self, row: Row) -> str:
        cells = "".join(cell_text(row.cells.get(place), self.width) for place in range(len(self.columns)))
        return (name(row.claim).ljust(self.room) + cells).rstrip()


def name(claim: Claim) -> str:
    return f"  {label(claim)}"


def cell_text(cell: Optional[Cell], width: int) -> str:
    """How the row stands up to the event, then the event's mark or how the row stands behind it."""
    if cell is None:
        return " " * width
    mark = cell.mark or fill(cell.after)
    return fill(cell.before) * (width - len(mark)) + mark


def fill(state: Optional[State]) -> str:
    return FILLS[state] if state else " "


def legend() -> List[str]:
    lines = [f"{sign}  {state.value}" for state, sign in FILLS.items()]
    return lines + [f"{sign}  {words}" for sign, words in MARKS.items()]
