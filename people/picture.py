"""Drawing as a picture: the timeline as the text of an SVG file."""
from html import escape
from typing import Iterable, List, Optional, Set, Tuple

from people.answers import ACCEPTED
from people.following import Claim, State
from people.sections import WHOLE, Section, Shown
from people.timeline import MARKS, Cell, Column, Row, label, rows_of
from people.wording import say

# Without a range, the events of a picture; and the pixels each way up to which viewers show one.
MOST_EVENTS = 400
MOST_PIXELS = 32000
COLUMN = 30
LINE = 22
BAR = 14
# More letters than these are squeezed into their column.
WIDE_WORDS = 4
LEFT = 215
MARGIN = 12
LEGEND_WIDTH = 560
COLOURS = {State.WAITS: "#dddddd", State.TURN: "#8fd19e", State.LET_GO: "#a9cdf0", State.SPOILED: "#f19a9a"}
# The lines beside those of objects and rows: the two of the heading, the sentence with the lines around it, and the legend.
OTHER_LINES = 5 + len(COLOURS) + len(MARKS)


def picture(columns: Iterable[Column], section: Section = WHOLE) -> Tuple[str, str]:
    """The whole SVG file, of as many columns as a viewer can show, and which events are left out of it."""
    taken: List[Column] = []
    rows: Set[Claim] = set()
    shown, full = Shown(section), False
    for column in columns:
        if column.shown and not full:
            full = not fits(len(taken) + 1, rows.union(column.cells))
        takes = column.shown and not full
        shown.see(column.step.number, takes)
        if takes:
            taken.append(column)
            rows.update(column.cells)
    shown.check()
    return sheet(taken, rows, shown.left_out()), shown.left_out()


def fits(columns: int, rows: Set[Claim]) -> bool:
    return max(size(columns, rows)) <= MOST_PIXELS


def size(columns: int, rows: Set[Claim]) -> Tuple[int, int]:
    """The width and the height of a picture."""
    lines = OTHER_LINES + len(rows) + len({claim.object_number for claim in rows})
    return max(LEFT + COLUMN * columns + MARGIN, LEGEND_WIDTH), MARGIN * 2 + LINE * lines


def sheet(columns: List[Column], claims: Set[Claim], left_out: str) -> str:
    width, height = size(len(columns), claims)
    body = heading(columns)
    line = 2
    last_object: Optional[int] = None
    for row in rows_of(columns):
        if row.claim.object_number != last_object:
            last_object = row.claim.object_number
            body.append(text(MARGIN, line, f"object {last_object}", "bold"))
            line += 1
        body += bars(row, line)
        line += 1
    body += [text(MARGIN, line + 1, left_out)] if left_out else []
    body += legend(line + 2)
    head = (f'<svg xmlns="http://www.w3.org/2000/svg" width="{width}" height="{height}" '
            f'viewBox="0 0 {width} {height}" font-family="sans-serif" font-size="12">')
    return "\n".join([head, f'<rect width="{width}" height="{height}" fill="white"/>'] + body + ["</svg>"]) + "\n"


def heading(columns: List[Column]) -> List[str]:
    """The events' numbers, which tell the event when pointed at, and the refusals."""
    parts = [text(MARGIN, 0, "event", "bold"), text(MARGIN, 1, "refused", "bold")]
    for place, column in enumerate(columns):
        step = column.step
        number = centred(place, 0, str(step.number))
        parts.append(f"<g><title>{escape(say(step.content))}</title>{number}</g>")
        if step.answer != ACCEPTED:
            parts.append(centred(place, 1, str(step.answer)))
    return parts


def bars(row: Row, line: int) -> List[str]:
    """One row: its name, how it stands, and its marks over that."""
    parts = [text(MARGIN * 2, line, label(row.claim))]
    for column, cell in row.cells.items():
        parts += halves(column, line, cell)
    return parts + [centred(column, line, cell.mark, "bold") for column, cell in row.cells.items() if cell.mark]


def halves(column: int, line: int, cell: Cell) -> List[str]:
    """The state before an event up to the middle of its column, and the state after it behind."""
    left = LEFT + COLUMN * column
    sides = [(left, cell.before), (left + COLUMN // 2, cell.after)]
    return [box(place, line, COLUMN // 2, COLOURS[state]) for place, state in sides if state]


def legend(line: int) -> List[str]:
    parts = []
    for place, (state, colour) in enumerate(COLOURS.items(), line):
        parts += [box(MARGIN, place, COLUMN, colour), text(MARGIN * 2 + COLUMN, place, state.value)]
    for place, (sign, words) in enumerate(MARKS.items(), line + len(COLOURS)):
        parts += [text(MARGIN * 2, place, sign, "bold"), text(MARGIN * 2 + COLUMN, place, words)]
    return parts


def box(left: int, line: int, width: int, colour: str) -> str:
    top = MARGIN + LINE * line + (LINE - BAR) // 2
    return f'<rect x="{left}" y="{top}" width="{width}" height="{BAR}" fill="{colour}"/>'


def text(left: int, line: int, words: str, weight: str = "normal") -> str:
    return f'<text x="{left}" y="{baseline(line)}" font-weight="{weight}">{escape(words)}</text>'


def centred(column: int, line: int, words: str, weight: str = "normal") -> str:
    middle = LEFT + COLUMN * column + COLUMN // 2
    squeezed = f' textLength="{COLUMN - 2}" lengthAdjust="spacingAndGlyphs"' if len(words) > WIDE_WORDS else ""
    return (f'<text x="{middle}" y="{baseline(line)}" text-anchor="middle" '
            f'font-weight="{weight}"{squeezed}>{escape(words)}</text>')


def baseline(line: int) -> int:
    return MARGIN + LINE * line + (LINE + BAR) // 2 - 3
