"""A session as it is played: the records of its events beside the lines of the bench program."""
import re
from dataclasses import dataclass
from itertools import chain
from typing import Iterable, Iterator, Union

from people.answers import ACCEPTED, BAD_RECORD, REFUSALS
from people.layout import CALL_NAMES, OBJECTS, SLOTS, Call, EndRecord, Fresh, Record, Release, Start
from people.reading import Fault, Piece, read_run

LINE = re.compile(r"([0-9]{1,20}) ([0-9]{1,3}) ([0-9]{1,10})")


class Unpaired(Exception):
    """Lines that are not those of the session's events."""


@dataclass(frozen=True)
class Step:
    """One line of the program, the record it is about, and the place behind that record."""

    line: str
    number: int
    answer: int
    value: int
    content: Union[Record, Fault]
    end: int

    def stops(self) -> bool:
        return self.number == 0 or stops(self.content)


@dataclass(frozen=True)
class Played:
    """What the tables begin with, a step for each line as it comes, and the records as far as they are known before."""

    fresh: Fresh
    steps: Iterator[Step]
    records: bytes = b""
    begins: bool = True


# What the tables of a session that does not begin are taken to be.
NOT_BEGUN = Fresh(0, (0,) * OBJECTS)


def pair(records: bytes, lines: Iterable[str]) -> Played:
    """Puts each line beside its event."""
    return play(read_run([records]), lines, records)


def play(pieces: Iterator[Piece], lines: Iterable[str], records: bytes = b"") -> Played:
    """Puts each line beside its piece; line 0 is about the first record, whose place is before all events."""
    first = next(pieces)
    if isinstance(first.content, Fresh):
        return Played(first.content, steps(pieces, iter(lines), 1), records)
    return Played(NOT_BEGUN, steps(chain([first], pieces), iter(lines), 0), records, False)


def steps(pieces: Iterator[Piece], lines: Iterator[str], number: int) -> Iterator[Step]:
    """A step for each piece up to the one at which the program stops; a line too few or too many belongs to no session."""
    for piece in pieces:
        line = next(lines, None)
        if line is None:
            raise Unpaired(f"the program's output is cut short: event {number} has no line")
        step = paired(line, number, piece)
        yield step
        number += 1
        if step.stops():
            break
    more = next(lines, None)
    if more is not None:
        raise Unpaired(f"'{more}' is the line of no event of this session")


def paired(line: str, number: int, piece: Piece) -> Step:
    found = LINE.fullmatch(line)
    if not found or int(found[1]) != number:
        raise Unpaired(f"'{line}' is not the line of event {number} of this session")
    step = Step(line, number, int(found[2]), int(found[3]), piece.content, piece.end())
    if not fits(step):
        raise Unpaired(f"'{line}' has no number that event {number} can get back")
    return step


def whole(records: bytes, lines: Iterable[str]) -> Iterator[str]:
    """The lines as they come; behind the last it is said if there are fewer or more than the session's."""
    printed = 0
    for line in lines:
        yield line
        printed += 1
    due = lines_due(records)
    if printed != due:
        raise Unpaired(f"the program printed {printed} of {due} lines" + (": its output is cut short" if printed < due else ""))


def lines_due(records: bytes) -> int:
    """How many lines a session has: one for each event, and one where the program stops."""
    pieces = read_run([records])
    if not isinstance(next(pieces).content, Fresh):
        return 1
    due = 0
    for piece in pieces:
        due += 1
        if stops(piece.content):
            break
    return due


def stops(content: Union[Record, Fault]) -> bool:
    """Whether the program stops at what stands in the place of an event."""
    return isinstance(content, (Fault, Fresh, EndRecord))


def fits(step: Step) -> bool:
    """Whether the answer is one of the table, and the only one where no event can be read; a refusal has no value."""
    if step.answer == ACCEPTED:
        return not step.stops() and within(step.content)
    return step.value == 0 and (step.answer == BAD_RECORD if step.stops() else step.answer in REFUSALS)


def within(event: Record) -> bool:
    """Whether an event keeps to the pump's sizes, without which none is accepted."""
    objects = [number for number, _ in event.pairs] if isinstance(event, Start) else \
        [event.object_number] if isinstance(event, (Call, Release)) else []
    known = not isinstance(event, Call) or event.call_kind < len(CALL_NAMES)
    return event.slot < SLOTS and all(number < OBJECTS for number in objects) and known
