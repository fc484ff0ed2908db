"""The timeline: a row for each transaction at each of its objects, a column for each event."""
from dataclasses import dataclass, field
from typing import Dict, Iterable, Iterator, List, Optional

from people.answers import ACCEPTED, DOOMED, WAIT
from people.following import Claim, Effect, Followed, State
from people.layout import Call, Commit, End, Release, Rollback, Start
from people.playing import Played, Step
from people.sections import WHOLE, Section

STARTS, CALLS, LETS_GO, WAITS, IS_REFUSED_AS_DOOMED, IS_REFUSED = "s", "o", ">", "w", "x", "?"
IS_SPOILED, COMMITS, RESTORES, ROLLS_BACK = "!", "C", "R", "r"

# What the marks mean, in the order in which a legend gives them.
MARKS = {
    STARTS: "starts",
    CALLS: "calls",
    LETS_GO: "lets go: by a release, or by the call that reaches the supremum",
    WAITS: "is refused, 10: has to wait",
    IS_REFUSED_AS_DOOMED: "is refused, 9: doomed",
    IS_REFUSED: "is refused otherwise",
    IS_SPOILED: "is spoiled by another's rollback",
    COMMITS: "commits",
    RESTORES: "rolls back and puts the word back",
    ROLLS_BACK: "rolls back with nothing to put back here",
}


@dataclass(frozen=True)
class Cell:
    """A row at one event: how it stands before and after, and what happens, if anything."""

    before: Optional[State]
    mark: str
    after: Optional[State]


@dataclass(frozen=True)
class Column:
    """An event and the cells of all who are live there; one outside the section has none."""

    step: Step
    shown: bool
    cells: Dict[Claim, Cell] = field(default_factory=dict)


@dataclass
class Row:
    """A transaction at one of its objects; cells by the place of the column."""

    claim: Claim
    cells: Dict[int, Cell] = field(default_factory=dict)


def label(claim: Claim) -> str:
    return f"slot {claim.slot} version {claim.version}"


def trace(played: Played, section: Section = WHOLE) -> Iterator[Column]:
    """Follows a session as it is played, and in the section notes how every live transaction stands at every event."""
    followed = Followed(played.fresh.first_version)
    for step in played.steps:
        if step.number in section:
            before = followed.states()
            marks = marks_of(step, followed)
            after = followed.states()
            yield Column(step, True, {claim: Cell(before.get(claim), marks.get(claim, ""), after.get(claim))
                                      for claim in {**before, **after}})
        else:
            marks_of(step, followed)
            yield Column(step, False)


def rows_of(columns: Iterable[Column]) -> List[Row]:
    """The rows of some columns, by object and then by version."""
    rows: Dict[Claim, Row] = {}
    for place, column in enumerate(columns):
        for claim, cell in column.cells.items():
            rows.setdefault(claim, Row(claim)).cells[place] = cell
    return sorted(rows.values(), key=lambda row: (row.claim.object_number, row.claim.place))


def marks_of(step: Step, followed: Followed) -> Dict[Claim, str]:
    """What a step does to claims; an accepted event is followed on the way."""
    event = step.content
    if not isinstance(event, (Start, Call, Release, End)):
        return {}
    if step.answer != ACCEPTED:
        return {claim: refusal_mark(step.answer) for claim in refused_claims(step, followed)}
    effect = followed.accept(event)
    marks = {claim: accepted_mark(event, claim, effect) for claim in effect.claims}
    marks.update({claim: IS_SPOILED for claim in effect.spoiled})
    return marks


def refusal_mark(answer: int) -> str:
    return {WAIT: WAITS, DOOMED: IS_REFUSED_AS_DOOMED}.get(answer, IS_REFUSED)


def refused_claims(step: Step, followed: Followed) -> List[Claim]:
    """The claims at which a refused event failed, as far as it got to any."""
    event = step.content
    if isinstance(event, (Call, Release)):
        claim = followed.claim(event.slot, event.object_number)
        return [claim] if claim else []
    if isinstance(event, Start):
        return []
    claims = followed.claims_of(event.slot)
    if step.answer == DOOMED:
        return [claim for claim in claims if claim.spoiled]
    return [claim for claim in claims if followed.waits_to_end(claim)]


def accepted_mark(event: object, claim: Claim, effect: Effect) -> str:
    """The mark of an accepted event at one of its claims."""
    if isinstance(event, Start):
        return STARTS
    if isinstance(event, Commit):
        return COMMITS
    if isinstance(event, Rollback):
        return RESTORES if claim in effect.restored else ROLLS_BACK
    called = CALLS if isinstance(event, Call) else ""
    return called + (LETS_GO if claim in effect.let_go else "")
