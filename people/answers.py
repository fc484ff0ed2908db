"""The numbers a task can get back: their names, and the rule behind each in words."""
from people.layout import Call, Event, Release

ACCEPTED = 0
RELEASED = 8
DOOMED = 9
WAIT = 10
BAD_RECORD = 12

# Wait has two rules, by the event that is told to: see rule_of.
TURN_NEED = "it is not its turn there yet"
TERMINAL_NEED = "an earlier transaction on one of its objects has not ended"

REFUSALS = {
    1: ("BadSlot", "the slot is 16 or more"),
    2: ("BadObject", "the object is 24 or more"),
    3: ("BadList", "the list is empty, over 48 bytes, or not strictly rising"),
    4: ("Busy", "the slot is live already"),
    5: ("Idle", "the slot is not live"),
    6: ("NotDeclared", "the object is not in this transaction's list"),
    7: ("BadCall", "the kind is 4 or more"),
    RELEASED: ("Released", "it has let go of this object"),
    DOOMED: ("Doomed", "another's rollback has spoiled it, so only release and rollback are left to it"),
    WAIT: ("Wait", f"{TURN_NEED}, or {TERMINAL_NEED}"),
    11: ("NoRoom", "the buffer is shorter than the end record"),
    BAD_RECORD: ("BadRecord", "no event stands there"),
}


def rule_of(answer: int, event: Event) -> str:
    """The rule by which an event got its refusal."""
    if answer == WAIT:
        return TURN_NEED if isinstance(event, (Call, Release)) else TERMINAL_NEED
    return REFUSALS[answer][1]
