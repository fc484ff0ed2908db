"""Explaining: what each line of the bench program means, in words."""
from typing import Iterator, List

from people.answers import ACCEPTED, BAD_RECORD, REFUSALS, rule_of
from people.following import Claim, Effect
from people.layout import Call, End, Release
from people.leaving import Left
from people.playing import Played, Step, Unpaired
from people.reading import Fault, read_run
from people.sections import WHOLE, Section, Shown
from people.wording import say, say_entries

# The room of a short line; a longer one moves the meanings from there on.
LEAST_ROOM = 7


def explain(played: Played, section: Section = WHOLE) -> Iterator[str]:
    """Each line of the program with its meaning beside it."""
    left, shown, room = Left(played.fresh), Shown(section), LEAST_ROOM
    for step in played.steps:
        said = meaning(step, left)
        shown.see(step.number, step.number in section)
        if step.number in section:
            room = max(room, len(step.line))
            yield f"{step.line:<{room}}  {said}{unplayed(step, played.records)}"
    shown.check()


def meaning(step: Step, left: Left) -> str:
    """What a line means; an accepted event is followed on the way."""
    said = say(step.content)
    if step.number == 0:
        return f"{said}; {refusal(step)}: a session begins with a fresh record, so the program stops"
    if step.stops():
        return f"{said}; {refusal(step)}: {REFUSALS[BAD_RECORD][1]}, so the program stops"
    if step.answer != ACCEPTED:
        return f"{said}; {refusal(step)}: {rule_of(step.answer, step.content)}"
    return "; ".join([said] + consequences(step, left.accept(step.content), left.words))


def refusal(step: Step) -> str:
    return f"refused, {step.answer} {REFUSALS[step.answer][0]}"


def unplayed(step: Step, records: bytes) -> str:
    """What stands behind the record at which the program stops."""
    rest = records[step.end:] if step.stops() else b""
    if not rest:
        return ""
    readable = sum(not isinstance(piece.content, Fault) for piece in read_run([rest])) if where_known(step) else 0
    named = f" with {counted(readable, 'record')}" if readable else ""
    return f"; behind it {counted(len(rest), 'byte')}{named} {'is' if len(rest) == 1 else 'are'} not played"


def where_known(step: Step) -> bool:
    """Whether something says where the record ends at which the program stops."""
    return not isinstance(step.content, Fault) or step.content.bytes_taken is not None


def counted(count: int, name: str) -> str:
    return f"{count} {name}" + ("" if count == 1 else "s")


def consequences(step: Step, effect: Effect, words: List[int]) -> List[str]:
    """What an accepted event answers and brings about, if its line follows from those before it."""
    event = step.content
    if step.value != effect.value or not effect.claims:
        raise Unpaired(f"'{step.line}' does not follow from the lines before it")
    if isinstance(event, Call):
        reached = [f"its supremum {claim.supremum} is reached, it lets go of object {claim.object_number}"
                   for claim in effect.let_go]
        return [call_answer(event, effect.value, words[event.object_number])] + reached
    if isinstance(event, Release):
        return []
    if isinstance(event, End):
        return [f"its end record of {effect.value} bytes: {say_versions(effect.claims)}"] + undone(effect, words)
    return [f"its private versions: {say_versions(effect.claims)}"]


def call_answer(call: Call, value: int, word: int) -> str:
    """The answer of a call and the word behind it, by the table of kinds."""
    if call.call_kind == 0:
        return f"the word is {word}"
    if call.call_kind in (1, 2):
        return f"the word is now {word}"
    return f"it was enough, {call.argument} is taken and {word} left" if value else f"it was not enough, the word stays {word}"


def undone(effect: Effect, words: List[int]) -> List[str]:
    """What a rollback puts back, and whom it spoils."""
    parts = []
    if effect.restored:
        parts.append("put back: " + ", ".join(f"object {claim.object_number} has {words[claim.object_number]} again"
                                              for claim in effect.restored))
    if effect.spoiled:
        parts.append("spoiled: " + ", ".join(f"slot {claim.slot} on object {claim.object_number}"
                                             for claim in effect.spoiled))
    return parts


def say_versions(claims: List[Claim]) -> str:
    return say_entries([(claim.object_number, claim.version) for claim in claims])
