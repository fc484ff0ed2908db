"""Playing: sessions on a processor, beside the lines that are expected of them, and what each kind of event takes there."""
from dataclasses import dataclass
from pathlib import Path
from typing import Dict, Iterable, List, Optional, Tuple

from device import qemu
from device.building import Player
from device.reference import random_session
from device.thumb.calls import Call
from device.thumb.faults import Fault
from device.thumb.running import Run, run
from people.answers import ACCEPTED, BAD_RECORD
from people.composing import compose
from people.leaving import written_out
from people.playing import Step, pair

# A session's name, its records, and the lines that are expected of it.
Session = Tuple[str, bytes, str]
STEP = "gustlantern_raw_step"
FRESH = "gustlantern_raw_fresh"


@dataclass(frozen=True)
class Played:
    """A session with what is expected of it, what came of it unless it stopped at a fault, and how that differs."""

    name: str
    records: bytes
    lines: List[str]
    run: Optional[Run]
    difference: str


@dataclass(frozen=True)
class Most:
    """How many calls there were, and the most that one of them took of each."""

    calls: int
    instructions: int
    cycles: Optional[int]
    stack: int


def first_difference(written: str, expected: str) -> str:
    found, wanted = written.splitlines(), expected.splitlines()
    for place in range(max(len(found), len(wanted))):
        pair_of_lines = [lines[place] if place < len(lines) else "nothing" for lines in (found, wanted)]
        if pair_of_lines[0] != pair_of_lines[1]:
            return f"line {place + 1} is '{pair_of_lines[0]}', expected '{pair_of_lines[1]}'"
    return ""


def play(player: Player, name: str, records: bytes, expected: str) -> Played:
    """Plays a session in the interpreter, and in qemu where that is installed, and compares all that it writes."""
    program, lines = player.program_of(records, name), expected.splitlines()
    wanted = "\n".join(written_out(records, lines))
    try:
        ended = run(program, player.target.processor)
    except Fault as fault:
        return Played(name, records, lines, None, str(fault))
    difference = first_difference(ended.text, wanted)
    if not difference and qemu.installed():
        difference = first_difference(qemu.written(program, player.target), wanted)
        difference = difference and f"in {qemu.PROGRAM} {difference}"
    return Played(name, records, lines, ended, difference)


def by_hand(session: Path) -> Session:
    """A session of the test set, with the lines that stand beside it."""
    records = compose(session.read_text(encoding="utf-8"))
    return session.stem, records, session.with_suffix(".lines").read_text(encoding="utf-8")


def at_random(number: int) -> Session:
    """A random session, with the reference's lines."""
    return (f"random-{number}", *random_session(number))


def kind_of(step: Step) -> str:
    if step.answer == BAD_RECORD:
        return "bad record"
    name = type(step.content).__name__.lower()
    return name if step.answer == ACCEPTED else f"{name}, refused"


def kinds_of_calls(played: Played) -> List[Tuple[str, Call]]:
    """Each call of the library in a session that went as expected, with the kind of its event and whether it was accepted."""
    steps = iter(pair(played.records, played.lines).steps)
    found = []
    for call in played.run.calls:
        if call.name == STEP:
            found.append((kind_of(next(steps)), call))
        elif call.name == FRESH:
            found.append(("fresh", call))
    return found


def most(calls: List[Call]) -> Most:
    cycles = [call.cycles for call in calls if call.cycles is not None]
    return Most(len(calls), max(call.instructions for call in calls), max(cycles) if cycles else None, max(call.stack for call in calls))


def most_by_kind(all_played: Iterable[Played]) -> Dict[str, Most]:
    """The most that a call took, for each kind of event."""
    calls: Dict[str, List[Call]] = {}
    for played in all_played:
        for kind, call in kinds_of_calls(played):
            calls.setdefault(kind, []).append(call)
    return {kind: most(calls[kind]) for kind in sorted(calls)}
