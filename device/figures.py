"""Figures: what each function of the library takes on a processor, in situations that real events lead to."""
import re
import struct
from dataclasses import dataclass
from pathlib import Path
from typing import Dict, List, Tuple

from device.building import FOLDER, SUPPORT, Target, compile_c, compile_module, program
from device.thumb.calls import Call
from device.thumb.running import run

PROGRAM = FOLDER / "figures.c"
WATCHED = "gustlantern_raw_"
BEFORE = "before"
TABLES = "tables"
LINE = re.compile(r"(.+) (\d+) (\d+)")
# The number and the value of each situation. The words before the first comma are a function of the header.
EXPECTED: Dict[str, Tuple[int, int]] = {
    "fresh": (0, 0),
    "start, 1 object": (0, 0),
    "start, 24 objects": (0, 0),
    "call, refused with BadSlot": (1, 0),
    "call, refused with Wait": (10, 0),
    "call, first on its object, add": (0, 1231),
    "call, further, add": (0, 1233),
    "call, reaches the supremum, add": (0, 1240),
    "call, first on its object, spend too much, no supremum": (0, 0),
    "release, accepted": (0, 0),
    "release, refused with Wait": (10, 0),
    "commit, 24 objects, refused with Wait": (10, 0),
    "commit, 1 object": (0, 15),
    "commit, 24 objects": (0, 130),
    "commit, 24 objects, the last of 16 slots": (0, 130),
    "commit, 24 objects, let go uncalled and called by another slot": (0, 130),
    "rollback, 1 called object": (0, 15),
    "rollback, 24 called objects, no other slot live": (0, 130),
    "rollback, 24 called objects, 15 slots spoiled on each": (0, 130),
    "step, call, further, add": (0, 1236),
    "step, start, 24 objects": (0, 0),
    "step, rollback, 24 called objects, 15 slots spoiled on each": (0, 130),
    "came_first, 24 and 24 entries": (0, 1),
    "came_first, 24 and 13 entries, the longest search": (0, 1),
    "look_object": (0, 1230),
    "look_pair": (0, 0xFFFFFFF9),
    "marks_hold": (1, 0),
}
# The functions whose symbol in the library has another name than in the header.
SYMBOLS = {"look_object": "object", "look_pair": "pair"}


class Unexpected(Exception):
    """What a program did in place of what is expected of it."""


@dataclass(frozen=True)
class Figures:
    """What the situations take on a processor, the bytes of the tables, and those of the library's and the support functions' text."""

    calls: Dict[str, Call]
    tables: int
    text: int
    support: int

    @property
    def stack(self) -> int:
        return max(call.stack for call in self.calls.values())

    def cycles(self, function: str) -> int:
        """The most that a situation of a function takes."""
        return max(call.cycles for label, call in self.calls.items() if function_of(label) == function)


def function_of(label: str) -> str:
    return label.split(",")[0]


def parsed(line: str) -> Tuple[str, int, int]:
    found = LINE.fullmatch(line)
    if not found or found.group(1) not in {TABLES, BEFORE, *EXPECTED}:
        raise Unexpected(f"{PROGRAM.name} wrote '{line}'")
    return found.group(1), int(found.group(2)), int(found.group(3))


def check(label: str, answer: Tuple[int, int], call: Call) -> None:
    """Whether a call is of the function that its line tells of, and its answer is right; what comes before a situation is accepted."""
    function = function_of(label)
    right = answer[0] == 0 if label == BEFORE else answer == EXPECTED[label] and call.name == WATCHED + SYMBOLS.get(function, function)
    if not right:
        raise Unexpected(f"'{label}': {call.name} gave {answer}, expected {EXPECTED.get(label, 'acceptance')}")


def calls_of(lines: List[str], calls: List[Call]) -> Dict[str, Call]:
    """Each situation's call; every line is of one call, in their order."""
    written = [parsed(line) for line in lines]
    labels = [label for label, _, _ in written if label != BEFORE]
    if len(written) != len(calls) or len(labels) != len(EXPECTED):
        raise Unexpected(f"{PROGRAM.name} wrote {len(written)} lines of {len(calls)} calls and {len(labels)} of {len(EXPECTED)} situations")
    for (label, *answer), call in zip(written, calls):
        check(label, tuple(answer), call)
    found = {label: call for (label, _, _), call in zip(written, calls)}
    return {label: found[label] for label in EXPECTED}


def text_bytes(compiled: Path) -> int:
    """The sizes of all sections of an object whose names begin with .text."""
    data = compiled.read_bytes()
    first, = struct.unpack_from("<I", data, 32)
    size, count, names = struct.unpack_from("<HHH", data, 46)
    sections = [struct.unpack_from("<6I", data, place) for place in range(first, first + size * count, size)]
    start = sections[names][4]
    return sum(section[5] for section in sections if data.startswith(b".text", start + section[0]))


def figures(plain: Path, target: Target) -> Figures:
    """Compiles the library for size, leads it into all situations and measures it there."""
    library, support = compile_module(plain, target), compile_c(SUPPORT, target)
    ended = run(program([PROGRAM], target, others=[library]), target.processor, WATCHED)
    first, *lines = ended.text.splitlines() or [""]
    label, tables, _ = parsed(first)
    if label != TABLES or not ended.well:
        raise Unexpected(f"{PROGRAM.name} wrote '{first}' first, and then ended {'well' if ended.well else 'badly'}")
    return Figures(calls_of(lines, ended.calls), tables, text_bytes(library), text_bytes(support))
