"""Watching: what each call of chosen functions takes."""
from dataclasses import dataclass
from typing import TYPE_CHECKING, Dict, List, Optional

if TYPE_CHECKING:
    from device.thumb.core import Core


@dataclass(frozen=True)
class Call:
    """A call from its function's first instruction to its return; stack counts from the stack pointer at that first instruction."""

    name: str
    instructions: int
    cycles: Optional[int]
    stack: int


@dataclass(frozen=True)
class Opened:
    """A call that has not returned yet, and the counts at its beginning."""

    place: int
    name: str
    back: int
    stack: int
    outer_lowest: int
    instructions: int
    cycles: int


class Watch:
    """The calls of the chosen functions, in the order in which they began."""

    def __init__(self, functions: Dict[int, str], timed: bool):
        self.functions = functions
        self.timed = timed
        self.opened: List[Opened] = []
        self.calls: List[Optional[Call]] = []
        # Where the innermost watched call returns to; -1, which is no address, where none is open.
        self.back = -1

    def enter(self, core: "Core", target: int, back: int) -> None:
        """A branch with link."""
        if target not in self.functions:
            return
        stack = core.registers[13]
        self.opened.append(Opened(len(self.calls), self.functions[target], back, stack, core.lowest, core.instructions, core.cycles))
        self.calls.append(None)
        self.back = back
        core.lowest = stack

    def arrive(self, core: "Core") -> None:
        """The program is where the innermost watched call returns to: it has, if the stack is as it was."""
        last = self.opened[-1]
        if core.registers[13] != last.stack:
            return
        self.opened.pop()
        cycles = core.cycles - last.cycles if self.timed else None
        self.calls[last.place] = Call(last.name, core.instructions - last.instructions, cycles, last.stack - core.lowest)
        core.lowest = min(core.lowest, last.outer_lowest)
        self.back = self.opened[-1].back if self.opened else -1

    def finished(self) -> List[Call]:
        return [call for call in self.calls if call]
