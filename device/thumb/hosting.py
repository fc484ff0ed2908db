"""Semihosting: what a program asks of the computer that runs it."""
from typing import TYPE_CHECKING, List

from device.thumb.faults import Fault

if TYPE_CHECKING:
    from device.thumb.core import Core

BREAKPOINT = 0xAB
WRITE = 0x04
EXIT = 0x18
ENDED_WELL = 0x20026


class Host:
    """Collects what is written, until the program ends."""

    def __init__(self) -> None:
        self.parts: List[str] = []
        self.ended = False
        self.well = False

    def ask(self, core: "Core") -> None:
        request, argument = core.registers[0], core.registers[1]
        if request == WRITE:
            self.parts.append(core.memory.text(argument))
        elif request == EXIT:
            self.ended, self.well = True, argument == ENDED_WELL
        else:
            raise Fault(f"the program asks its host for {request:#x}, which is neither to write nor to end")
