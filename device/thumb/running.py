"""Running: a linked program from reset to its end, and what it took."""
from dataclasses import dataclass
from pathlib import Path
from typing import List, Optional

from device.thumb.calls import Call, Watch
from device.thumb.core import Core
from device.thumb.elf import load
from device.thumb.faults import Fault
from device.thumb.memory import Memory
from device.thumb.processors import Processor

WATCHED = "gustlantern_"
LIMIT = 1_000_000_000


@dataclass(frozen=True)
class Run:
    """What a program wrote, whether it says that it ended well, what it took in all, and what each watched call took."""

    text: str
    well: bool
    instructions: int
    cycles: Optional[int]
    stack: int
    calls: List[Call]


def run(path: Path, processor: Processor, watched: str = WATCHED, limit: int = LIMIT) -> Run:
    """Runs a program and watches the functions whose names begin with the given word; faults are raised."""
    program = load(path)
    watch = Watch(program.named(watched), processor.timed)
    core = Core(Memory(program.flash), processor.decode, watch)
    try:
        core.run(limit)
    except Fault as fault:
        fault.written = "".join(core.host.parts)
        raise
    cycles = core.cycles if processor.timed else None
    return Run("".join(core.host.parts), core.host.well, core.instructions, cycles, core.top - core.lowest, watch.finished())
