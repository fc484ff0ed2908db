"""Cores with a few instructions in flash, for tests of single instructions."""
import struct
from typing import Dict, Optional

from device.thumb.calls import Watch
from device.thumb.core import Core
from device.thumb.memory import RAM_START, Memory
from device.thumb.processors import CORTEX_M0_PLUS, CORTEX_M3, Processor

CODE = 0x100
STACK_TOP = RAM_START + 0x1000
DATA = RAM_START + 0x40


def core_of(*half_words: int, processor: Processor = CORTEX_M0_PLUS, registers: Optional[Dict[int, int]] = None, flags: str = "",
            functions: Optional[Dict[int, str]] = None) -> Core:
    """A core that stands before the given instructions, with some registers, and with the flags whose letters are given set."""
    vectors = struct.pack("<II", STACK_TOP, CODE | 1)
    flash = vectors.ljust(CODE, b"\0") + struct.pack(f"<{len(half_words)}H", *half_words)
    core = Core(Memory(flash), processor.decode, Watch(functions or {}, processor.timed))
    for number, value in (registers or {}).items():
        core.registers[number] = value
    core.negative, core.zero, core.carry, core.overflow = (int(letter in flags) for letter in "nzcv")
    return core


def m3_core_of(*half_words: int, **settings) -> Core:
    return core_of(*half_words, processor=CORTEX_M3, **settings)


def stepped(core: Core, steps: int = 1) -> Core:
    for _ in range(steps):
        core.step()
    return core


def flags_of(core: Core) -> str:
    return "".join(letter for letter, flag in zip("nzcv", (core.negative, core.zero, core.carry, core.overflow)) if flag)
