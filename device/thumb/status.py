"""Moves between a register and the flags, which both processors have in instructions of two half-words."""
from typing import Optional

from device.thumb.core import Core
from device.thumb.decoding import Place, Row
from device.thumb.faults import Fault
from device.thumb.operations import Execute
from device.thumb.wide_data import general

SATURATION = 1 << 27


def flags_to_register(code: int, place: Place) -> Optional[Execute]:
    target = code >> 8 & 15

    def execute(core: Core) -> None:
        core.registers[target] = core.negative << 31 | core.zero << 30 | core.carry << 29 | core.overflow << 28

    return execute if general(target) else None


def register_to_flags(code: int, place: Place) -> Optional[Execute]:
    source = code >> 16 & 15

    def execute(core: Core) -> None:
        value = core.registers[source]
        if value & SATURATION:
            raise Fault("a program sets the saturation flag, which is not kept here")
        core.negative, core.zero, core.carry, core.overflow = value >> 31, value >> 30 & 1, value >> 29 & 1, value >> 28 & 1

    return execute if general(source) else None


ROWS = (
    Row(0xFFFFF0FF, 0xF3EF8000, flags_to_register, 3),
    Row(0xFFF0FFFF, 0xF3808800, register_to_flags, 3),
)
