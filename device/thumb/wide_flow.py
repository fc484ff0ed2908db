"""Branches in instructions of two half-words."""
from typing import Optional

from device.thumb import bits
from device.thumb.bits import WORD
from device.thumb.core import PROGRAM, STACK, Core
from device.thumb.decoding import Place, Row
from device.thumb.narrow_flow import ALWAYS, nothing
from device.thumb.operations import Execute


def far_target(code: int, place: Place) -> int:
    """Where a far branch goes: two bits of its offset stand turned round unless the sign is set."""
    sign = code >> 26 & 1
    upper, lower = code >> 13 & 1 ^ sign ^ 1, code >> 11 & 1 ^ sign ^ 1
    offset = sign << 24 | upper << 23 | lower << 22 | (code >> 16 & 0x3FF) << 12 | (code & 0x7FF) << 1
    return place.ahead + bits.signed(offset, 25) & WORD


def branch_with_link(code: int, place: Place) -> Execute:
    target, back = far_target(code, place), place.address + 4
    return lambda core: core.branch_with_link(target, back)


def branch(code: int, place: Place) -> Execute:
    target = far_target(code, place)
    return lambda core: core.branch(target)


def branch_if(code: int, place: Place) -> Optional[Execute]:
    condition = code >> 22 & 15
    offset = (code >> 26 & 1) << 20 | (code >> 11 & 1) << 19 | (code >> 13 & 1) << 18 | (code >> 16 & 0x3F) << 12 | (code & 0x7FF) << 1
    target = place.ahead + bits.signed(offset, 21) & WORD
    if condition >= ALWAYS or place.in_block:
        return None

    def execute(core: Core) -> None:
        if core.holds(condition):
            core.branch(target)

    return execute


def table_branch(code: int, place: Place) -> Optional[Execute]:
    """A branch forward by twice what a table of bytes or half-words has at an index."""
    base, index, size = code >> 16 & 15, code & 15, 2 if code & 0x10 else 1
    if base == STACK or index in (STACK, PROGRAM):
        return None

    def execute(core: Core) -> None:
        table = place.ahead if base == PROGRAM else core.registers[base]
        core.branch(place.ahead + 2 * core.memory.load(table + core.registers[index] * size & WORD, size))

    return execute


LINK_ROW = Row(0xF800D000, 0xF000D000, branch_with_link, 3)

ROWS = (
    Row(0xF800D000, 0xF0009000, branch),
    Row(0xFFFFFFFF, 0xF3AF8000, nothing),
    Row(0xF800D000, 0xF0008000, branch_if),
    Row(0xFFF0FFE0, 0xE8D0F000, table_branch),
)
