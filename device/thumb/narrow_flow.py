"""Branches and what else changes the flow, in instructions of one half-word."""
from typing import Optional

from device.thumb import bits
from device.thumb.core import PROGRAM, Core
from device.thumb.decoding import Place, Row
from device.thumb.hosting import BREAKPOINT
from device.thumb.operations import Execute

ALWAYS = 14
NEVER = 15


def branch_if(code: int, place: Place) -> Optional[Execute]:
    condition, target = code >> 8 & 15, place.ahead + 2 * bits.signed(code, 8)
    if condition in (ALWAYS, NEVER) or place.in_block:
        return None

    def execute(core: Core) -> None:
        if core.holds(condition):
            core.branch(target)
            core.cycles += 1

    return execute


def branch(code: int, place: Place) -> Execute:
    target = place.ahead + 2 * bits.signed(code, 11)
    return lambda core: core.branch(target)


def branch_to_register(code: int, place: Place) -> Optional[Execute]:
    number, links, back = code >> 3 & 15, code & 0x80, place.address + 2
    if code & 7 or number == PROGRAM:
        return None

    def execute(core: Core) -> None:
        core.branch_by_address(core.registers[number])

    def execute_with_link(core: Core) -> None:
        target = core.registers[number]
        core.branch_by_address(target)
        core.branch_with_link(target & ~1, back)

    return execute_with_link if links else execute


def breakpoint_of_host(code: int, place: Place) -> Optional[Execute]:
    return (lambda core: core.host.ask(core)) if code & 0xFF == BREAKPOINT else None


def nothing(code: int, place: Place) -> Execute:
    return lambda core: None


def compare_and_branch(code: int, place: Place) -> Optional[Execute]:
    number, wanted = code & 7, bool(code & 0x800)
    target = place.ahead + 2 * (code >> 3 & 31 | code >> 4 & 32)

    def execute(core: Core) -> None:
        if bool(core.registers[number]) == wanted:
            core.branch(target)

    return None if place.in_block else execute


def conditional_block(code: int, place: Place) -> Optional[Execute]:
    """IT: the conditions of up to four instructions that follow; each bit above the lowest set one is one more of them."""
    first, mask = code >> 4 & 15, code & 15
    count = 4 - ((mask & -mask).bit_length() - 1)
    conditions = [first] + [first & 14 | mask >> (4 - place_in_block) & 1 for place_in_block in range(1, count)]
    if first == NEVER or NEVER in conditions or place.in_block:
        return None

    def execute(core: Core) -> None:
        core.block = list(conditions)

    return execute


ROWS = (
    Row(0xF000, 0xD000, branch_if, 1),
    Row(0xF800, 0xE000, branch, 2),
    Row(0xFF00, 0x4700, branch_to_register, 2),
    Row(0xFF00, 0xBE00, breakpoint_of_host, 1),
    Row(0xFFFF, 0xBF00, nothing, 1),
)

# What a Cortex-M3 knows besides: all other codes that begin with BF and have a mask are IT.
MORE_ROWS = (
    Row(0xF500, 0xB100, compare_and_branch),
    Row(0xFF0F, 0xBF00, lambda code, place: None),
    Row(0xFF00, 0xBF00, conditional_block),
)
