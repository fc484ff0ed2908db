"""Loads and stores in instructions of one half-word."""
from typing import Optional

from device.thumb.bits import WORD
from device.thumb.core import LINK, PROGRAM, STACK, Core
from device.thumb.decoding import Place, Row
from device.thumb.operations import Execute
from device.thumb.transfers import Transfer, listed, loading, several, storing


def at_offset(transfer: Transfer, base: int, offset: int) -> Execute:

    def execute(core: Core) -> None:
        transfer(core, core.registers[base] + offset & WORD)

    return execute


def load_constant(code: int, place: Place) -> Execute:
    transfer, address = loading(code >> 8 & 7, 4), place.base + (code & 0xFF) * 4
    return lambda core: transfer(core, address)


def by_registers(code: int, place: Place) -> Execute:
    operation, index, base, number = code >> 9 & 7, code >> 6 & 7, code >> 3 & 7, code & 7
    transfer = (
        storing(number, 4), storing(number, 2), storing(number, 1), loading(number, 1, True),
        loading(number, 4), loading(number, 2), loading(number, 1), loading(number, 2, True),
    )[operation]

    def execute(core: Core) -> None:
        transfer(core, core.registers[base] + core.registers[index] & WORD)

    return execute


def by_offset(code: int, place: Place) -> Execute:
    size = {6: 4, 7: 1, 8: 2}[code >> 12]
    make = loading if code & 0x800 else storing
    return at_offset(make(code & 7, size), code >> 3 & 7, (code >> 6 & 31) * size)


def in_stack(code: int, place: Place) -> Execute:
    make = loading if code & 0x800 else storing
    return at_offset(make(code >> 8 & 7, 4), STACK, (code & 0xFF) * 4)


def pushed(code: int) -> int:
    """The list of a push; its ninth bit is the link register."""
    return code & 0xFF | (1 << LINK if code & 0x100 else 0)


def popped(code: int) -> int:
    """The list of a pop; its ninth bit is the program counter."""
    return code & 0xFF | (1 << PROGRAM if code & 0x100 else 0)


def push(code: int, place: Place) -> Optional[Execute]:
    numbers = listed(pushed(code))
    transfer = several([storing(number, 4) for number in numbers])

    def execute(core: Core) -> None:
        core.registers[STACK] = core.registers[STACK] - 4 * len(numbers) & WORD
        transfer(core, core.registers[STACK])

    return execute if numbers else None


def pop(code: int, place: Place) -> Optional[Execute]:
    numbers = listed(popped(code))
    transfer = several([loading(number, 4) for number in numbers])

    def execute(core: Core) -> None:
        transfer(core, core.registers[STACK])
        core.registers[STACK] = core.registers[STACK] + 4 * len(numbers) & WORD

    return execute if numbers else None


def multiple(code: int, place: Place) -> Optional[Execute]:
    """Several words from a register's address on; the register moves behind them unless it is itself loaded."""
    base, numbers, loads = code >> 8 & 7, listed(code & 0xFF), bool(code & 0x800)
    if not numbers or not loads and base in numbers[1:]:
        return None
    transfer = several([(loading if loads else storing)(number, 4) for number in numbers])

    def execute(core: Core) -> None:
        address = core.registers[base]
        transfer(core, address)
        if not loads or base not in numbers:
            core.registers[base] = address + 4 * len(numbers) & WORD

    return execute


def pop_cycles(code: int) -> int:
    return (3 if code & 0x100 else 1) + len(listed(popped(code)))


ROWS = (
    Row(0xF800, 0x4800, load_constant, 2),
    Row(0xF000, 0x5000, by_registers, 2),
    Row(0xF000, 0x6000, by_offset, 2),
    Row(0xF000, 0x7000, by_offset, 2),
    Row(0xF000, 0x8000, by_offset, 2),
    Row(0xF000, 0x9000, in_stack, 2),
    Row(0xFE00, 0xB400, push, lambda code: 1 + len(listed(pushed(code)))),
    Row(0xFE00, 0xBC00, pop, pop_cycles),
    Row(0xF000, 0xC000, multiple, lambda code: 1 + len(listed(code & 0xFF))),
)
