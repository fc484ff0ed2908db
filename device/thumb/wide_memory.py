"""Loads and stores in instructions of two half-words."""
from typing import Optional

from device.thumb.bits import WORD
from device.thumb.core import LINK, PROGRAM, STACK, Core
from device.thumb.decoding import Place, Row
from device.thumb.operations import Execute
from device.thumb.transfers import Transfer, listed, loading, several, storing


def single_transfer(code: int) -> Optional[Transfer]:
    """What moves one register, by an instruction's bits for its size, its sign and its direction."""
    loads, sign_extends, size, number = bool(code & 0x100000), bool(code & 0x1000000), 1 << (code >> 21 & 3), code >> 12 & 15
    if size == 8 or number == STACK or sign_extends and (size == 4 or not loads):
        return None
    if number == PROGRAM and not (loads and size == 4):
        return None
    return loading(number, size, sign_extends) if loads else storing(number, size)


def with_offset(transfer: Transfer, base: int, offset: int, before: bool = True, keeps: bool = False) -> Execute:
    """A transfer at a register's address, the offset added before it or only behind it; the register may keep the sum."""

    def execute(core: Core) -> None:
        start = core.registers[base]
        moved = start + offset & WORD
        transfer(core, moved if before else start)
        if keeps:
            core.registers[base] = moved

    return execute


def from_program(transfer: Transfer, address: int) -> Execute:
    return lambda core: transfer(core, address & WORD)


def single(code: int, place: Place) -> Optional[Execute]:
    """One register: from the program, at an offset of twelve bits, at an offset that is kept, or at a register's offset."""
    transfer, base = single_transfer(code), code >> 16 & 15
    if transfer is None:
        return None
    if base == PROGRAM:
        offset = code & 0xFFF if code & 0x800000 else -(code & 0xFFF)
        return from_program(transfer, place.base + offset) if code & 0x100000 else None
    if code & 0x800000:
        return with_offset(transfer, base, code & 0xFFF)
    if code & 0x800:
        return single_indexed(code, transfer, base)
    return single_by_register(code, transfer, base) if code & 0xFC0 == 0 else None


def single_indexed(code: int, transfer: Transfer, base: int) -> Optional[Execute]:
    before, adds, keeps = bool(code & 0x400), bool(code & 0x200), bool(code & 0x100)
    unprivileged, unaligned = before and adds and not keeps, base == STACK and code & 3
    if unprivileged or not (before or keeps) or keeps and (base == code >> 12 & 15 or unaligned):
        return None
    return with_offset(transfer, base, code & 0xFF if adds else -(code & 0xFF), before, keeps)


def single_by_register(code: int, transfer: Transfer, base: int) -> Optional[Execute]:
    index, shift = code & 15, code >> 4 & 3

    def execute(core: Core) -> None:
        transfer(core, core.registers[base] + (core.registers[index] << shift) & WORD)

    return None if index in (STACK, PROGRAM) else execute


def double(code: int, place: Place) -> Optional[Execute]:
    """Two registers at an offset of words."""
    before, adds, keeps, loads = (bool(code & bit) for bit in (0x1000000, 0x800000, 0x200000, 0x100000))
    base, numbers, offset = code >> 16 & 15, [code >> 12 & 15, code >> 8 & 15], (code & 0xFF) * (4 if adds else -4)
    clash = loads and numbers[0] == numbers[1] or keeps and base in numbers
    if not (before or keeps) or clash or STACK in numbers or PROGRAM in numbers:
        return None
    transfer = several([(loading if loads else storing)(number, 4) for number in numbers])
    if base == PROGRAM:
        return from_program(transfer, place.base + offset) if loads and not keeps else None
    return with_offset(transfer, base, offset, before, keeps)


def multiple(code: int, place: Place) -> Optional[Execute]:
    """Several registers, upwards from an address or up to just below it."""
    upwards, keeps, loads = (bool(code & bit) for bit in (0x800000, 0x200000, 0x100000))
    base, numbers = code >> 16 & 15, listed(code & 0xFFFF)
    clash = keeps and base in numbers or PROGRAM in numbers and (LINK in numbers or not loads)
    if len(numbers) < 2 or clash or STACK in numbers or base == PROGRAM:
        return None
    transfer, length = several([(loading if loads else storing)(number, 4) for number in numbers]), 4 * len(numbers)

    def execute(core: Core) -> None:
        start = core.registers[base]
        moved = start + (length if upwards else -length) & WORD
        transfer(core, start if upwards else moved)
        if keeps:
            core.registers[base] = moved

    return execute


ROWS = (
    Row(0xFFC00000, 0xE8800000, multiple),
    Row(0xFFC00000, 0xE9000000, multiple),
    Row(0xFE400000, 0xE8400000, double),
    Row(0xFE000000, 0xF8000000, single),
)
