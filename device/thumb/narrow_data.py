"""Data processing in instructions of one half-word."""
from typing import Optional

from device.thumb.bits import WORD
from device.thumb.core import PROGRAM, STACK, Core
from device.thumb.decoding import Place, Row
from device.thumb.operations import (Execute, Operand, bytes_turned, bytes_turned_in_halves, changing, constant, logical, low_byte, low_half,
                                     low_half_turned, processing, register, shifted, shifted_by_register, sign_extended_byte,
                                     sign_extended_half, summing)

BY_REGISTER = ("and", "exclusive or", None, None, None, "add with carry", "subtract with carry", None,
               "and", None, "subtract", "add", "or", None, "and not", "move not")
SHIFT_KINDS = {2: 0, 3: 1, 4: 2, 7: 3}
ONLY_FLAGS = (8, 10, 11)
NEGATE = 9
MULTIPLY = 13
EXTENSIONS = (sign_extended_half, sign_extended_byte, low_half, low_byte)
TURNS = (bytes_turned, bytes_turned_in_halves, None, low_half_turned)


def shift(code: int, place: Place) -> Optional[Execute]:
    kind, amount, source, target = code >> 11, code >> 6 & 31, code >> 3 & 7, code & 7
    if kind == 0 and amount == 0 and place.in_block:
        return None
    return logical("move", target, target, shifted(source, kind, amount), not place.in_block)


def add_or_subtract(code: int, place: Place) -> Execute:
    name = "subtract" if code & 0x200 else "add"
    number, left, target = code >> 6 & 7, code >> 3 & 7, code & 7
    right = constant(number) if code & 0x400 else register(number)
    return summing(name, target, left, right, not place.in_block)


def with_byte(code: int, place: Place) -> Execute:
    name = ("move", "subtract", "add", "subtract")[code >> 11 & 3]
    number, compares = code >> 8 & 7, code >> 11 & 3 == 1
    return processing(name, None if compares else number, number, constant(code & 0xFF), compares or not place.in_block)


def by_register(code: int, place: Place) -> Execute:
    operation, source, target = code >> 6 & 15, code >> 3 & 7, code & 7
    sets_flags = not place.in_block
    if operation in SHIFT_KINDS:
        return logical("move", target, target, shifted_by_register(target, SHIFT_KINDS[operation], source), sets_flags)
    if operation == NEGATE:
        return summing("subtract from", target, source, constant(0), sets_flags)
    if operation == MULTIPLY:
        return multiply(target, source, sets_flags)
    if operation in ONLY_FLAGS:
        return processing(BY_REGISTER[operation], None, target, register(source), True)
    return processing(BY_REGISTER[operation], target, target, register(source), sets_flags)


def multiply(target: int, source: int, sets_flags: bool) -> Execute:

    def execute(core: Core) -> None:
        result = core.registers[target] * core.registers[source] & WORD
        core.registers[target] = result
        if sets_flags:
            core.set_result(result)

    return execute


def with_any_register(code: int, place: Place) -> Optional[Execute]:
    """An addition, comparison or move that reaches the upper registers too and, but for the comparison, sets no flags."""
    operation, source, target = code >> 8 & 3, code >> 3 & 15, code & 7 | code >> 4 & 8
    if operation == 1:
        low, outside = source < 8 and target < 8, PROGRAM in (source, target)
        return None if low or outside else summing("subtract", None, target, register(source), True)
    right = constant(place.ahead) if source == PROGRAM else register(source)
    if target == PROGRAM:
        return to_program(right, place.ahead if operation == 0 else 0) if source != PROGRAM else None
    return processing("add" if operation == 0 else "move", target, target, right, False)


def to_program(right: Operand, added: int) -> Execute:

    def execute(core: Core) -> None:
        core.branch(right(core)[0] + added & WORD & ~1)
        core.cycles += 1

    return execute


def address_of(code: int, place: Place) -> Execute:
    target, offset = code >> 8 & 7, (code & 0xFF) * 4
    if code & 0x800:
        return summing("add", target, STACK, constant(offset), False)
    return logical("move", target, target, constant(place.base + offset), False)


def move_stack(code: int, place: Place) -> Execute:
    return summing("subtract" if code & 0x80 else "add", STACK, STACK, constant((code & 0x7F) * 4), False)


def extend(code: int, place: Place) -> Execute:
    return changing(EXTENSIONS[code >> 6 & 3], code & 7, code >> 3 & 7)


def turn_bytes(code: int, place: Place) -> Optional[Execute]:
    turned = TURNS[code >> 6 & 3]
    return changing(turned, code & 7, code >> 3 & 7) if turned else None


ROWS = (
    Row(0xF800, 0x1800, add_or_subtract, 1),
    Row(0xE000, 0x0000, shift, 1),
    Row(0xE000, 0x2000, with_byte, 1),
    Row(0xFC00, 0x4000, by_register, 1),
    Row(0xFF00, 0x4400, with_any_register, 1),
    Row(0xFF00, 0x4500, with_any_register, 1),
    Row(0xFF00, 0x4600, with_any_register, 1),
    Row(0xF000, 0xA000, address_of, 1),
    Row(0xFF00, 0xB000, move_stack, 1),
    Row(0xFF00, 0xB200, extend, 1),
    Row(0xFF00, 0xBA00, turn_bytes, 1),
)
