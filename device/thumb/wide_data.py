"""Data processing in instructions of two half-words."""
from typing import Optional

from device.thumb import bits
from device.thumb.bits import WORD
from device.thumb.core import PROGRAM, STACK, Core
from device.thumb.decoding import Place, Row
from device.thumb.operations import (Execute, Operand, bytes_turned, bytes_turned_in_halves, changing, constant, logical, low_byte, low_half,
                                     low_half_turned, processing, shifted, shifted_by_register, sign_extended_byte, sign_extended_half,
                                     summing)

NAMES = {0: "and", 1: "and not", 2: "or", 3: "or not", 4: "exclusive or", 8: "add", 10: "add with carry", 11: "subtract with carry",
         13: "subtract", 14: "subtract from"}
# With the program counter as target these only set flags; with it as left side these two are a move.
ONLY_FLAGS = ("and", "exclusive or", "add", "subtract")
MOVES = {"or": "move", "or not": "move not"}
ON_STACK = ("add", "subtract")
EXTENSIONS = {0: sign_extended_half, 1: low_half, 4: sign_extended_byte, 5: low_byte}


def general(*numbers: int) -> bool:
    """Whether all are registers other than the stack pointer and the program counter."""
    return STACK not in numbers and PROGRAM not in numbers


def combining(code: int, right: Operand) -> Optional[Execute]:
    """The sum or logical combination that an instruction's bits name, of its left register and an operand."""
    name, sets_flags = NAMES.get(code >> 21 & 15), bool(code & 0x100000)
    left, target = code >> 16 & 15, code >> 8 & 15
    if name is None:
        return None
    if left == PROGRAM and name in MOVES and general(target):
        return logical(MOVES[name], target, 0, right, sets_flags)
    stack_allowed = left == STACK and name in ON_STACK
    if not general(left) and not stack_allowed:
        return None
    if target == PROGRAM and sets_flags and name in ONLY_FLAGS:
        return processing(name, None, left, right, True)
    if not general(target) and not (target == STACK and stack_allowed):
        return None
    return processing(name, target, left, right, sets_flags)


def constant_bits(code: int) -> int:
    """The twelve bits of a constant, which stand in three parts."""
    return code >> 15 & 0x800 | code >> 4 & 0x700 | code & 0xFF


def with_constant(code: int, place: Place) -> Optional[Execute]:
    found = bits.expanded(constant_bits(code))
    return combining(code, constant(*found)) if found else None


def shift_amount(code: int) -> int:
    return code >> 10 & 0x1C | code >> 6 & 3


def with_shifted(code: int, place: Place) -> Optional[Execute]:
    source = code & 15
    return combining(code, shifted(source, code >> 4 & 3, shift_amount(code))) if general(source) else None


def add_plain(code: int, place: Place) -> Optional[Execute]:
    """A sum with a constant of twelve plain bits, which sets no flags; of the program counter, it is an address."""
    name, left, target = "subtract" if code & 0xA00000 else "add", code >> 16 & 15, code >> 8 & 15
    if target == PROGRAM or target == STACK != left:
        return None
    if left == PROGRAM:
        offset = constant_bits(code)
        return logical("move", target, target, constant(place.base + (-offset if name == "subtract" else offset) & WORD), False)
    return summing(name, target, left, constant(constant_bits(code)), False)


def move_half(code: int, place: Place) -> Optional[Execute]:
    target, upper, value = code >> 8 & 15, code & 0x800000, code >> 4 & 0xF000 | constant_bits(code)

    def move_lower(core: Core) -> None:
        core.registers[target] = value

    def move_upper(core: Core) -> None:
        core.registers[target] = value << 16 | core.registers[target] & 0xFFFF

    if not general(target):
        return None
    return move_upper if upper else move_lower


def extract_field(code: int, place: Place) -> Optional[Execute]:
    source, target, lowest, width = code >> 16 & 15, code >> 8 & 15, shift_amount(code), (code & 31) + 1
    if not general(source, target) or lowest + width > 32:
        return None
    if code & 0x800000:
        return changing(lambda value: value >> lowest & (1 << width) - 1, target, source)
    return changing(lambda value: bits.extended(value >> lowest, width), target, source)


def insert_field(code: int, place: Place) -> Optional[Execute]:
    """Some bits of a register become the lowest of another, or 0 where that other is the program counter."""
    source, target, lowest, highest = code >> 16 & 15, code >> 8 & 15, shift_amount(code), code & 31
    if not general(target) or source == STACK or highest < lowest:
        return None
    mask = (1 << highest + 1) - (1 << lowest)

    def execute(core: Core) -> None:
        value = 0 if source == PROGRAM else core.registers[source] << lowest
        core.registers[target] = core.registers[target] & ~mask | value & mask

    return execute


def shift_by_register(code: int, place: Place) -> Optional[Execute]:
    source, target, by = code >> 16 & 15, code >> 8 & 15, code & 15
    if not general(source, target, by):
        return None
    return logical("move", target, target, shifted_by_register(source, code >> 21 & 3, by), bool(code & 0x100000))


def extend(code: int, place: Place) -> Optional[Execute]:
    extension, target, source, turn = EXTENSIONS.get(code >> 20 & 7), code >> 8 & 15, code & 15, code >> 1 & 24
    if extension is None or not general(target, source):
        return None
    return changing(lambda value: extension(bits.rotated_right(value, turn, 0)[0]), target, source)


def bits_turned(value: int) -> int:
    return int(f"{value:032b}"[::-1], 2)


def leading_zeros(value: int) -> int:
    return 32 - value.bit_length()


CHANGES = {0x98: bytes_turned, 0x99: bytes_turned_in_halves, 0x9A: bits_turned, 0x9B: low_half_turned, 0xB8: leading_zeros}


def change(code: int, place: Place) -> Optional[Execute]:
    """Turning bytes or bits and counting zeros: the source stands in the code twice."""
    found, target, source = CHANGES.get(code >> 16 & 0xF0 | code >> 4 & 15), code >> 8 & 15, code & 15
    if found is None or code >> 16 & 15 != source or not general(target, source):
        return None
    return changing(found, target, source)


ROWS = (
    Row(0xFA008000, 0xF0000000, with_constant),
    Row(0xFE008000, 0xEA000000, with_shifted),
    Row(0xFBF08000, 0xF2000000, add_plain),
    Row(0xFBF08000, 0xF2A00000, add_plain),
    Row(0xFBF08000, 0xF2400000, move_half),
    Row(0xFBF08000, 0xF2C00000, move_half),
    Row(0xFFF08020, 0xF3400000, extract_field),
    Row(0xFFF08020, 0xF3C00000, extract_field),
    Row(0xFFF08020, 0xF3600000, insert_field),
    Row(0xFF80F0F0, 0xFA00F000, shift_by_register),
    Row(0xFF8FF0C0, 0xFA0FF080, extend),
    Row(0xFF80F0C0, 0xFA80F080, change),
)
