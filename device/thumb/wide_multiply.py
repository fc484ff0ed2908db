"""Products and quotients in instructions of two half-words."""
from typing import Optional

from device.thumb import bits
from device.thumb.bits import WORD
from device.thumb.core import PROGRAM, Core
from device.thumb.decoding import Place, Row
from device.thumb.operations import Execute
from device.thumb.wide_data import general


def multiply(code: int, place: Place) -> Optional[Execute]:
    """A product; with a register that it is added to, or taken from."""
    left, added, target, right, subtracts = code >> 16 & 15, code >> 12 & 15, code >> 8 & 15, code & 15, bool(code & 0x10)
    alone = added == PROGRAM and not subtracts

    def execute(core: Core) -> None:
        product = core.registers[left] * core.registers[right]
        other = 0 if alone else core.registers[added]
        core.registers[target] = other + (-product if subtracts else product) & WORD

    return execute if general(left, target, right) and (alone or general(added)) else None


def multiply_long(code: int, place: Place) -> Optional[Execute]:
    """A product of 64 bits in two registers, with or without what they hold."""
    left, lower, upper, right = code >> 16 & 15, code >> 12 & 15, code >> 8 & 15, code & 15
    plain, adds = bool(code & 0x200000), bool(code & 0x400000)

    def execute(core: Core) -> None:
        first, second = core.registers[left], core.registers[right]
        product = first * second if plain else bits.signed(first) * bits.signed(second)
        if adds:
            product += core.registers[upper] << 32 | core.registers[lower]
        core.registers[lower], core.registers[upper] = product & WORD, product >> 32 & WORD

    return execute if general(left, lower, upper, right) and lower != upper else None


def divide(code: int, place: Place) -> Optional[Execute]:
    """A quotient, rounded towards 0; by 0 it is 0."""
    left, target, right, plain = code >> 16 & 15, code >> 8 & 15, code & 15, bool(code & 0x200000)

    def execute(core: Core) -> None:
        number, divisor = core.registers[left], core.registers[right]
        if not plain:
            number, divisor = bits.signed(number), bits.signed(divisor)
        quotient = abs(number) // abs(divisor) if divisor else 0
        core.registers[target] = (quotient if (number < 0) == (divisor < 0) else -quotient) & WORD

    return execute if general(left, target, right) else None


ROWS = (
    Row(0xFFF000E0, 0xFB000000, multiply),
    Row(0xFFF000F0, 0xFB800000, multiply_long),
    Row(0xFFF000F0, 0xFBA00000, multiply_long),
    Row(0xFFF000F0, 0xFBC00000, multiply_long),
    Row(0xFFF000F0, 0xFBE00000, multiply_long),
    Row(0xFFF0F0F0, 0xFB90F0F0, divide),
    Row(0xFFF0F0F0, 0xFBB0F0F0, divide),
)
