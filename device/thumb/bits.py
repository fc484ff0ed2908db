"""Arithmetic on words of 32 bits, with the carry and the overflow that the flags are made of."""
from typing import Callable, Optional, Tuple

WORD = 0xFFFFFFFF

Shift = Callable[[int, int, int], Tuple[int, int]]


def signed(value: int, width: int = 32) -> int:
    """The low bits of a value, so many of them, as a number that may be negative."""
    value &= (1 << width) - 1
    return value - (1 << width) if value >> (width - 1) else value


def extended(value: int, width: int) -> int:
    """The low bits of a value with their sign carried up to the whole word."""
    return signed(value, width) & WORD


def plus(left: int, right: int, carry: int) -> Tuple[int, int, int]:
    """The sum, its carry and its overflow."""
    total = left + right + carry
    result = total & WORD
    return result, total >> 32, ((left ^ result) & (right ^ result)) >> 31


def shifted_left(value: int, amount: int, carry: int) -> Tuple[int, int]:
    if amount == 0:
        return value, carry
    wide = value << amount
    return wide & WORD, wide >> 32 & 1


def shifted_right(value: int, amount: int, carry: int) -> Tuple[int, int]:
    if amount == 0:
        return value, carry
    return value >> amount, value >> (amount - 1) & 1


def shifted_right_signed(value: int, amount: int, carry: int) -> Tuple[int, int]:
    if amount == 0:
        return value, carry
    number = signed(value)
    return number >> amount & WORD, number >> (amount - 1) & 1


def rotated_right(value: int, amount: int, carry: int) -> Tuple[int, int]:
    if amount == 0:
        return value, carry
    amount &= 31
    result = (value >> amount | value << (32 - amount)) & WORD
    return result, result >> 31


def rotated_through_carry(value: int, _: int, carry: int) -> Tuple[int, int]:
    return carry << 31 | value >> 1, value & 1


SHIFTS: Tuple[Shift, ...] = (shifted_left, shifted_right, shifted_right_signed, rotated_right)


def immediate_shift(kind: int, amount: int) -> Tuple[Shift, int]:
    """The shift that an instruction's two bits and amount stand for: an amount of 0 has a meaning of its own."""
    if amount == 0 and kind == 3:
        return rotated_through_carry, 1
    if amount == 0 and kind != 0:
        return SHIFTS[kind], 32
    return SHIFTS[kind], amount


def expanded(pattern: int) -> Optional[Tuple[int, Optional[int]]]:
    """The constant of a wide instruction's twelve bits, and the carry that it leaves if it leaves one; none where it is undefined."""
    low = pattern & 0xFF
    if pattern >> 10:
        return rotated_right(0x80 | pattern & 0x7F, pattern >> 7, 0)
    form = pattern >> 8
    if form and not low:
        return None
    return low * (0x00000001, 0x00010001, 0x01000100, 0x01010101)[form], None
