"""What the data-processing instructions of both sizes have in common: operands, sums and logic."""
from typing import Callable, Optional, Tuple

from device.thumb import bits
from device.thumb.bits import WORD
from device.thumb.core import STACK, Core

Execute = Callable[[Core], None]
# A value, and the carry that its shift leaves.
Operand = Callable[[Core], Tuple[int, int]]


def constant(value: int, carry: Optional[int] = None) -> Operand:
    if carry is None:
        return lambda core: (value, core.carry)
    return lambda core: (value, carry)


def register(number: int) -> Operand:
    return lambda core: (core.registers[number], core.carry)


def shifted(number: int, kind: int, amount: int) -> Operand:
    """A register, shifted by an instruction's two bits and amount."""
    if kind == 0 and amount == 0:
        return register(number)
    shift, amount = bits.immediate_shift(kind, amount)
    return lambda core: shift(core.registers[number], amount, core.carry)


def shifted_by_register(number: int, kind: int, by: int) -> Operand:
    """A register, shifted by the low byte of another."""
    shift = bits.SHIFTS[kind]
    if kind == 2:
        return lambda core: shift(core.registers[number], min(core.registers[by] & 0xFF, 32), core.carry)
    return lambda core: shift(core.registers[number], core.registers[by] & 0xFF, core.carry)


SUMS = {
    "add": lambda left, right, carry: bits.plus(left, right, 0),
    "add with carry": lambda left, right, carry: bits.plus(left, right, carry),
    "subtract": lambda left, right, carry: bits.plus(left, right ^ WORD, 1),
    "subtract with carry": lambda left, right, carry: bits.plus(left, right ^ WORD, carry),
    "subtract from": lambda left, right, carry: bits.plus(left ^ WORD, right, 1),
}

LOGIC = {
    "and": lambda left, right: left & right,
    "and not": lambda left, right: left & ~right,
    "or": lambda left, right: left | right,
    "or not": lambda left, right: left | right ^ WORD,
    "exclusive or": lambda left, right: left ^ right,
    "move": lambda left, right: right,
    "move not": lambda left, right: right ^ WORD,
}


def summing(name: str, target: Optional[int], left: int, right: Operand, sets_flags: bool) -> Execute:
    combine = SUMS[name]

    def execute(core: Core) -> None:
        result, carry, overflow = combine(core.registers[left], right(core)[0], core.carry)
        if target is not None:
            core.registers[target] = result
        if sets_flags:
            core.set_sum(result, carry, overflow)

    return aligning_stack(execute) if target == STACK else execute


def logical(name: str, target: Optional[int], left: int, right: Operand, sets_flags: bool) -> Execute:
    combine = LOGIC[name]

    def execute(core: Core) -> None:
        value, carry = right(core)
        result = combine(core.registers[left], value)
        if target is not None:
            core.registers[target] = result
        if sets_flags:
            core.set_result(result)
            core.carry = carry

    return aligning_stack(execute) if target == STACK else execute


def processing(name: str, target: Optional[int], left: int, right: Operand, sets_flags: bool) -> Execute:
    """A sum or a logical combination; without a target only the flags change."""
    make = summing if name in SUMS else logical
    return make(name, target, left, right, sets_flags)


def aligning_stack(execute: Execute) -> Execute:
    """The two lowest bits of the stack pointer are always 0."""

    def aligned(core: Core) -> None:
        execute(core)
        core.registers[STACK] &= ~3

    return aligned


def changing(change: Callable[[int], int], target: int, source: int) -> Execute:
    """A register becomes what a function makes of another, and no flag changes."""

    def execute(core: Core) -> None:
        core.registers[target] = change(core.registers[source])

    return execute


def bytes_turned(value: int) -> int:
    return int.from_bytes(value.to_bytes(4, "little"), "big")


def bytes_turned_in_halves(value: int) -> int:
    return (value & 0x00FF00FF) << 8 | value >> 8 & 0x00FF00FF


def low_half_turned(value: int) -> int:
    return bits.extended(bytes_turned_in_halves(value), 16)


def sign_extended_half(value: int) -> int:
    return bits.extended(value, 16)


def sign_extended_byte(value: int) -> int:
    return bits.extended(value, 8)


def low_half(value: int) -> int:
    return value & 0xFFFF


def low_byte(value: int) -> int:
    return value & 0xFF
