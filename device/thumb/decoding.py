"""Decoding: which instruction the half-words at an address are."""
from typing import Callable, NamedTuple, Optional, Sequence, Union

from device.thumb.core import Decoder, Instruction
from device.thumb.faults import Fault
from device.thumb.memory import Memory
from device.thumb.operations import Execute

# The first half-word of an instruction of two begins with these five bits or with more.
FIRST_OF_TWO = 0b11101


class Place(NamedTuple):
    """Where an instruction stands."""

    address: int
    in_block: bool

    @property
    def ahead(self) -> int:
        """What an instruction sees as the program counter."""
        return self.address + 4

    @property
    def base(self) -> int:
        """The same where it is the base of an address."""
        return self.ahead & ~3


class Row(NamedTuple):
    """The instructions whose code has the given bits under a mask. What makes one of them gives none for a code that is undefined."""

    mask: int
    code: int
    make: Callable[[int, Place], Optional[Execute]]
    cycles: Union[int, Callable[[int], int]] = 0


def find(rows: Sequence[Row], code: int, place: Place, size: int) -> Optional[Instruction]:
    for row in rows:
        if code & row.mask == row.code:
            execute = row.make(code, place)
            cycles = row.cycles(code) if callable(row.cycles) else row.cycles
            return Instruction(execute, size, cycles) if execute else None
    return None


def decoder(narrow: Sequence[Row], wide: Sequence[Row]) -> Decoder:
    """What decodes the instructions of one half-word by some rows and those of two by others."""

    def decode(memory: Memory, address: int, in_block: bool) -> Instruction:
        place, code = Place(address, in_block), memory.code(address)
        if code >> 11 >= FIRST_OF_TWO:
            second = memory.code(address + 2)
            found, words = find(wide, code << 16 | second, place, 4), f"{code:04x} {second:04x}"
        else:
            found, words = find(narrow, code, place, 2), f"{code:04x}"
        if found is None:
            raise Fault(f"{words} is no instruction that is known here")
        return found

    return decode
