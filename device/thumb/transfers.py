"""What the loads and stores of both sizes have in common: one register, or several from an address upwards."""
from typing import Callable, List

from device.thumb import bits
from device.thumb.core import PROGRAM, Core

Transfer = Callable[[Core, int], None]


def loading(number: int, size: int, sign_extends: bool = False) -> Transfer:
    """What puts the memory at an address into a register."""

    def load(core: Core, address: int) -> None:
        core.registers[number] = core.memory.load(address, size)

    def load_signed(core: Core, address: int) -> None:
        core.registers[number] = bits.extended(core.memory.load(address, size), 8 * size)

    def load_program(core: Core, address: int) -> None:
        core.branch_by_address(core.memory.load(address, size))

    if number == PROGRAM:
        return load_program
    return load_signed if sign_extends else load


def storing(number: int, size: int) -> Transfer:

    def store(core: Core, address: int) -> None:
        core.memory.store(address, size, core.registers[number])

    return store


def several(transfers: List[Transfer]) -> Transfer:
    """Words from an address upwards, one for each transfer."""

    def transfer_all(core: Core, address: int) -> None:
        for place, transfer in enumerate(transfers):
            transfer(core, address + 4 * place)

    return transfer_all


def listed(bits_of_list: int) -> List[int]:
    """The registers of a list, the lowest first."""
    return [number for number in range(16) if bits_of_list >> number & 1]
