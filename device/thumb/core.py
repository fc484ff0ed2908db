"""The core: registers, flags, and the fetching and running of instructions."""
from typing import Callable, Dict, List, NamedTuple

from device.thumb.calls import Watch
from device.thumb.faults import Fault
from device.thumb.hosting import Host
from device.thumb.memory import Memory

STACK = 13
LINK = 14
PROGRAM = 15


class Instruction(NamedTuple):
    """What an instruction does, the bytes it has, and the cycles it takes at least."""

    execute: Callable[["Core"], None]
    size: int
    cycles: int


# The memory, an address, and whether the instruction stands in an IT block.
Decoder = Callable[[Memory, int, bool], Instruction]


class Core:
    """A processor that runs a program from the reset vector on."""

    def __init__(self, memory: Memory, decode: Decoder, watch: Watch):
        self.memory, self.decode, self.watch, self.host = memory, decode, watch, Host()
        self.registers: List[int] = [0] * 15
        self.negative = self.zero = self.carry = self.overflow = 0
        # The conditions of the instructions that remain of an IT block.
        self.block: List[int] = []
        self.outside: Dict[int, Instruction] = {}
        self.inside: Dict[int, Instruction] = {}
        self.instructions = self.cycles = 0
        self.top = self.lowest = self.registers[STACK] = memory.load(0, 4)
        self.address = self.next = 0
        self.branch_by_address(memory.load(4, 4))
        self.address = self.next

    def set_result(self, result: int) -> None:
        self.negative = result >> 31
        self.zero = int(result == 0)

    def set_sum(self, result: int, carry: int, overflow: int) -> None:
        self.negative = result >> 31
        self.zero = int(result == 0)
        self.carry = carry
        self.overflow = overflow

    def holds(self, condition: int) -> bool:
        """Whether the flags meet a condition of four bits; its lowest bit turns it round, but for the one that always holds."""
        if condition == 14:
            return True
        carry, same = bool(self.carry), self.negative == self.overflow
        plain = (
            bool(self.zero), carry, bool(self.negative), bool(self.overflow),
            carry and not self.zero, same, same and not self.zero,
        )[condition >> 1]
        return plain != bool(condition & 1)

    def branch(self, target: int) -> None:
        if self.block:
            raise Fault("branch inside of an IT block, before its last instruction")
        self.next = target

    def branch_by_address(self, address: int) -> None:
        """A branch to a value whose lowest bit says that Thumb code follows: there is no other on these processors."""
        if not address & 1:
            raise Fault(f"branch to {address:#010x}, whose lowest bit is not set")
        self.branch(address & ~1)

    def branch_with_link(self, target: int, back: int) -> None:
        self.registers[LINK] = back | 1
        self.branch(target)
        self.watch.enter(self, target, back)

    def fetch(self, address: int) -> Instruction:
        """The instruction at an address, decoded once outside and once inside of an IT block, for there it may leave flags alone."""
        instructions = self.inside if self.block else self.outside
        found = instructions.get(address)
        if found is None:
            found = instructions[address] = self.decode(self.memory, address, bool(self.block))
        return found

    def step(self) -> None:
        instruction = self.fetch(self.address)
        self.next = self.address + instruction.size
        self.instructions += 1
        self.cycles += instruction.cycles
        if not self.block or self.holds(self.block.pop(0)):
            instruction.execute(self)
        if self.registers[STACK] < self.lowest:
            self.lowest = self.registers[STACK]
        self.address = self.next
        if self.address == self.watch.back:
            self.watch.arrive(self)

    def run(self, limit: int) -> None:
        """Runs the program to its end."""
        while not self.host.ended:
            if self.instructions == limit:
                raise Fault(f"no end after {limit} instructions")
            try:
                self.step()
            except Fault as fault:
                raise Fault(f"{fault}; instruction at {self.address:#010x}") from None
