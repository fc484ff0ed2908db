"""Memory: flash that holds the program, and RAM."""
from device.thumb.faults import Fault

FLASH_START = 0x00000000
RAM_START = 0x20000000
SIZE = 256 * 1024
UNITS = {1: "byte", 2: "half-word", 4: "word"}


class Memory:
    """Flash and RAM; an access elsewhere, one that is not aligned and a store to flash are faults."""

    def __init__(self, flash: bytes):
        self.flash = bytearray(SIZE)
        self.flash[: len(flash)] = flash
        self.ram = bytearray(SIZE)

    def load(self, address: int, size: int) -> int:
        if address % size:
            raise Fault(f"load of a {UNITS[size]} at {address:#010x}, which is not aligned")
        place = address - RAM_START
        if 0 <= place < SIZE:
            return int.from_bytes(self.ram[place:place + size], "little")
        if address < SIZE:
            return int.from_bytes(self.flash[address:address + size], "little")
        raise Fault(f"load of a {UNITS[size]} at {address:#010x}, where there is no memory")

    def store(self, address: int, size: int, value: int) -> None:
        if address % size:
            raise Fault(f"store of a {UNITS[size]} at {address:#010x}, which is not aligned")
        place = address - RAM_START
        if not 0 <= place < SIZE:
            where = "in flash" if address < SIZE else "where there is no memory"
            raise Fault(f"store of a {UNITS[size]} at {address:#010x}, {where}")
        self.ram[place:place + size] = (value & ((1 << 8 * size) - 1)).to_bytes(size, "little")

    def code(self, address: int) -> int:
        """The half-word of an instruction: programs run from flash alone."""
        if not FLASH_START <= address < FLASH_START + SIZE:
            raise Fault(f"no program at {address:#010x}")
        return self.load(address, 2)

    def text(self, address: int) -> str:
        """The characters from an address up to a zero byte."""
        found = bytearray()
        while True:
            byte = self.load(address + len(found), 1)
            if not byte:
                return found.decode("latin-1")
            found.append(byte)
