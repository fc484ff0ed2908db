"""Loading: the bytes and the functions of a linked program."""
import struct
from dataclasses import dataclass
from pathlib import Path
from typing import Dict, Iterator, Tuple

from device.thumb.faults import Fault
from device.thumb.memory import SIZE

# Four bytes of mark, 32 bits, little-endian, version 1.
MARK = b"\x7fELF\x01\x01\x01"
ARM = 40
LOADED = 1
SYMBOLS = 2
FUNCTION = 2
SYMBOL_BYTES = 16


@dataclass(frozen=True)
class Program:
    """What stands in flash, and the name of each function by its first address."""

    flash: bytes
    functions: Dict[int, str]

    def named(self, beginning: str) -> Dict[int, str]:
        return {address: name for address, name in self.functions.items() if name.startswith(beginning)}


def load(path: Path) -> Program:
    data = path.read_bytes()
    if not data.startswith(MARK) or struct.unpack_from("<H", data, 18)[0] != ARM:
        raise Fault(f"{path.name} is no program for a 32-bit Arm processor")
    return Program(flash_of(data), dict(functions_of(data)))


def flash_of(data: bytes) -> bytes:
    """The loaded parts, each where it is stored before the program starts."""
    flash = bytearray(SIZE)
    first, = struct.unpack_from("<I", data, 28)
    size, count = struct.unpack_from("<HH", data, 42)
    for place in range(first, first + size * count, size):
        kind, offset, _, stored, length = struct.unpack_from("<5I", data, place)
        if kind != LOADED or not length:
            continue
        if stored + length > SIZE:
            raise Fault(f"{length} bytes at {stored:#010x} do not fit into flash")
        flash[stored:stored + length] = data[offset:offset + length]
    return bytes(flash)


def functions_of(data: bytes) -> Iterator[Tuple[int, str]]:
    """The address and name of each function; the lowest bit of an address only says that its code is Thumb."""
    first, = struct.unpack_from("<I", data, 32)
    size, count = struct.unpack_from("<HH", data, 46)
    for section in range(first, first + size * count, size):
        _, kind, _, _, offset, length, link = struct.unpack_from("<7I", data, section)
        if kind != SYMBOLS:
            continue
        names = struct.unpack_from("<5I", data, first + size * link)[4]
        for place in range(offset, offset + length, SYMBOL_BYTES):
            name, value, _, info = struct.unpack_from("<IIIB", data, place)
            if info & 15 == FUNCTION:
                start = names + name
                yield value & ~1, data[start:data.index(b"\0", start)].decode()
