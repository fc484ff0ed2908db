"""The layout of records: each kind with its fields, and the body of each event."""
import struct
from dataclasses import dataclass
from typing import Tuple, Union

SLOTS = 16
OBJECTS = 24
HEAD_BYTES = 4
LONGEST_BODY = 126
HIGHEST_BYTE = 0xFF
HIGHEST_WORD = 0xFFFFFFFF
CALL_NAMES = ("read", "write", "add", "spend")


@dataclass(frozen=True)
class Fresh:
    """The first version and the 24 words that the tables begin with."""

    KIND = 0x0100
    first_version: int
    words: Tuple[int, ...]

    def body(self) -> bytes:
        return struct.pack("<25I", self.first_version, *self.words)


@dataclass(frozen=True)
class Start:
    """A transaction begins in a slot and declares pairs of an object and a supremum."""

    KIND = 0x0101
    slot: int
    pairs: Tuple[Tuple[int, int], ...]

    def body(self) -> bytes:
        return bytes([self.slot, len(self.pairs)]) + b"".join(bytes(pair) for pair in self.pairs)


@dataclass(frozen=True)
class Call:
    """A slot reads or changes the word of an object."""

    KIND = 0x0102
    slot: int
    object_number: int
    call_kind: int
    argument: int

    def body(self) -> bytes:
        return struct.pack("<BBBBI", self.slot, self.object_number, self.call_kind, 0, self.argument)


@dataclass(frozen=True)
class Release:
    """A slot lets go of an object."""

    KIND = 0x0103
    slot: int
    object_number: int

    def body(self) -> bytes:
        return bytes([self.slot, self.object_number])


@dataclass(frozen=True)
class End:
    """What a commit and a rollback have in common."""

    slot: int
    tick: int

    def body(self) -> bytes:
        return struct.pack("<BI", self.slot, self.tick)


class Commit(End):
    """A slot asks to end and keep what it did."""

    KIND = 0x0104


class Rollback(End):
    """A slot asks to end and undo what it did."""

    KIND = 0x0105


@dataclass(frozen=True)
class EndRecord:
    """What a transaction leaves behind: entries of an object and the private version there."""

    tick: int
    slot: int
    entries: Tuple[Tuple[int, int], ...]


class Committed(EndRecord):
    """The end record of a commit."""

    KIND = 0x0201


class RolledBack(EndRecord):
    """The end record of a rollback."""

    KIND = 0x0202


Event = Union[Start, Call, Release, Commit, Rollback]
Record = Union[Fresh, Event, Committed, RolledBack]


def write(record: Union[Fresh, Event]) -> bytes:
    """The bytes of a record that a program is given."""
    body = record.body()
    return struct.pack("<HH", len(body), record.KIND) + body
