"""Reading: bytes become the fields of a record, or the check that they fail."""
import struct
from dataclasses import dataclass
from typing import Iterable, Iterator, Optional, Union

from people.layout import (HEAD_BYTES, LONGEST_BODY, OBJECTS, SLOTS, Call, Commit, Committed, Fresh, Record, Release,
                           RolledBack, Rollback, Start)

NAMES = {
    Fresh.KIND: "fresh", Start.KIND: "start", Call.KIND: "call", Release.KIND: "release", Commit.KIND: "commit",
    Rollback.KIND: "rollback", Committed.KIND: "committed", RolledBack.KIND: "rolled back",
}
FIXED_LENGTHS = {Fresh.KIND: 100, Call.KIND: 8, Release.KIND: 2, Commit.KIND: 5, Rollback.KIND: 5}
# Bodies with a list: the bytes before it, of which n is the last, and the bytes of each item.
LISTS = {Start.KIND: (2, 2), Committed.KIND: (6, 5), RolledBack.KIND: (6, 5)}


@dataclass(frozen=True)
class Fault:
    """The check that bytes fail, what was found, and how many bytes the failed record takes where that is known."""

    check: str
    found: str
    bytes_taken: Optional[int] = None


@dataclass(frozen=True)
class Piece:
    """A record in a run of bytes, or what stands in its place."""

    offset: int
    data: bytes
    content: Union[Record, Fault]

    def end(self) -> int:
        return self.offset + len(self.data)


def read_record(data: bytes) -> Union[Record, Fault]:
    """The first record of the bytes; what stands behind it does not matter."""
    if len(data) < HEAD_BYTES:
        return Fault(f"under {HEAD_BYTES} bytes", f"there are {len(data)}")
    length, kind = struct.unpack_from("<HH", data)
    if length > LONGEST_BODY:
        return Fault(f"length over {LONGEST_BODY}", f"it is {length}")
    body = data[HEAD_BYTES:HEAD_BYTES + length]
    if len(body) < length:
        return Fault("body not all there", f"{len(body)} of {length} bytes are")
    taken = HEAD_BYTES + length
    if kind not in NAMES:
        return Fault("unknown kind", f"it is 0x{kind:04x}", taken)
    found = wrong_length(kind, body)
    if found:
        return Fault("length wrong for kind and n", found, taken)
    found = wrong_content(kind, body)
    if found:
        return Fault("content", found, taken)
    return fields(kind, body)


def read_run(parts: Iterable[bytes]) -> Iterator[Piece]:
    """All records of a run that comes in parts, each as soon as it is whole; no bytes at all are no record. A frame that fails is the
    last piece, since nothing says where it ends."""
    source = iter(parts)
    held, at, offset = b"", 0, 0
    while True:
        while len(held) - at < bytes_asked(held, at):
            part = next(source, None)
            if part is None:
                break
            held, at = held[at:] + part, 0
        if at == len(held) and offset > 0:
            return
        data = held[at:at + bytes_asked(held, at)]
        content = read_record(data)
        yield Piece(offset, data, content)
        if isinstance(content, Fault) and content.bytes_taken is None:
            return
        at += len(data)
        offset += len(data)


def bytes_asked(held: bytes, at: int) -> int:
    """How many bytes decide what stands at a place: a head, and the body if it may be that long."""
    if len(held) - at < HEAD_BYTES:
        return HEAD_BYTES
    length = held[at] + (held[at + 1] << 8)
    return HEAD_BYTES + length if length <= LONGEST_BODY else HEAD_BYTES


def wrong_length(kind: int, body: bytes) -> str:
    """What is wrong with a body's length, or nothing."""
    name = NAMES[kind]
    if kind in FIXED_LENGTHS:
        wanted = FIXED_LENGTHS[kind]
        return "" if len(body) == wanted else f"the body of '{name}' has {wanted} bytes, not {len(body)}"
    before, each = LISTS[kind]
    if len(body) < before:
        return f"the body of '{name}' has at least {before} bytes, not {len(body)}"
    count = body[before - 1]
    wanted = before + each * count
    return "" if len(body) == wanted else f"the body of '{name}' with n = {count} has {wanted} bytes, not {len(body)}"


def wrong_content(kind: int, body: bytes) -> str:
    """What is wrong with the fields of a body of the right length, or nothing."""
    if kind == Call.KIND and body[3] != 0:
        return f"the zero byte is {body[3]}"
    if kind not in (Committed.KIND, RolledBack.KIND):
        return ""
    objects = list(body[6::5])
    if body[4] >= SLOTS:
        return f"slot {body[4]} is over {SLOTS - 1}"
    if not objects:
        return "n is 0"
    for place, number in enumerate(objects):
        if number >= OBJECTS:
            return f"object {number} is over {OBJECTS - 1}"
        if place > 0 and number <= objects[place - 1]:
            return f"objects do not rise: {number} follows {objects[place - 1]}"
    return ""


def fields(kind: int, body: bytes) -> Record:
    """The fields of a body that has passed every check."""
    if kind == Fresh.KIND:
        first_version, *words = struct.unpack("<25I", body)
        return Fresh(first_version, tuple(words))
    if kind == Start.KIND:
        return Start(body[0], tuple(zip(body[2::2], body[3::2])))
    if kind == Call.KIND:
        return Call(body[0], body[1], body[2], struct.unpack_from("<I", body, 4)[0])
    if kind == Release.KIND:
        return Release(body[0], body[1])
    if kind in (Commit.KIND, Rollback.KIND):
        slot, tick = struct.unpack("<BI", body)
        return Commit(slot, tick) if kind == Commit.KIND else Rollback(slot, tick)
    tick, slot = struct.unpack_from("<IB", body)
    entries = tuple(struct.iter_unpack("<BI", body[6:]))
    return Committed(tick, slot, entries) if kind == Committed.KIND else RolledBack(tick, slot, entries)
