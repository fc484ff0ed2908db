"""Ordering: which of two end records came first, by the rules R34 to R36."""
import re

from people.following import VERSIONS
from people.layout import EndRecord
from people.reading import Fault, read_record
from people.wording import say

# The difference of two versions that says nothing; below it A is the earlier one, above it B.
FAR = VERSIONS // 2
DIGITS = re.compile(rb"[0-9a-fA-F]+")


class NoEndRecord(Exception):
    """Why there is nothing to compare."""


def end_record_in(name: str, data: bytes) -> EndRecord:
    """The end record that bytes begin with, or their hexadecimal digits, spaced in any way."""
    digits = b"".join(data.split())
    # No record is made of digits alone: they would be a length that none has.
    if DIGITS.fullmatch(digits):
        if len(digits) % 2:
            raise NoEndRecord(f"{name} is no end record: {len(digits)} hexadecimal digits are no whole bytes")
        data = bytes.fromhex(digits.decode())
    record = read_record(data)
    if not isinstance(record, EndRecord):
        found = f"{record.check} ({record.found})" if isinstance(record, Fault) else say(record)
        raise NoEndRecord(f"{name} is no end record: {found}")
    return record


def came_first(first: bytes, second: bytes) -> str:
    """In words, which of two end records, A and B, came first. A is asked first whether it is one."""
    return compared(end_record_in("A", first), end_record_in("B", second))


def compared(first: EndRecord, second: EndRecord) -> str:
    of_second = dict(second.entries)
    for object_number, version in first.entries:
        if object_number in of_second:
            return by_versions(object_number, version, of_second[object_number])
    return "they have no object in common, so nothing says which came first"


def by_versions(object_number: int, of_first: int, of_second: int) -> str:
    """What the smallest object in common says."""
    difference = (of_second - of_first) % VERSIONS
    if difference == 0:
        return f"both have the same version of object {object_number}, {of_first}"
    versions = f"object {object_number} has version {of_first} in A and {of_second} in B"
    if difference == FAR:
        return f"too far apart to tell: {versions}"
    return f"{'A' if difference < FAR else 'B'} came first: {versions}"
