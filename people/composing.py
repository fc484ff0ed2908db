"""Composing: a session written as lines becomes records."""
import re
from dataclasses import dataclass
from difflib import get_close_matches
from typing import Callable, Dict, Iterable, List, Tuple, Union

from people.layout import (CALL_NAMES, HIGHEST_BYTE, HIGHEST_WORD, LONGEST_BODY, OBJECTS, Call, Commit, Fresh, Release,
                           Rollback, Start, write)

NUMBER = re.compile(r"0[xX][0-9a-fA-F]{1,20}|[0-9]{1,20}")
HEX_DIGITS = re.compile(r"[0-9a-fA-F]+")
MOST_PAIRS = (LONGEST_BODY - 2) // 2
# Some editors put it before a text.
BYTE_ORDER_MARK = "\ufeff"
# The letters of a bad line that are shown.
MOST_SHOWN = 500


class Unexpected(Exception):
    """Why a line is none of the items of a session."""


@dataclass(frozen=True)
class BadLine:
    """A line that is no item, with the form that it should have and why it has not."""

    number: int
    line: str
    form: str
    reason: str

    def __str__(self) -> str:
        return f"line {self.number}: {shortened(self.line)}\n    expected {self.form}, but {self.reason}"


def shortened(line: str) -> str:
    """A line as far as a message has room for it."""
    return line if len(line) <= MOST_SHOWN else line[:MOST_SHOWN] + " .."


class BadSession(Exception):
    """The lines for which a session can't be composed."""

    def __init__(self, bad_lines: List[BadLine]):
        super().__init__(f"{len(bad_lines)} bad lines")
        self.bad_lines = bad_lines


def number(word: str, highest: int) -> int:
    """A number in decimal, or in hexadecimal behind 0x."""
    if NUMBER.fullmatch(word):
        value = int(word, 16 if word[:2] in ("0x", "0X") else 10)
        if value <= highest:
            return value
    raise Unexpected(f"'{word}' is no number from 0 to {highest}")


def one_byte(word: str) -> int:
    return number(word, HIGHEST_BYTE)


def four_bytes(word: str) -> int:
    return number(word, HIGHEST_WORD)


def two_parts(word: str, sign: str) -> Tuple[str, str]:
    """The parts of a word on both sides of a sign."""
    first, found, second = word.partition(sign)
    if not found:
        raise Unexpected(f"'{word}' has no '{sign}'")
    return first, second


def take(words: List[str], least: int, most: int) -> None:
    """Refuses a line with too few or too many words behind its first."""
    if len(words) < least:
        raise Unexpected("something is missing")
    if len(words) > most:
        raise Unexpected(f"'{words[most]}' is too much")


def compose_fresh(words: List[str]) -> bytes:
    take(words, 1, 1 + OBJECTS)
    values: Dict[int, int] = {}
    for word in words[1:]:
        left, right = two_parts(word, "=")
        object_number = number(left, OBJECTS - 1)
        if object_number in values:
            raise Unexpected(f"object {object_number} is given twice")
        values[object_number] = four_bytes(right)
    return write(Fresh(four_bytes(words[0]), tuple(values.get(place, 0) for place in range(OBJECTS))))


def compose_start(words: List[str]) -> bytes:
    take(words, 1, 1 + MOST_PAIRS)
    parts = [two_parts(word, ":") for word in words[1:]]
    return write(Start(one_byte(words[0]), tuple((one_byte(left), one_byte(right)) for left, right in parts)))


def compose_call(words: List[str]) -> bytes:
    take(words, 3, 4)
    slot, object_number = one_byte(words[0]), one_byte(words[1])
    return write(Call(slot, object_number, call_kind(words[2]), four_bytes(words[3]) if len(words) == 4 else 0))


def call_kind(word: str) -> int:
    """The number of a kind of calls, by its name or as it is."""
    if word in CALL_NAMES:
        return CALL_NAMES.index(word)
    try:
        return one_byte(word)
    except Unexpected:
        raise Unexpected(f"'{word}' is no kind: the kinds are {', '.join(CALL_NAMES)}, or a number up to {HIGHEST_BYTE}") from None


def compose_release(words: List[str]) -> bytes:
    take(words, 2, 2)
    return write(Release(one_byte(words[0]), one_byte(words[1])))


def compose_commit(words: List[str]) -> bytes:
    take(words, 2, 2)
    return write(Commit(one_byte(words[0]), four_bytes(words[1])))


def compose_rollback(words: List[str]) -> bytes:
    take(words, 2, 2)
    return write(Rollback(one_byte(words[0]), four_bytes(words[1])))


def compose_raw(words: List[str]) -> bytes:
    digits = "".join(words)
    take(words, 1, len(words))
    if not HEX_DIGITS.fullmatch(digits):
        raise Unexpected("something is no hex digit")
    if len(digits) % 2:
        raise Unexpected(f"{len(digits)} hex digits are no whole bytes")
    return bytes.fromhex(digits)


# Each item by its first word: how it is composed, and the form in which it is written.
ITEMS: Dict[str, Tuple[Callable[[List[str]], bytes], str]] = {
    "fresh": (compose_fresh, "fresh FIRST_VERSION [OBJECT=WORD ..]"),
    "start": (compose_start, "start SLOT OBJECT:SUPREMUM .."),
    "call": (compose_call, "call SLOT OBJECT read|write|add|spend [ARGUMENT]"),
    "release": (compose_release, "release SLOT OBJECT"),
    "commit": (compose_commit, "commit SLOT TICK"),
    "rollback": (compose_rollback, "rollback SLOT TICK"),
    "raw": (compose_raw, "raw HEX HEX .."),
}


def closest(word: str, known: Iterable[str]) -> str:
    """What is said of the known word that is most like another, if one is."""
    found = get_close_matches(word.lower(), list(known), 1)
    return f"; the closest is '{found[0]}'" if found else ""


def compose_line(line_number: int, line: str) -> Union[bytes, BadLine]:
    """The bytes of a line's item, none where it has none, or why it is bad."""
    if line_number == 1 and line.startswith(BYTE_ORDER_MARK):
        line = line[len(BYTE_ORDER_MARK):]
    words = line.split("#", 1)[0].split()
    if not words:
        return b""
    item, form = ITEMS.get(words[0], (None, " or ".join(ITEMS)))
    try:
        if item is None:
            raise Unexpected(f"'{words[0]}' is none of these{closest(words[0], ITEMS)}")
        return item(words[1:])
    except Unexpected as reason:
        return BadLine(line_number, line.strip(), form, str(reason))


def compose(text: str) -> bytes:
    """The records of a session, if every line of it is good."""
    composed = [compose_line(line_number, line) for line_number, line in enumerate(text.split("\n"), 1)]
    bad_lines = [line for line in composed if isinstance(line, BadLine)]
    if bad_lines:
        raise BadSession(bad_lines)
    return b"".join(composed)
