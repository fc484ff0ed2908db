"""Sources: what a command reads, from files or from standard input, and the file that it writes."""
import os
import sys
from pathlib import Path
from typing import BinaryIO, Iterator

from people.composing import BadSession, compose
from people.ordering import DIGITS
from people.output import Unwritten
from people.usage import STANDARD_INPUT

PART_BYTES = 1 << 16
MOST_BAD_LINES = 10


class BadCommand(Exception):
    """What can't be done as it was asked."""


def read_parts(name: str) -> Iterator[bytes]:
    """The bytes of a file or of standard input, in parts as they come."""
    try:
        if name == STANDARD_INPUT:
            yield from parts(standard_input())
        else:
            with open(name, "rb") as file:
                yield from parts(file)
    except OSError as error:
        raise BadCommand(f"{name}: {error.strerror}") from error


def parts(stream: BinaryIO) -> Iterator[bytes]:
    return iter(lambda: stream.read1(PART_BYTES), b"")


def typed_lines() -> Iterator[bytes]:
    """The lines of standard input as they are typed."""
    try:
        yield from iter(standard_input().readline, b"")
    except OSError as error:
        raise BadCommand(f"standard input: {error.strerror}") from error


def is_typed() -> bool:
    """Whether someone sits at standard input."""
    return standard_input().isatty()


def standard_input() -> BinaryIO:
    if sys.stdin is None:
        raise BadCommand("standard input: it is closed")
    return sys.stdin.buffer


def records_of(session: str) -> bytes:
    """The records of a session in a file."""
    try:
        return compose(b"".join(read_parts(session)).decode("utf-8"))
    except UnicodeDecodeError as error:
        raise BadCommand(f"{session}: no text in UTF-8") from error
    except BadSession as bad:
        shown = [f"{session}, {line}" for line in bad.bad_lines[:MOST_BAD_LINES]]
        more = len(bad.bad_lines) - len(shown)
        raise BadCommand("\n".join(shown + ([f"{session}: {more} more bad lines"] if more else []))) from bad


def end_bytes(word: str) -> bytes:
    """What a file holds, or the digits that stand in its place."""
    if word == STANDARD_INPUT or os.path.exists(word):
        return b"".join(read_parts(word))
    if not DIGITS.fullmatch("".join(word.split()).encode()):
        raise BadCommand(f"'{word}' is no file, and not the hexadecimal digits of a record")
    return word.encode()


def has_folder(path: Path) -> None:
    """Refuses, before any work, a file that would have no folder to be in."""
    if not path.absolute().parent.is_dir():
        raise BadCommand(f"{path}: there is no folder {path.parent}")


def write_file(path: Path, text: str) -> None:
    """Writes a file; one that is cut short does not stay."""
    try:
        file = open(path, "w", encoding="utf-8")
    except OSError as error:
        raise BadCommand(f"{path}: {error.strerror}") from error
    try:
        with file:
            file.write(text)
    except BaseException as error:
        if path.is_file():
            path.unlink()
        if isinstance(error, OSError):
            raise Unwritten(f"{path}: {error.strerror}") from error
        raise
