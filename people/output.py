"""Output: what a command prints, and what is said where that can't be written."""
import io
import os
import sys
from typing import Callable


class Unwritten(Exception):
    """Why standard output does not take what is printed."""


class NoReader(Exception):
    """Whoever read standard output has gone, and wants no more of it."""


def prepare() -> None:
    """Refuses a closed standard output, and keeps the numbers of closed streams from files that are opened later."""
    opened = os.open(os.devnull, os.O_RDWR)
    while opened <= 2:
        opened = os.open(os.devnull, os.O_RDWR)
    os.close(opened)
    if sys.stdout is None:
        raise Unwritten("standard output: it is closed")
    if isinstance(sys.stdout, io.TextIOWrapper):
        # Names of files need not be text.
        sys.stdout.reconfigure(errors="surrogateescape")


def show(line: str) -> None:
    """Prints a line at once."""
    written(lambda: sys.stdout.write(f"{line}\n"))


def put(data: bytes) -> None:
    """Writes bytes at once."""
    written(lambda: sys.stdout.buffer.write(data))


def written(write: Callable[[], int]) -> None:
    try:
        write()
        sys.stdout.flush()
    except OSError as error:
        silence(sys.stdout)
        if isinstance(error, BrokenPipeError):
            raise NoReader() from error
        raise Unwritten(f"standard output: {error.strerror}") from error


def tell(words: object) -> None:
    """Says something on standard error, as far as there is one."""
    if sys.stderr is not None:
        try:
            print(words, file=sys.stderr, flush=True)
        except OSError:
            silence(sys.stderr)


def silence(stream: io.TextIOWrapper) -> None:
    """What a stream still holds goes nowhere: Python would try it once more at its end, and print a traceback."""
    nowhere = os.open(os.devnull, os.O_WRONLY)
    os.dup2(nowhere, stream.fileno())
    os.close(nowhere)
