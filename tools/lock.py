"""The lock on this clone: whatever proves here holds it, so that what one has built is still there when it comes to use it."""
import contextlib
import fcntl
import os
import sys
from typing import Iterator

from tools.counting import ROOT

# Who holds the lock tells what it starts by this word of the environment: the clone that is held.
HELD = "GUSTLANTERN_HELD"
WAITING = "another command is proving here; waiting"


@contextlib.contextmanager
def held() -> Iterator[None]:
    """Holds the lock. It is on the clone's folder: a file would stay behind."""
    if os.environ.get(HELD) == str(ROOT):
        yield
        return
    folder = os.open(ROOT, os.O_RDONLY)
    try:
        take(folder)
        os.environ[HELD] = str(ROOT)
        yield
    finally:
        os.environ.pop(HELD, None)
        os.close(folder)


def take(folder: int) -> None:
    try:
        fcntl.flock(folder, fcntl.LOCK_EX | fcntl.LOCK_NB)
    except BlockingIOError:
        print(WAITING, file=sys.stderr, flush=True)
        fcntl.flock(folder, fcntl.LOCK_EX)
