"""Children: what a command starts runs in a group of its own, and nothing of it outlives the command."""
import os
import signal
import subprocess
import time
from typing import List

# What ends a command from outside, and what a shell adds to the signal's number for the exit status.
SIGNALS = (signal.SIGINT, signal.SIGTERM, signal.SIGHUP)
BY_SIGNAL = 128
# A prover that is asked to end may first have to end what it started.
GRACE_SECONDS = 15.0
LOOK_SECONDS = 0.01

RUNNING: List[subprocess.Popen] = []


class Interrupted(BaseException):
    """A signal came that ends the command."""

    def __init__(self, number: int):
        super().__init__(number)
        self.status = BY_SIGNAL + number


def interrupt(number: int, _frame: object) -> None:
    """Ends what is under way; a second signal would only disturb the clearing up."""
    calm()
    raise Interrupted(number)


def watch() -> None:
    """From now on signals interrupt. One who hung up under nohup does not mean the command."""
    for number in SIGNALS:
        if number != signal.SIGHUP or signal.getsignal(number) != signal.SIG_IGN:
            signal.signal(number, interrupt)


def calm() -> None:
    """From now on signals do nothing. They are not set to be ignored: Python prints a traceback where one comes at that moment."""
    for number in SIGNALS:
        signal.signal(number, lambda _number, _frame: None)


def unblock() -> None:
    signal.pthread_sigmask(signal.SIG_UNBLOCK, SIGNALS)


def start(words: List[str], **options) -> subprocess.Popen:
    """Starts a child. Signals wait until it is noted, so that none comes between its start and its note."""
    signal.pthread_sigmask(signal.SIG_BLOCK, SIGNALS)
    try:
        child = subprocess.Popen(words, start_new_session=True, preexec_fn=unblock, **options)
        RUNNING.append(child)
    finally:
        unblock()
    return child


def end(child: subprocess.Popen) -> None:
    """Ends a child with all that it started, if it has not ended by itself."""
    if child.poll() is None and not group_ends(child, signal.SIGTERM):
        group_ends(child, signal.SIGKILL)
    if child in RUNNING:
        RUNNING.remove(child)


def end_all() -> None:
    for child in list(RUNNING):
        end(child)


def group_ends(child: subprocess.Popen, number: int) -> bool:
    """Whether nothing of the group is left within some time of a signal to it."""
    limit = time.monotonic() + GRACE_SECONDS
    try:
        os.killpg(child.pid, number)
        while time.monotonic() < limit:
            child.poll()
            os.killpg(child.pid, 0)
            time.sleep(LOOK_SECONDS)
    except ProcessLookupError:
        return True
    return False
