"""Running a command of which nothing stays behind: no process and no temporary file, however it ends."""
import contextlib
import os
import select
import signal
import subprocess
import sys
import tempfile
import time
from pathlib import Path
from typing import Callable, Iterator, List, Optional, Sequence, Set

from tools.counting import ROOT

# Seconds between two looks, and for processes to end after they were told to.
PACE, PATIENCE = 0.2, 5


def interrupts() -> List[signal.Signals]:
    """What ends a command from outside. Under nohup a terminal that goes does not mean it."""
    hung_up = [] if signal.getsignal(signal.SIGHUP) == signal.SIG_IGN else [signal.SIGHUP]
    return [signal.SIGINT, signal.SIGTERM, *hung_up]


def end_quietly() -> None:
    """An interrupted command ends with the status that tells so, and prints no trace."""
    for number in interrupts():
        signal.signal(number, lambda number, frame: sys.exit(128 + number))


@contextlib.contextmanager
def noted_interrupts() -> Iterator[List[int]]:
    """What would end this command is only noted, so that it can't come between the start of a command and its end."""
    numbers: List[int] = []
    before = {number: signal.signal(number, lambda number, frame: numbers.append(number)) for number in interrupts()}
    try:
        yield numbers
    finally:
        for number, handler in before.items():
            signal.signal(number, handler)


def run(words: Sequence[str], take: Optional[Callable[[str], None]] = None, tick: Callable[[], None] = lambda: None, folder: Path = ROOT,
        source: object = subprocess.DEVNULL) -> int:
    """The status of a command that runs in a session of its own; where take is given it is handed each line that is printed."""
    streams = {} if take is None else {"stdout": subprocess.PIPE, "stderr": subprocess.STDOUT}
    with noted_interrupts() as numbers, tempfile.TemporaryDirectory(prefix="gustlantern-") as temporary:
        # rt runs programs there, as nobody where it runs as root.
        os.chmod(temporary, 0o711)
        environment = {**os.environ, "TMPDIR": temporary}
        ran = subprocess.Popen(words, stdin=source, start_new_session=True, env=environment, cwd=folder, **streams)
        try:
            for line in lines_of(ran):
                if numbers:
                    break
                if line:
                    take(line)
                tick()
        finally:
            end_session(ran)
    if numbers:
        sys.exit(128 + numbers[0])
    return ran.returncode if ran.returncode >= 0 else 128 - ran.returncode


def lines_of(ran: subprocess.Popen) -> Iterator[str]:
    """The lines of a command until it has ended, and an empty one wherever there is none for a while."""
    begun = b""
    while ran.stdout:
        if select.select([ran.stdout], [], [], PACE)[0]:
            more = os.read(ran.stdout.fileno(), 65536)
            *whole, begun = (begun + more).split(b"\n")
            yield from (line.decode(errors="replace") + "\n" for line in whole)
            if not more:
                break
        yield ""
    if begun:
        yield begun.decode(errors="replace")
    while ran.poll() is None:
        time.sleep(PACE / 10)
        yield ""


def running(session: int) -> Set[int]:
    """The processes of a session that still run: one that has ended may stay in the system's list until its parent looks."""
    found = set()
    for file in Path("/proc").glob("[0-9]*/stat"):
        with contextlib.suppress(OSError):
            state, _, _, its_session = file.read_text(errors="replace").rpartition(")")[2].split()[:4]
            if int(its_session) == session and state != "Z":
                found.add(int(file.parent.name))
    return found


def end_session(ran: subprocess.Popen) -> None:
    """Ends what is left of a command's session: rt has its provers in a group of their own. Each process is told once, and then killed."""
    for number in (signal.SIGTERM, signal.SIGKILL):
        told: Set[int] = set()
        until = time.monotonic() + PATIENCE
        while (left := running(ran.pid)) and time.monotonic() < until:
            for process in left - told:
                with contextlib.suppress(ProcessLookupError):
                    os.kill(process, number)
            told |= left
            time.sleep(PACE / 10)
    ran.wait()
