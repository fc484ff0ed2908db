"""Running: the bench program, proved and then run on records."""
import functools
import os
import shutil
import signal
import subprocess
import tempfile
from pathlib import Path
from typing import Iterator, List

from people import children

ROOT = Path(__file__).resolve().parent.parent
PROGRAM = "bench"
TOOL = "rt"
PROVE = '. tools/kit && prove "$1"'
COMMAND = '. tools/kit && program "$1"'
# What a program says of its failure is a line or two; of more, the beginning is shown.
MOST_SAID = 2000


class NotRun(Exception):
    """Why the program could not be proved or run."""


class Failed(NotRun):
    """Why the program's lines are not all that it should have printed."""

    def __init__(self, reasons: List[str]):
        super().__init__(f"the program '{PROGRAM}' failed, and its output is cut short: {'; '.join(reasons)}")


def script(text: str) -> List[str]:
    """A script over the shared shell file as a command."""
    return ["/bin/sh", "-c", text, "sh", PROGRAM]


def answer_of(text: str) -> str:
    """What a short script prints."""
    child = children.start(script(text), cwd=ROOT, stdin=subprocess.DEVNULL, stdout=subprocess.PIPE, stderr=subprocess.PIPE)
    try:
        printed, said = child.communicate()
    finally:
        children.end(child)
    if child.returncode != 0:
        raise NotRun(said.decode(errors="replace").strip() or f"'{text}' ended with {child.returncode}")
    return printed.decode()


def ready() -> None:
    """Refuses, before any work, where the tool is missing that proves the program."""
    if not shutil.which(TOOL):
        raise NotRun(f"{TOOL} is not on the PATH: the program '{PROGRAM}' is proved with the Rattle kit, which README.md names")


@functools.lru_cache(maxsize=None)
def prove() -> None:
    """Proves the program and what it uses, once. What the proof says goes to standard error as it comes."""
    with tempfile.TemporaryDirectory() as place:
        # Whatever is run there as another user has to get in.
        os.chmod(place, 0o711)
        child = children.start(script(PROVE), cwd=ROOT, env={**os.environ, "TMPDIR": place}, stdin=subprocess.DEVNULL, stdout=2)
        try:
            status = child.wait()
        finally:
            children.end(child)
    if status != 0:
        raise NotRun(f"the program '{PROGRAM}' is not proved")


@functools.lru_cache(maxsize=None)
def command() -> List[str]:
    """The words that run the program."""
    return answer_of(COMMAND).split()


class Program:
    """The program while it runs. Bytes go in, from a file or by hand, and lines come out."""

    def __init__(self, source: object = subprocess.PIPE):
        prove()
        self.said = tempfile.TemporaryFile()
        self.child = children.start(command(), cwd=ROOT, stdin=source, stdout=subprocess.PIPE, stderr=self.said)

    def hand(self, data: bytes) -> None:
        """Gives it bytes at once. One that has gone is found where its next line is asked for."""
        try:
            self.child.stdin.write(data)
            self.child.stdin.flush()
        except BrokenPipeError:
            pass

    def close(self) -> None:
        """Says that no more bytes come."""
        try:
            self.child.stdin.close()
        except BrokenPipeError:
            pass

    def lines(self) -> Iterator[str]:
        """Its lines as they come; behind the last one it is known whether they are all."""
        rest = b""
        try:
            for line in self.child.stdout:
                rest = b"" if line.endswith(b"\n") else line
                if not rest:
                    yield line[:-1].decode("ascii", "backslashreplace")
            self.child.wait()
        finally:
            children.end(self.child)
        reasons = self.reasons(rest.decode("ascii", "backslashreplace"))
        if reasons:
            raise Failed(reasons)

    def reasons(self, rest: str) -> List[str]:
        """How the program shows that it failed."""
        self.said.seek(0)
        said, status = self.said.read(MOST_SAID).decode(errors="replace").strip(), self.child.returncode
        reasons = [f"it says '{said}'"] if said else []
        if status < 0:
            reasons.append(f"it was ended by {signal.Signals(-status).name}")
        elif status > 0:
            reasons.append(f"it ended with status {status}")
        return reasons + ([f"its last line, '{rest}', has no end"] if rest else [])


def run(records: bytes) -> Iterator[str]:
    """The lines that the program prints for these records, as they come."""
    page = tempfile.TemporaryFile()
    try:
        page.write(records)
        page.seek(0)
    except OSError as error:
        raise NotRun(f"the records, in a temporary file: {error.strerror}") from error
    with page:
        yield from Program(page).lines()
