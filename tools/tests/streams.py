"""How a bench program reads and writes: it answers at once, and tells of what fails. What plays it is given by a subclass."""
import os
import pty
import resource
import select
import signal
import subprocess
import time
import tty
from pathlib import Path
from typing import List, Tuple

from device.reference import random_session
from people.composing import compose
from people.checking import SESSIONS

# Seconds for an answer, and to see that none comes.
LIMIT, WHILE = 20, 0.3
# A session with more than two buffers of lines, and a limit of a file inside the second buffer.
LONG_SESSION, FILE_LIMIT = 374, 100_000


def by_hand(name: str) -> Tuple[List[bytes], List[str]]:
    """The records of a session by hand, and its lines."""
    rest, records = compose((SESSIONS / f"{name}.session").read_text(encoding="utf-8")), []
    while rest:
        end = 4 + int.from_bytes(rest[:2], "little")
        records.append(rest[:end])
        rest = rest[end:]
    return records, (SESSIONS / f"{name}.lines").read_text(encoding="utf-8").splitlines(keepends=True)


class Streams:
    """The tests, for a class of unittest that has `words` too: the words that run a program that is to print these lines."""

    limit = LIMIT

    def start(self, lines: List[str], before: str = "", **streams) -> subprocess.Popen:
        """Starts the program; the shell first does what stands before it, as to close a stream."""
        words = ["sh", "-c", f'exec "$@" {before}', "sh", *self.words("".join(lines).encode())]
        ran = subprocess.Popen(words, **{"stdin": subprocess.PIPE, "stdout": subprocess.PIPE, "stderr": subprocess.PIPE, **streams})
        self.addCleanup(self.end, ran)
        return ran

    def end(self, ran: subprocess.Popen) -> None:
        with ran:
            ran.kill()

    def printed(self, ran: subprocess.Popen, lines: int, limit: float = 0) -> str:
        """What is printed until there are so many lines or the time is up."""
        found, until = b"", time.monotonic() + (limit or self.limit)
        while found.count(b"\n") < lines and select.select([ran.stdout], [], [], max(0, until - time.monotonic()))[0]:
            piece = os.read(ran.stdout.fileno(), 65536)
            if not piece:
                break
            found += piece
        return found.decode()

    def tells(self, ran: subprocess.Popen, lines: List[str] = ()) -> None:
        """It prints these lines and no more, says on standard error that something failed, and ends with 0."""
        printed, said = ran.communicate(timeout=self.limit)
        self.assertEqual((printed or b"").decode(), "".join(lines))
        self.assertRegex(said.decode(), r"\Abench: [^\n]+\n\Z")
        self.assertEqual(ran.returncode, 0)

    def ends(self, ran: subprocess.Popen, lines: List[str] = ()) -> None:
        """It prints these lines and no more, says nothing, and ends with 0."""
        printed, said = ran.communicate(timeout=self.limit)
        self.assertEqual((printed.decode(), said, ran.returncode), ("".join(lines), b"", 0))

    def test_each_record_is_answered_before_the_next_comes(self):
        (fresh, *records), lines = by_hand("pump-alarm-library")
        self.assertGreater(len(records), 20)
        ran = self.start(lines, bufsize=0)
        ran.stdin.write(fresh)
        for record, line in zip(records, lines):
            ran.stdin.write(record)
            self.assertEqual(self.printed(ran, 1), line)
        self.ends(ran)

    def test_two_records_are_answered_where_half_of_a_third_came(self):
        (fresh, one, two, three, *_), lines = by_hand("pump-alarm-library")
        for half in (1, 4, len(three) - 1):
            with self.subTest(half=half):
                ran = self.start(lines, bufsize=0)
                ran.stdin.write(fresh + one + two + three[:half])
                self.assertEqual(self.printed(ran, 2), "".join(lines[:2]))
                self.assertEqual(self.printed(ran, 1, WHILE), "")
                ran.stdin.write(three[half:])
                self.assertEqual(self.printed(ran, 1), lines[2])
                self.ends(ran)

    def test_empty_input_is_no_failure(self):
        self.ends(self.start(["0 12 0\n"], stdin=subprocess.DEVNULL), ["0 12 0\n"])

    def test_a_folder_as_input_is_told(self):
        folder = os.open("/", os.O_RDONLY)
        self.addCleanup(os.close, folder)
        self.tells(self.start(["0 12 0\n"], stdin=folder))

    def test_a_closed_input_is_told(self):
        self.tells(self.start(["0 12 0\n"], "<&-", stdin=subprocess.DEVNULL))

    def test_a_read_that_fails_behind_records_is_told(self):
        (fresh, one, two, three, *_), lines = by_hand("pump-alarm-library")
        theirs, ours = pty.openpty()
        tty.setraw(ours)
        ran = self.start(lines, stdin=theirs)
        os.close(theirs)
        os.write(ours, fresh + one + two + three[:5])
        printed = self.printed(ran, 2)
        os.close(ours)
        self.assertEqual(printed, "".join(lines[:2]))
        self.tells(ran)

    def test_a_full_output_is_told(self):
        records, lines = by_hand("pump-alarm-library")
        with open("/dev/full", "wb") as full:
            ran = self.start(lines, stdout=full)
            ran.stdin.write(b"".join(records))
            self.tells(ran)

    def test_a_closed_output_is_told(self):
        records, lines = by_hand("pump-alarm-library")
        ran = self.start(lines, ">&-", stdout=subprocess.DEVNULL)
        ran.stdin.write(b"".join(records))
        self.tells(ran)

    def test_a_write_that_fails_behind_lines_is_told(self):
        records, printed = random_session(LONG_SESSION)
        self.assertGreater(len(printed), FILE_LIMIT)
        file = Path(self.folder) / "printed"
        with file.open("wb") as opened, (Path(self.folder) / "records").open("w+b") as page:
            page.write(records)
            page.seek(0)
            ran = self.start([printed], stdin=page, stdout=opened, preexec_fn=limit_files)
            self.tells(ran)
        self.assertEqual(file.read_text(), printed[:FILE_LIMIT])


def limit_files() -> None:
    """Has a write fail that would make a file longer than the limit."""
    signal.signal(signal.SIGXFSZ, signal.SIG_IGN)
    resource.setrlimit(resource.RLIMIT_FSIZE, (FILE_LIMIT, FILE_LIMIT))
