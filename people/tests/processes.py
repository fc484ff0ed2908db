"""What tests of whole processes share: ./bench over a stand-in for the program, with files of its own."""
import os
import subprocess
import sys
import tempfile
import time
import unittest
from pathlib import Path

from people.running import ROOT
from people.tests import session_w
from people.tests.stand_in import LINES, NOTES, noted

LONGEST_SECONDS = 30


def gone(number):
    """Whether a process has ended; one that nobody has asked after yet has as well."""
    try:
        return Path(f"/proc/{number}/stat").read_text(encoding="utf-8").rpartition(")")[2].split()[0] == "Z"
    except OSError:
        return True


class Processes(unittest.TestCase):
    def setUp(self):
        folder = tempfile.TemporaryDirectory()
        self.addCleanup(folder.cleanup)
        self.folder = Path(folder.name)
        self.session = self.folder / "w.session"
        self.session.write_text(session_w.TEXT, encoding="utf-8")
        self.notes = self.folder / "notes"
        self.temporary = self.folder / "temporary"
        self.temporary.mkdir()

    def start(self, how, *words, lines=session_w.LINES, **streams):
        """Starts a command over a stand-in."""
        environment = {**os.environ, LINES: "\n".join(lines), NOTES: str(self.notes), "TMPDIR": str(self.temporary)}
        # Python's own buffer is one of the things that are tested.
        environment.pop("PYTHONUNBUFFERED", None)
        options = {"stdin": subprocess.DEVNULL, "stdout": subprocess.PIPE, "stderr": subprocess.PIPE, **streams}
        started = subprocess.Popen([sys.executable, "-B", "-m", "people.tests.driven", how, *map(str, words)], cwd=ROOT, env=environment,
                                   **options)
        self.addCleanup(self.end, started)
        return started

    def end(self, started):
        for stream in (started.stdin, started.stdout, started.stderr):
            if stream and not stream.closed:
                stream.close()
        if started.poll() is None:
            started.kill()
            started.wait()

    def outcome(self, started, given=None):
        """Status, standard output and standard error of a command that has ended."""
        printed, said = started.communicate(given, timeout=LONGEST_SECONDS)
        return started.returncode, (printed or b"").decode(), (said or b"").decode()

    def ended(self, how, *words, **options):
        return self.outcome(self.start(how, *words, **options))

    def wait_for(self, what):
        limit = time.monotonic() + LONGEST_SECONDS
        while not what():
            self.assertLess(time.monotonic(), limit, "it takes too long")
            time.sleep(0.01)

    def children(self, count):
        """The stand-ins that are there, as soon as they are that many."""
        self.wait_for(lambda: len(noted(self.notes)) == count)
        return noted(self.notes)
