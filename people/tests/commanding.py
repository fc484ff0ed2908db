"""What tests of commands share: a folder with session W, and a command with its outputs and the program's lines given."""
import io
import tempfile
import unittest
from pathlib import Path
from unittest import mock

from people import checking, commands
from people.tests import session_w


class Output(io.StringIO):
    """A standard output that takes bytes too."""

    def __init__(self):
        super().__init__()
        self.buffer = io.BytesIO()


class Commanding(unittest.TestCase):
    def setUp(self):
        folder = tempfile.TemporaryDirectory()
        self.addCleanup(folder.cleanup)
        self.folder = Path(folder.name)
        self.session = self.file("w.session", session_w.TEXT)

    def file(self, name, text):
        path = self.folder / name
        path.write_text(text, encoding="utf-8")
        return str(path)

    def command(self, *words, lines=session_w.LINES, given=b""):
        """Exit status, standard output (text or bytes) and standard error of a command."""
        output, error = Output(), io.StringIO()
        runs = mock.Mock(return_value=list(lines)) if isinstance(lines, list) else mock.Mock(side_effect=lines)
        standard_input = mock.Mock(buffer=io.BytesIO(given))
        with mock.patch.object(commands, "run", runs), mock.patch.object(checking, "run", runs), mock.patch.object(commands, "ready"), \
                mock.patch("sys.stdout", output), mock.patch("sys.stderr", error), mock.patch("sys.stdin", standard_input):
            status = commands.status_of(list(words))
        return status, output.getvalue() or output.buffer.getvalue(), error.getvalue()
