"""A small clone with a stand-in for rt, in which proving is tested: `upper` is a program that uses `lower`."""
import os
import shutil
import signal
import subprocess
import sys
import tempfile
import unittest
from pathlib import Path
from typing import List

from tools.lock import HELD
from tools.needs import KIT

TOOLS = Path(__file__).resolve().parent.parent
LIMIT = 30

# As rt does, it works in a crate's folder, has its provers in a group of their own, where SIGINT is ignored, makes a temporary folder, and
# builds a program anew whose file is not the one that it built.
RT = """#!/bin/sh
[ "$1" != version ] || { echo "${STAND_IN_KIT:-%s}"; exit; }
[ "$1" != ci ] || { echo "$PWD $*" >calls; printf "$STAND_IN_LINES"; exit "${STAND_IN_STATUS:-0}"; }
crate=$(basename "$PWD")
here=$(mktemp -d)
echo begin >>../../calls
for name in lower upper; do
    [ -z "${STAND_IN_SECONDS:-}" ] || '%s' -c 'import os, time; os.setpgid(0, 0); time.sleep(float(os.environ["STAND_IN_SECONDS"]))' &
    wait
    echo "rt: chose --jobs 2 for $name"
    [ "$name" != "${STAND_IN_FAILS:-}" ] || { echo "fn $name::last: not proved"; echo "logic=not-proved"; exit 1; }
    echo "fn $name::first: proved"
    echo "logic=proved functions=1"
    [ "$name" != "$crate" ] || break
done
[ -z "${STAND_IN_CHANGES:-}" ] || echo changed >>"../../$STAND_IN_CHANGES"
if [ "$1" = run ]; then
    mkdir -p out
    [ -f "out/$crate" ] && cksum <"out/$crate" | cmp -s - out/stamp || { echo program >"out/$crate"; cksum <"out/$crate" >out/stamp; }
    cat >../../given
fi
rm -r "$here"
echo end >>../../calls
""" % (KIT, sys.executable)


class Clone(unittest.TestCase):
    """Tests in a clone of their own."""

    def setUp(self) -> None:
        folder = tempfile.TemporaryDirectory(prefix="clone-")
        self.addCleanup(folder.cleanup)
        self.root = Path(folder.name).resolve()
        shutil.copytree(TOOLS, self.root / "tools", ignore=shutil.ignore_patterns("tests", "__pycache__"))
        self.write("crates.txt", "lower:\nupper: lower io\n")
        self.write("crates/lower/src/lib.rt", "one\n")
        self.write("crates/lower/specs/Lib.antt", "two\n")
        self.write("crates/upper/src/main.rt", "three\n")
        self.write("crates/upper/stdin", "four\n")
        self.write("bin/rt", RT).chmod(0o755)
        (self.root / "room").mkdir()

    def write(self, name: str, text: str) -> Path:
        file = self.root / name
        file.parent.mkdir(parents=True, exist_ok=True)
        file.write_text(text)
        return file

    def start(self, *words: str, stderr: int = subprocess.PIPE, **settings: str) -> subprocess.Popen:
        """Starts the command that proves, with settings of the environment."""
        return self.launch([sys.executable, "-B", "-m", "tools.proving", *words], stderr, **settings)

    def launch(self, command: List[str], stderr: int = subprocess.PIPE, **settings: str) -> subprocess.Popen:
        known = {name: value for name, value in os.environ.items() if name != HELD}
        places = {"PATH": f"{self.root / 'bin'}:{os.environ['PATH']}", "TMPDIR": str(self.root / "room")}
        ran = subprocess.Popen(command, cwd=self.root, env={**known, **places, **settings}, stdin=subprocess.DEVNULL,
                                stdout=subprocess.PIPE, stderr=stderr, universal_newlines=True)
        self.addCleanup(self.end, ran)
        return ran

    def end(self, ran: subprocess.Popen) -> None:
        with ran:
            ran.terminate()

    def ended(self, ran: subprocess.Popen, status: int = 0) -> str:
        """What a command printed that ends with a status, and within the limit."""
        printed, said = ran.communicate(timeout=LIMIT)
        self.assertEqual(ran.returncode, status, (printed, said))
        return printed + (said or "")

    def prove(self, *words: str, status: int = 0, **settings: str) -> str:
        return self.ended(self.start("check", *words, **settings), status)

    def calls(self) -> List[str]:
        """When the stand-in began and ended."""
        file = self.root / "calls"
        return file.read_text().split() if file.exists() else []

    def left(self) -> List[str]:
        """Processes that still run in this clone, and temporary files."""
        running = []
        for process in Path("/proc").glob("[0-9]*"):
            try:
                place = (process / "cwd").resolve()
                here = self.root in (place, *place.parents) and " Z " not in (process / "stat").read_text()
                running += [(process / "cmdline").read_text().replace("\0", " ")] if here else []
            except OSError:
                continue
        return running + [file.name for file in (self.root / "room").iterdir()]

    def begins(self, ran: subprocess.Popen) -> None:
        """Waits until a command has rt prove."""
        while not self.calls():
            self.assertIsNone(ran.poll())

    def interrupt(self, ran: subprocess.Popen, number: signal.Signals) -> str:
        """What a command says that is interrupted while rt proves."""
        self.begins(ran)
        ran.send_signal(number)
        return self.ended(ran, 128 + number)
