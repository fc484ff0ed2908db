"""Progress of a proof, on standard error: a line rewritten in place on a terminal, else a line for a crate once it takes long."""
import re
import sys
import time
from typing import Iterable, Set, TextIO

from tools.counting import reached

# What rt prints when it begins a crate, and the prover when it has proved it.
BEGUN = re.compile(r"rt: chose --jobs \d+ for (\w+)")
PROVED = re.compile(r"logic=proved ")
# Seconds after which it takes long.
LONG = 10
CLEAR = "\r\x1b[K"


class Progress:
    """Counts crates by what rt prints of them: what a crate uses is proved before it, or was already."""

    def __init__(self, crates: Iterable[str], out: TextIO = sys.stderr):
        self.crates, self.out = set(crates), out
        self.done: Set[str] = set()
        self.now, self.shown = "", ""
        self.terminal, self.began = out.isatty(), time.monotonic()

    def take(self, line: str) -> None:
        """Takes a line of rt."""
        begun = BEGUN.match(line)
        if begun and begun[1] in self.crates:
            self.now = begun[1]
            self.done |= reached([self.now]) - {self.now}
        elif PROVED.match(line) and self.now not in {"", *self.done}:
            self.done.add(self.now)
            if not self.terminal and time.monotonic() - self.began > LONG:
                print(self.text(), file=self.out, flush=True)

    def text(self) -> str:
        seconds, at = time.monotonic() - self.began, f", at {self.now}" if self.now else ""
        return f"proving: {len(self.done)} of {len(self.crates)} crates done{at}, {seconds:.0f} s"

    def tick(self) -> None:
        """Shows on a terminal how far it is."""
        if self.terminal and self.text() != self.shown:
            self.shown = self.text()
            print(CLEAR + self.shown, end="", file=self.out, flush=True)

    def clear(self) -> None:
        """Leaves nothing on a terminal's line."""
        if self.shown:
            print(CLEAR, end="", file=self.out, flush=True)
