"""A bench for the tests of the tests: it has its lines from a file, reads and writes as the proved one does, and may have a fault.

    python3 -B stand_in.py LINES [FAULT]
"""
import os
import sys
from pathlib import Path

BUFFER = 65536
HEADER = 4
OTHER_DESCRIPTOR = "reads another descriptor behind the first buffer"
SHORT_RECORDS = "takes four bytes for enough of a record"
LOST_BYTE = "loses a byte behind each buffer"
LATE_LINES = "starts the second buffer of lines one byte late"
SHORT_READ = "takes a short read for the end"
WAITS_FOR_END = "answers at the end alone"
WAITS_FOR_WHOLE = "answers when no record is begun"
SILENT_INPUT = "takes a failing read for the end"
SILENT_OUTPUT = "says nothing of a failing write"
WRITES_ON = "goes on behind a failing write"
FAULTS = (OTHER_DESCRIPTOR, SHORT_RECORDS, LOST_BYTE, LATE_LINES, SHORT_READ, WAITS_FOR_END, WAITS_FOR_WHOLE, SILENT_INPUT, SILENT_OUTPUT, WRITES_ON)


class Failed(Exception):
    """A read or a write that failed."""


class StandIn:
    def __init__(self, lines: bytes, fault: str):
        self.lines, self.fault = iter(lines.splitlines(keepends=True)), fault
        self.begun, self.waiting = b"", b""
        self.fresh, self.ended = False, False
        self.read_bytes = self.written_bytes = 0

    def read(self) -> bytes:
        descriptor = 9 if self.fault == OTHER_DESCRIPTOR and self.read_bytes >= BUFFER else 0
        try:
            piece = os.read(descriptor, BUFFER - len(self.begun))
        except OSError:
            if self.fault != SILENT_INPUT:
                raise Failed("input") from None
            piece = b""
        self.ended = not piece or self.fault == SHORT_READ and len(piece) < BUFFER - len(self.begun)
        before, self.read_bytes = self.read_bytes, self.read_bytes + len(piece)
        lost = self.read_bytes // BUFFER * BUFFER - before
        return piece[:lost] + piece[lost + 1:] if self.fault == LOST_BYTE and 0 < lost < len(piece) else piece

    def write(self, text: bytes) -> None:
        late = BUFFER - self.written_bytes
        if self.fault == LATE_LINES and 0 <= late < len(text):
            text = text[:late] + b"\0" + text[late:]
        while text:
            try:
                written = os.write(1, text)
            except OSError:
                if self.fault in (SILENT_OUTPUT, WRITES_ON):
                    written = len(text)
                if self.fault != SILENT_OUTPUT:
                    os.write(2, b"bench: output\n")
                if self.fault not in (SILENT_OUTPUT, WRITES_ON):
                    sys.exit(0)
            text, self.written_bytes = text[written:], self.written_bytes + written

    def is_whole(self) -> bool:
        """Whether a record is at hand."""
        return len(self.begun) >= HEADER and len(self.begun) >= HEADER + int.from_bytes(self.begun[:2], "little")

    def take(self) -> None:
        """Takes the records at hand; each but the first has a line."""
        while self.is_whole():
            self.begun = self.begun[HEADER + int.from_bytes(self.begun[:2], "little"):]
            if self.fresh:
                self.waiting += next(self.lines, b"")
            self.fresh = True
        if self.fault == SHORT_RECORDS and len(self.begun) >= HEADER:
            self.waiting, self.ended, self.lines = self.waiting + b"1 12 0\n", True, iter(())
        if self.ended and (self.begun or not self.fresh):
            self.waiting += next(self.lines, b"")
        if self.ended or not (self.fault == WAITS_FOR_END or self.fault == WAITS_FOR_WHOLE and self.begun):
            self.write(self.waiting)
            self.waiting = b""

    def play(self) -> None:
        try:
            while not self.ended:
                self.begun += self.read()
                self.take()
        except Failed as failed:
            os.write(2, f"bench: {failed}\n".encode())


if __name__ == "__main__":
    StandIn(Path(sys.argv[1]).read_bytes(), " ".join(sys.argv[2:])).play()
