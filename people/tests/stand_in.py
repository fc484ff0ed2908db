"""A stand-in for the bench program, or for its prover: python3 -B -m people.tests.stand_in HOW.

It answers each record behind the first as soon as it is whole, by the lines of session W or those that LINES holds, and where they
end it does what HOW says.
"""
import os
import signal
import sys
import time
from pathlib import Path

from people.tests import session_w

LINES = "STAND_IN_LINES"
NOTES = "STAND_IN_NOTES"


def say_and_end():
    sys.stderr.write("bench: input: Is a directory\n")


def end_with_a_status():
    sys.exit(3)


def end_by_a_signal():
    os.kill(os.getpid(), signal.SIGKILL)


def leave_a_line_cut():
    sys.stdout.write("6 8")


def sleep():
    """Notes that it is there, and stays."""
    with open(os.environ[NOTES], "a", encoding="utf-8") as notes:
        notes.write(f"{os.getpid()}\n")
    time.sleep(60)


def sleep_on():
    """Stays even where it is asked to end."""
    signal.signal(signal.SIGTERM, signal.SIG_IGN)
    sleep()


HOW = {
    "ends": lambda: None, "says": say_and_end, "status": end_with_a_status, "signal": end_by_a_signal, "cut": leave_a_line_cut,
    "sleeps": sleep, "sleeps-on": sleep_on,
}


def noted(notes: Path):
    """The numbers of the processes that have noted themselves."""
    return [int(line) for line in notes.read_text(encoding="utf-8").splitlines()] if notes.exists() else []


def records():
    """Each record of standard input as soon as it is whole."""
    head = sys.stdin.buffer.read(4)
    while len(head) == 4:
        yield head + sys.stdin.buffer.read(head[0])
        head = sys.stdin.buffer.read(4)


def main(how: str):
    lines = os.environ.get(LINES, "\n".join(session_w.LINES)).splitlines()
    if not how.startswith("sleeps"):
        answer(lines)
    HOW[how]()


def answer(lines):
    """A line for each record behind the first; one of event 0 is about the first, or about no record at all."""
    coming = records()
    first = next(coming, None)
    if lines and lines[0].startswith("0 "):
        print(lines[0], flush=True)
    elif first:
        # The next record is asked for only where there is an answer to it.
        for line, _ in zip(lines, coming):
            print(line, flush=True)


if __name__ == "__main__":
    main(sys.argv[1])
