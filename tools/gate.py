"""Runs rt ci, with no names, over this clone as it stands, and prints what it prints.

It ends badly where rt ci does, and where a wrong program is one that rt could not try: rt ci counts that as no failure. The last
line is 'N passed, M failed'.
"""
import re
import sys
from typing import List

from tools.lock import held
from tools.needs import need, words_of
from tools.running import end_quietly, run

# The line that rt ci prints where all is well, with how many wrong programs are bad, and its last one.
WELL = re.compile(r"rt: ok\b")
BAD = re.compile(r", (\d+) bad\b")
LAST = re.compile(r"(\d+) passed, (\d+) failed\n?")


def judged(status: int, lines: List[str]) -> int:
    """How the gate ends behind the lines of rt ci; the last of them is not yet printed, since it says what came of all."""
    last = LAST.fullmatch(lines[-1]) if lines else None
    well = [line for line in lines if WELL.match(line)]
    bad = sum(int(number) for line in well for number in BAD.findall(line))
    if bad and last:
        print(f"wrong programs that could not be tried, as told above: {bad}")
        print(f"{last[1]} passed, {bad + int(last[2])} failed", flush=True)
        return status or 1
    print("".join(lines[-1:]), end="", flush=True)
    return status or int(not well or not last or last[2] != "0")


def main(words: List[str]) -> int:
    words_of("python3 -B -m tools.gate", __doc__).parse_args(words)
    need("rt")
    end_quietly()
    lines: List[str] = []

    def take(line: str) -> None:
        if lines:
            print(lines[-1], end="", flush=True)
        lines.append(line)

    with held():
        status = run(["rt", "ci"], take)
    return judged(status, lines)


if __name__ == "__main__":
    sys.exit(main(sys.argv[1:]))
