"""Proves crates of this clone, one command at a time, with progress; what the proof prints is shown where it fails.

    python3 -B -m tools.proving check CRATE ..   proves crates and all that they use, and builds the programs among them; one that is noted as proved at once
    python3 -B -m tools.proving hold WORD ..     runs a command that proves, itself or by what it starts
"""
import re
import subprocess
import sys
from typing import List, Sequence

from tools.counting import CRATES, is_program, listed, reached
from tools.lock import held
from tools.needs import need, words_of
from tools.noted import is_proved, note, sources
from tools.progress import Progress
from tools.running import end_quietly, run

# What rt says of all that goes well: thousands of lines.
WELL = re.compile(r".*: proved$|checked \w+, |(statements|library|crate) \w+: modules loaded=|axioms \w+: none ")


class NotProved(Exception):
    """What rt printed where it did not prove."""


def rt(words: Sequence[str], crate: str, progress: Progress, source: object = subprocess.DEVNULL) -> None:
    """Has rt prove a crate and what it uses, by a command in the crate's folder."""
    printed: List[str] = []

    def take(line: str) -> None:
        printed.append(line)
        progress.take(line)

    try:
        status = run(words, take, progress.tick, folder=CRATES / crate, source=source)
    finally:
        progress.clear()
    if status:
        said = "".join(line for line in printed if not WELL.match(line)).strip()
        raise NotProved(said or f"rt ended with {status}")


def prove_one(crate: str, progress: Progress) -> None:
    """Proves a crate. rt builds a program only where it also runs it, and so it is given the page of its own test."""
    if not is_program(crate):
        rt(["rt", "check"], crate, progress)
        return
    with (CRATES / crate / "stdin").open("rb") as page:
        rt(["rt", "run"], crate, progress, source=page)


def prove(crates: Sequence[str]) -> None:
    """Proves crates and all that they use, unless they are programs that are proved."""
    if all(map(is_proved, crates)):
        return
    with held():
        progress = Progress(reached(crates))
        for crate in crates:
            proved_from = sources(crate)
            prove_one(crate, progress)
            note(crate, proved_from)


def main(words: List[str]) -> int:
    parser = words_of("python3 -B -m tools.proving", __doc__)
    parser.add_argument("verb", choices=("check", "hold"))
    parser.add_argument("words", nargs="...", metavar="WORD ..")
    chosen = parser.parse_args(words)
    if not chosen.words:
        parser.error(f"{chosen.verb} needs a word")
    unknown = [word for word in chosen.words if chosen.verb == "check" and word not in listed()]
    if unknown:
        parser.error(f"no crates: {' '.join(unknown)}")
    need("rt")
    end_quietly()
    if chosen.verb == "hold":
        with held():
            return run(chosen.words)
    try:
        prove(chosen.words)
    except NotProved as reason:
        sys.exit(str(reason))
    return 0


if __name__ == "__main__":
    sys.exit(main(sys.argv[1:]))
