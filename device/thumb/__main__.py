"""Runs a linked program and prints what it writes; with --calls also what it took and what each call of the library took."""
import argparse
import sys
from pathlib import Path
from typing import List, Optional

from device.thumb.faults import Fault
from device.thumb.processors import BY_NAME, CORTEX_M0_PLUS
from device.thumb.running import WATCHED, Run, run


def amounts(instructions: int, cycles: Optional[int], stack: int) -> str:
    counted = "" if cycles is None else f", {cycles} cycles"
    return f"{instructions} instructions{counted}, {stack} bytes of stack"


def report(ended: Run) -> List[str]:
    lines = [f"{call.name}: {amounts(call.instructions, call.cycles, call.stack)}" for call in ended.calls]
    return lines + [f"in all: {amounts(ended.instructions, ended.cycles, ended.stack)}"]


def main(words: List[str]) -> int:
    parser = argparse.ArgumentParser(prog="python3 -B -m device.thumb", description=__doc__)
    parser.add_argument("program", type=Path)
    parser.add_argument("--processor", choices=sorted(BY_NAME), default=CORTEX_M0_PLUS.name)
    parser.add_argument("--calls", action="store_true")
    parser.add_argument("--watch", default=WATCHED, help="the beginning of the names of the functions whose calls are counted")
    chosen = parser.parse_args(words)
    try:
        ended = run(chosen.program, BY_NAME[chosen.processor], chosen.watch)
    except (Fault, OSError) as reason:
        print(getattr(reason, "written", ""), end="", flush=True)
        print(reason, file=sys.stderr)
        return 1
    print(ended.text, end="")
    if chosen.calls:
        print("\n".join(report(ended)))
    return 0 if ended.well else 1


if __name__ == "__main__":
    sys.exit(main(sys.argv[1:]))
