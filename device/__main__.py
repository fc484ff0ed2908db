"""Plays sessions on the device and compares lines, the bytes of ends and the tables at last with the expected ones; all of sessions/ where none is named."""
import argparse
import sys
from pathlib import Path
from typing import List

from device import qemu
from device.building import SMALL, TARGETS, Player
from device.kit import CRATE, ROOT, NotBuilt, module_of
from device.playing import Played, Session, at_random, by_hand, most_by_kind, play
from tools.needs import need
from tools.running import end_quietly

SESSIONS = ROOT / "sessions"


def arguments(words: List[str]) -> argparse.Namespace:
    parser = argparse.ArgumentParser(prog="python3 -B -m device", description=__doc__)
    parser.add_argument("sessions", nargs="*", type=Path, metavar="SESSION", help="a file beside one with the ending .lines")
    parser.add_argument("--random", type=int, default=0, metavar="N", help="play as many random sessions too, beside the reference's lines")
    parser.add_argument("--module", type=Path, help=f"an LLVM module in place of the one that the crate {CRATE} gives")
    parser.add_argument("--processor", choices=sorted(TARGETS), action="append", help="on this processor alone")
    parser.add_argument("--optimise", default=SMALL[0], metavar="WORD", help="the compiler's word for it, as --optimise=-O2")
    parser.add_argument("--calls", action="store_true", help="print the most that each kind of event took")
    return parser.parse_args(words)


def print_most(all_played: List[Played]) -> None:
    for kind, most in most_by_kind(played for played in all_played if not played.difference).items():
        cycles = "" if most.cycles is None else f", {most.cycles} cycles"
        print(f"  {kind} ({most.calls}): at most {most.instructions} instructions{cycles}, {most.stack} bytes of stack")


def play_all(player: Player, sessions: List[Session], calls: bool) -> bool:
    all_played = [play(player, *session) for session in sessions]
    for played in all_played:
        if played.difference:
            print(f"{played.name} on {player.target.name}: {played.difference}")
    good = sum(not played.difference for played in all_played)
    print(f"{player.target.name}: {good} of {len(all_played)} sessions as expected", flush=True)
    if calls:
        print_most(all_played)
    return good == len(all_played)


def main(words: List[str]) -> int:
    chosen = arguments(words)
    need("rt", *(["cargo"] if chosen.random else []))
    end_quietly()
    try:
        sessions = [by_hand(session) for session in chosen.sessions or sorted(SESSIONS.glob("*.session"))]
        sessions += [at_random(number) for number in range(1, chosen.random + 1)]
        module = chosen.module or module_of()
        results = [play_all(Player(module, TARGETS[name], (chosen.optimise,)), sessions, chosen.calls) for name in chosen.processor or TARGETS]
    except (NotBuilt, OSError) as reason:
        print(reason, file=sys.stderr)
        return 1
    if not qemu.installed():
        print(qemu.ABSENT)
    return 0 if all(results) else 1


if __name__ == "__main__":
    sys.exit(main(sys.argv[1:]))
