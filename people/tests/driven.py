"""The command ./bench over a stand-in for the program: python3 -B -m people.tests.driven HOW WORD .."""
import sys

from people import children, commands, running

STAND_IN = f"{sys.executable} -B -m people.tests.stand_in"
# A prover that has a file of its own and starts two others.
PROVER = f"log=$(mktemp) && {STAND_IN} sleeps & {STAND_IN} sleeps"

if __name__ == "__main__":
    how, *words = sys.argv[1:]
    children.GRACE_SECONDS = 1.0
    commands.ready = lambda: None
    running.PROVE = PROVER if how == "proves" else "exit 1" if how == "not-proved" else ":"
    running.COMMAND = f"echo {STAND_IN} {how}"
    sys.exit(commands.main(words))
