"""The emulator qemu, where it is installed: a second opinion on what a program writes."""
import shutil
import subprocess
from pathlib import Path
from typing import Optional

from device.building import Target

PROGRAM = "qemu-system-arm"
SECONDS = 60
# Boards with flash or memory like it at 0, and with RAM where memory.ld has it, as large or larger.
BOARDS = {
    "cortex-m0plus": ("-M", "microbit", "-global", "nrf51-soc.sram-size=262144"),
    "cortex-m3": ("-M", "mps2-an385"),
}
ABSENT = f"{PROGRAM} is not on the PATH: only the interpreter ran the programs"


def installed() -> Optional[str]:
    return shutil.which(PROGRAM)


def written(program: Path, target: Target) -> str:
    """What a program writes there; the emulator passes it to its own standard error."""
    words = [PROGRAM, *BOARDS[target.name], "-nographic", "-monitor", "none", "-serial", "none",
             "-semihosting-config", "enable=on,target=native", "-kernel", str(program)]
    try:
        ended = subprocess.run(words, stdin=subprocess.DEVNULL, stdout=subprocess.PIPE, stderr=subprocess.STDOUT, timeout=SECONDS)
    except subprocess.TimeoutExpired:
        return f"no end after {SECONDS} seconds\n"
    return ended.stdout.decode("latin-1")
