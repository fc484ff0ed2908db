"""Random sessions, and the lines that the reference prints for them."""
import functools
import subprocess
from pathlib import Path
from typing import Tuple

from device.kit import ROOT, WORK, command

SEED = 16


@functools.lru_cache(maxsize=None)
def programs() -> Path:
    """The folder of the reference's programs, built without any registry."""
    folder = ROOT / "reference"
    where = ["--manifest-path", str(folder / "Cargo.toml"), "--target-dir", str(folder / "target")]
    command(["cargo", "build", "--release", "--offline", "--quiet", *where])
    return folder / "target" / "release"


def random_session(number: int, seed: int = SEED) -> Tuple[bytes, str]:
    """The records of one of a seed's sessions, and the reference's lines."""
    WORK.mkdir(parents=True, exist_ok=True)
    file = WORK / f"random-{seed}-{number}.records"
    command([str(programs() / "compare"), "--write", str(number), "--seed", str(seed), "--file", str(file)])
    records = file.read_bytes()
    file.unlink()
    ended = subprocess.run([str(programs() / "bench")], input=records, stdout=subprocess.PIPE, check=True)
    return records, ended.stdout.decode()
