"""The programs of the tests: in C and in Rust over the archive of this machine, and the reference's."""
import functools
import os
import subprocess
from pathlib import Path
from typing import List, Optional, Tuple

from device.kit import ROOT, command, module_of
from library.building import archive

FOLDER = Path(__file__).resolve().parent
HEADER = ROOT / "library"
EXAMPLES = ROOT / "examples"
WRAPPER = ROOT / "library" / "rust"
MADE = ROOT / "target" / "library"
STRICT = ("-std=c99", "-Wall", "-Wextra", "-Wpedantic", "-Werror")

given_module: Optional[Path] = None


@functools.lru_cache(maxsize=None)
def library() -> Path:
    """The folder with the archive."""
    return archive(given_module or module_of())


@functools.lru_cache(maxsize=None)
def in_c(source: Path) -> str:
    """A program of one file of C."""
    made = MADE / "tests" / source.stem
    made.parent.mkdir(parents=True, exist_ok=True)
    command(["gcc", *STRICT, "-O1", f"-I{HEADER}", str(source), f"-L{library()}", "-lgustlantern", "-o", str(made)])
    return str(made)


def cargo(verb: str, folder: Path, target: Path, *words: str) -> str:
    """What cargo prints for a crate, without any registry."""
    where = ["--manifest-path", str(folder / "Cargo.toml"), "--target-dir", str(target)]
    settings = {**os.environ, "GUSTLANTERN_LIBRARY": str(library())}
    return command(["cargo", verb, "--release", "--offline", "--quiet", *where, *words], env=settings)


@functools.lru_cache(maxsize=None)
def in_rust() -> str:
    """The program that plays sessions through the wrapper."""
    cargo("build", WRAPPER, MADE / "rust", "--examples")
    return str(MADE / "rust" / "release" / "examples" / "session")


def players() -> List[Tuple[str, ...]]:
    """Each way to play a session: by record and by fields, in both languages."""
    return [(program, way) for program in (in_c(FOLDER / "session.c"), in_rust()) for way in ("records", "fields")]


def play(player: Tuple[str, ...], records: bytes) -> Tuple[int, List[str], List[str]]:
    """The status of a player, its lines, and what it says of ends and tables."""
    ended = subprocess.run(player, input=records, stdout=subprocess.PIPE, stderr=subprocess.PIPE)
    return ended.returncode, ended.stdout.decode().splitlines(), ended.stderr.decode().splitlines()
