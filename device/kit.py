"""The kit: its tools, and the LLVM module that it makes of a crate."""
import functools
import shutil
import subprocess
import tempfile
from pathlib import Path
from typing import List

from tools.counting import reached
from tools.lock import held
from tools.progress import Progress
from tools.proving import NotProved, prove, rt

ROOT = Path(__file__).resolve().parent.parent
WORK = ROOT / "target" / "device"
BIN, TOOLCHAIN = Path("bin"), Path("toolchain")
CRATE = "kernel"


class NotBuilt(Exception):
    """Why something could not be built."""


def command(words: List[str], **settings) -> str:
    """What a command prints; what it complains of is told where it fails."""
    try:
        ended = subprocess.run(words, stdout=subprocess.PIPE, stderr=subprocess.PIPE, universal_newlines=True, **settings)
    except OSError as reason:
        raise NotBuilt(f"{words[0]} can't be run: {reason}") from None
    if ended.returncode:
        raise NotBuilt(f"{Path(words[0]).name} failed:\n{(ended.stdout + ended.stderr).strip()}")
    return ended.stdout


@functools.lru_cache(maxsize=None)
def home() -> Path:
    return Path(command(["rt", "doc"]).strip()).parent


def tool(name: str) -> str:
    return str(home() / TOOLCHAIN / "bin" / name)


def kit_that_keeps(copy: Path, kept: Path) -> Path:
    """A copy of the kit's folder by links, whose clang first copies the module that it is handed to a place; its rt."""
    real_folders = [Path("."), BIN, TOOLCHAIN, TOOLCHAIN / "bin"]
    for folder in real_folders:
        (copy / folder).mkdir(parents=True, exist_ok=True)
        for entry in (home() / folder).iterdir():
            made = copy / folder / entry.name
            if folder == BIN and entry.name.startswith("rt"):
                # rt looks for its kit around the real place of its own files.
                shutil.copy(entry, made)
            elif folder / entry.name not in real_folders:
                made.symlink_to(entry)
    clang = copy / TOOLCHAIN / "bin" / "clang"
    clang.unlink()
    clang.write_text(KEEPING_CLANG.format(kept=kept, clang=tool("clang")))
    clang.chmod(0o755)
    return copy / BIN / "rt"


KEEPING_CLANG = """#!/bin/sh
for word in "$@"; do
    case $word in *.bc) cp "$word" '{kept}' ;; esac
done
exec '{clang}' "$@"
"""


def module_of(crate: str = CRATE) -> Path:
    """Proves a library and keeps the LLVM module that its archive is compiled from."""
    kept = WORK / f"{crate}.bc"
    # rt ci refuses links in the clone, so the copy of the kit is elsewhere.
    with held(), tempfile.TemporaryDirectory(prefix="gustlantern-") as folder:
        WORK.mkdir(parents=True, exist_ok=True)
        kept.unlink(missing_ok=True)
        try:
            prove([crate])
            rt([str(kit_that_keeps(Path(folder) / "kit", kept)), "lib"], crate, Progress(reached([crate])))
        except NotProved as reason:
            raise NotBuilt(str(reason)) from None
    if not kept.exists():
        raise NotBuilt(f"rt lib handed clang no module of {crate}")
    return kept
