"""Notes of what was proved: a program whose sources, kit and file are as noted need not be asked of rt again."""
import hashlib
import os
from pathlib import Path
from typing import Iterable, Iterator, List

from tools.counting import CRATES, OUT, ROOT, is_program, reached
from tools.needs import KIT

NOTES = ROOT / "target" / "proved"
NO_PROGRAM = "none"


def digest_of(files: Iterable[Path]) -> str:
    """The digest of the kit, of the machine, and of files: of each its name, its length and its bytes."""
    digest = hashlib.sha256(f"{KIT} {os.uname().machine}\n".encode())
    for file in files:
        held = file.read_bytes()
        digest.update(f"{file.relative_to(ROOT)} {len(held)}\n".encode() + held)
    return digest.hexdigest()


def files_of(crate: str) -> Iterator[Path]:
    """The files of a crate but those that rt made of them."""
    for part in sorted((CRATES / crate).iterdir()):
        if part.name != OUT:
            yield from sorted(part.rglob("*") if part.is_dir() else [part])


def sources(crate: str) -> str:
    """The digest of all that a crate is proved from: the list of crates, and every file of those that it reaches."""
    found = (file for name in sorted(reached([crate])) for file in files_of(name))
    return digest_of([ROOT / "crates.txt", *(file for file in found if file.is_file())])


def program_file(crate: str) -> Path:
    return CRATES / crate / OUT / crate


def program(crate: str) -> str:
    """The digest of a program's file."""
    file = program_file(crate)
    return digest_of([file]) if file.is_file() else NO_PROGRAM


def noted(crate: str) -> List[str]:
    """Both digests as they were when a program was proved; nothing where none was."""
    file = NOTES / crate
    return file.read_text().split() if file.is_file() else []


def is_proved(crate: str) -> bool:
    return noted(crate) == [sources(crate), program(crate)]


def note(crate: str, proved_from: str) -> None:
    """Notes a program that was proved, if its sources are still those of before the proof."""
    if is_program(crate) and program(crate) != NO_PROGRAM and sources(crate) == proved_from:
        NOTES.mkdir(parents=True, exist_ok=True)
        (NOTES / crate).write_text(f"{proved_from} {program(crate)}\n")
