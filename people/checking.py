"""Checking: every session of the test set against its expected lines."""
from pathlib import Path
from typing import Iterator, List, Tuple

from people.composing import BadSession, compose
from people.running import ROOT, Failed, run

SESSIONS = ROOT / "sessions"


def names(folder: Path) -> List[str]:
    """The sessions of a folder; one that lacks either of its two files is named as well."""
    return sorted({path.stem for ending in ("session", "lines") for path in folder.glob(f"*.{ending}")})


def check(folder: Path = SESSIONS) -> Iterator[Tuple[str, bool]]:
    """For each session its place among all and its name with what came of it, and whether that is as expected."""
    found = names(folder)
    for place, name in enumerate(found, 1):
        differs = difference(folder / f"{name}.session", folder / f"{name}.lines")
        yield f"{place} of {len(found)}, {name}: {differs or 'as expected'}", not differs


def difference(session: Path, expected: Path) -> str:
    """The first difference between what is printed and what is expected, or nothing."""
    for path in (session, expected):
        if not path.exists():
            return f"{path.name} is missing"
    try:
        records = compose(session.read_text(encoding="utf-8"))
        printed = list(run(records))
    except BadSession as bad:
        return f"line {bad.bad_lines[0].number} can't be composed"
    except Failed as failure:
        return str(failure)
    wanted = expected.read_text(encoding="utf-8").splitlines()
    for place in range(max(len(wanted), len(printed))):
        pair = [lines[place] if place < len(lines) else "nothing" for lines in (printed, wanted)]
        if pair[0] != pair[1]:
            return f"line {place + 1} is '{pair[0]}', expected '{pair[1]}'"
    return ""
