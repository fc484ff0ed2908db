"""The parts of the documents that are made: a table of the crates with what was measured of them, and a table of the wrong programs."""
import re
import sys

from tools.counting import ROOT, counts, listed, places

MEASURES, PROMISES = ROOT / "docs" / "MEASURES.md", ROOT / "docs" / "PROMISES.md"
COLUMNS = ("crate", "functions", "lines of code", "of definitions", "of proofs", "wrong programs", "seconds", "memory, MiB")
BETWEEN = re.compile(r"(<!-- tools/documents makes this -->\n)(.*)(<!-- up to here -->\n)", re.DOTALL)
UNKNOWN = "-"


def table(heading, rows):
    lines = [heading, ["---"] * len(heading), *rows]
    return "".join("| " + " | ".join(map(str, cells)) + " |\n" for cells in lines)


def part_of(document):
    """The made part of a document, between its two marks."""
    found = BETWEEN.search(document.read_text())
    if not found:
        sys.exit(f"{document.relative_to(ROOT)} has no part between the marks of tools/documents")
    return found


def measured():
    """The seconds and the memory that stand in the document, by crate."""
    rows = re.findall(r"^\| (\w+) \|.* ([\d-]+) \| ([\d-]+) \|$", part_of(MEASURES)[2], re.MULTILINE)
    return {crate: cells for crate, *cells in rows}


def crate_table(known):
    """A row for each crate, and one with the sums and the greatest memory."""
    rows = [[crate, *counts(crate), *known.get(crate, (UNKNOWN, UNKNOWN))] for crate in listed()]
    columns = [[int(cell) for cell in column if cell != UNKNOWN] for column in list(zip(*rows))[1:]]
    return table(COLUMNS, rows + [["all", *map(sum, columns[:-1]), max(columns[-1], default=UNKNOWN)]])


def program_table():
    """A row for each crate that has wrong programs: what each of them changes."""
    found = {crate: places(crate) for crate in listed()}
    rows = ([crate, "; ".join(f"`{place}`: {', '.join(labels)}" for place, labels in changed.items())] for crate, changed in found.items() if changed)
    return table(("crate", "what is changed, and the wrong programs that change it"), rows)


def made(document, part):
    """The text of a document with its made part anew."""
    found = part_of(document)
    return found.string[:found.start(2)] + part + found.string[found.end(2):]


def all_made():
    """Each document that has a made part, with its text as it should be."""
    return {MEASURES: made(MEASURES, crate_table(measured())), PROMISES: made(PROMISES, program_table())}
