"""What stands in the crates, read from their files alone: for the tables of the documents."""
import pathlib
import re

ROOT = pathlib.Path(__file__).resolve().parent.parent
CRATES = ROOT / "crates"
# What a crate is written in, by folder, and the folder that rt makes.
PARTS = {"src": ".rt", "specs": ".antt", "proofs": ".antt"}
OUT = "out"
FUNCTION = re.compile(r'^ *(?:pub )?(?:extern "C" )?fn (\w+)', re.MULTILINE)
# The first line of a part of a source: a function or a constant of code; a definition, also line by line, of a specification.
PART = {".rt": re.compile(r'^ *(?:pub )?(?:extern "C" )?(?:fn|const) (\w+)', re.MULTILINE),
        ".antt": re.compile(r"^(?!use |--)(?:(?:pub|abbrev|unfoldable|record|data) )*([\w'·-]+)", re.MULTILINE)}


def uses():
    """What each crate of crates.txt uses, in its order."""
    lines = (line.split("#")[0].partition(":") for line in (ROOT / "crates.txt").read_text().splitlines())
    # Behind a name may stand what the crate is made into, as `staticlib`.
    return {words.split()[0]: used.split() for words, _, used in lines if words.strip()}


def listed():
    """The names of crates.txt, in its order."""
    return list(uses())


def reached(names):
    """Crates of crates.txt and all that they use of it."""
    used, found, rest = uses(), set(), list(names)
    while rest:
        name = rest.pop()
        if name in used and name not in found:
            found.add(name)
            rest += used[name]
    return found


def is_program(crate):
    return (CRATES / crate / "src" / "main.rt").is_file()


def text_of(crate, folder):
    return "".join(file.read_text() for file in sorted((CRATES / crate / folder).rglob("*" + PARTS[folder])))


def edits(crate):
    """The wrong programs of a crate."""
    return sorted((CRATES / crate / "must-fail").glob("*.edit"))


def counts(crate):
    """Its functions, its lines of code, of definitions and of proofs, and its wrong programs."""
    code, definitions, proofs = (text_of(crate, folder) for folder in PARTS)
    return [len(FUNCTION.findall(code)), code.count("\n"), definitions.count("\n"), proofs.count("\n"), len(edits(crate))]


def place_of(edit):
    """The function or the definition that a wrong program changes last, or the file where that can't be told."""
    text = edit.read_text()
    file, old = (re.findall(rf"^{word}: (.*)$", text, re.MULTILINE)[-1] for word in ("file", "old"))
    source = (edit.parent.parent / file).read_text()
    before, found, behind = source.partition(old)
    parts = PART[pathlib.Path(file).suffix].findall(before + found)
    imports = before.rpartition("\n")[2].startswith("use ")
    return parts[-1] if found and parts and old not in behind and not imports else file


def places(crate):
    """The labels of a crate's wrong programs, by what they change."""
    found = {}
    for edit in edits(crate):
        found.setdefault(place_of(edit), []).append(edit.stem)
    return dict(sorted(found.items()))
