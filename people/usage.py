"""Usage: the commands as they are written, their help, and what is wrong with words that are none."""
import os
from dataclasses import dataclass
from typing import Dict, List, Tuple

from people import drawing, picture
from people.composing import ITEMS, NUMBER, closest

HELP_WORDS = ("--help", "-h")
STANDARD_INPUT = "-"
ALL = "./bench --help has all commands"
# Each option with the name of the number behind it, if it has one, and the name by which a command takes it.
OPTIONS = {"--from": ("N", "first"), "--to": ("M", "last"), "--raw": ("", "raw")}
RANGE = ("--from", "--to")


class BadUse(Exception):
    """What is wrong with the words of a command."""


@dataclass(frozen=True)
class Use:
    """A command: the words behind it, its options, what it does in a line, and what else is to be said of it."""

    places: Tuple[str, ...]
    options: Tuple[str, ...]
    does: str
    more: str = ""
    any_number: bool = False


RANGED = "With --from N, --to M or both: the events from number N to number M alone."
USES: Dict[str, Use] = {
    "": Use(("SESSION",), (), "proves and runs the bench program on a session, prints its lines",
            "A line is the event's number, 0 or the refusal's number, and the value; it is printed as soon as it comes."),
    "--explain": Use(("SESSION",), RANGE, "the same lines, each with its meaning in words", RANGED),
    "--draw": Use(("SESSION",), RANGE, "draws the transactions over the events, as text",
                  f"{RANGED}\nWithout --to it draws at most {drawing.MOST_EVENTS:,} events. It says which it leaves out."),
    "--svg": Use(("FILE", "SESSION"), RANGE, "writes that drawing to a file as SVG",
                 f"{RANGED}\nWithout --to it draws at most {picture.MOST_EVENTS:,} events, and in no case more than a viewer shows, "
                 f"{picture.MOST_PIXELS:,} pixels\neach way. It says which it leaves out."),
    "live": Use((), (), "plays the items typed on standard input one by one, and says what comes of each",
                "A bad line is told and not played. It ends with the input, or where the program stops."),
    "record": Use(("SESSION",), ("--raw",), "prints the end records of a session in hexadecimal, each behind its event's number",
                  "With --raw it writes their bytes, one record straight behind the other."),
    "order": Use(("A", "B"), (), "says which of two end records came first",
                 "A and B are each a file that holds an end record or its hexadecimal digits, or these digits themselves.\n"
                 "Bytes behind the first record of a file have no influence."),
    "compose": Use(("SESSION",), (), "writes the session's records to standard output"),
    "read": Use(("[FILE ..]",), (), "says in words which records files or standard input hold, or why none", any_number=True),
    "check": Use((), (), "runs all of sessions/, compares with the expected lines"),
    "--help": Use((), (), "prints this; behind the word of a command, what there is to say of it"),
}

SESSIONS = """\
A session is text, an item to a line; # begins a comment. '-' is standard input.
{forms}
Numbers are decimal or begin with 0x. Slot, object, supremum and kind go up to 255; version, word,
argument and tick up to 4294967295: what the machine must refuse can be composed. Objects of fresh
go up to 23, words not given are 0. A start has at most 62 pairs. The kind of a call may be a
number; an argument left out is 0. raw takes the digits of any bytes, spaced in any way:
'raw 0B 00 0202', and './bench compose - | ./bench read' says what they are.
""".format(forms="\n".join(f"    {form}" for _, form in ITEMS.values()))

STATUS = """\
Exit status: 0 good; 1 a difference, bytes that are no record, a program that is not proved or
fails, or output that can't be written; 2 a bad line (nothing is written then) or a bad command;
130 or 143 interrupted.
"""


def form(command: str) -> str:
    """How a command is written."""
    use = USES[command]
    options = [f"[{option} {OPTIONS[option][0]}]".replace(" ]", "]") for option in use.options]
    return " ".join(["./bench", *([command] if command else []), *options, *use.places])


def help_of_all() -> str:
    """What is said of all commands."""
    forms = {" ".join(["./bench", *([command] if command else []), *use.places]): use.does for command, use in USES.items()}
    room = max(map(len, forms))
    commands = "".join(f"{written:<{room}}  {does}\n" for written, does in forms.items())
    return f"{commands}\nA line of the program: the event's number, 0 or the refusal's number, the value.\n\n{SESSIONS}\n{STATUS}"


def help_of(command: str) -> str:
    """What is said of one command."""
    use = USES[command]
    if command == "--help":
        return help_of_all()
    parts = [f"{form(command)}\n    {use.does}", use.more, SESSIONS if "SESSION" in use.places or command == "live" else "", STATUS]
    return "\n".join(part.rstrip("\n") + "\n" for part in parts if part)


def parse(words: List[str]) -> Tuple[str, List[str], Dict[str, int]]:
    """The command that words ask for, the words in its places, and its options."""
    if not words:
        raise BadUse(f"a command or a session is missing; {ALL}")
    command = words[0] if words[0] in USES and words[0] else ""
    if any(word in HELP_WORDS for word in words):
        return "--help", [next((word for word in words if word in USES and word not in HELP_WORDS), "--help")], {}
    rest = words[1:] if command else words
    if not command and rest[0] != STANDARD_INPUT and not os.path.exists(rest[0]):
        no_file = "" if rest[0].startswith("-") else " and no file"
        raise BadUse(f"'{rest[0]}' is no command{no_file}{closest(rest[0], USES)}; {ALL}")
    places, options = split(command, rest)
    return command, places, options


def split(command: str, words: List[str]) -> Tuple[List[str], Dict[str, int]]:
    """The words of a command apart: those in its places, and the options between them."""
    use, places, options = USES[command], [], {}
    rest = iter(words)
    for word in rest:
        if not word.startswith("-") or word == STANDARD_INPUT:
            places.append(word)
        elif word in use.options:
            behind, name = OPTIONS[word]
            options[name] = event_number(word, behind, next(rest, None)) if behind else 1
        else:
            place = f"; {word} stands before all other words" if word in USES else closest(word, use.options)
            raise BadUse(f"{form(command)}: '{word}' is none of its options{place}")
    if not use.any_number:
        count(command, places)
    if options.get("last", options.get("first", 0)) < options.get("first", 0):
        raise BadUse(f"{form(command)}: event {options['first']} is behind event {options['last']}")
    return places, options


def count(command: str, places: List[str]) -> None:
    """Refuses words too few or too many."""
    wanted = USES[command].places
    if len(places) < len(wanted):
        missing = wanted[len(places):]
        raise BadUse(f"{form(command)}: {' and '.join(missing)} {'is' if len(missing) == 1 else 'are'} missing")
    if len(places) > len(wanted):
        raise BadUse(f"{form(command)}: '{places[len(wanted)]}' is too much")


def event_number(option: str, behind: str, word: str) -> int:
    if word is None:
        raise BadUse(f"{option} {behind}: {behind} is missing")
    if not word.isascii() or not word.isdigit() or not NUMBER.fullmatch(word):
        raise BadUse(f"{option} {behind}: '{word}' is no event's number")
    return int(word)
