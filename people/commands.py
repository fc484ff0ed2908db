"""The command ./bench: what each of its words does."""
import signal
from pathlib import Path
from typing import Callable, Dict, List, Optional

from people import children, drawing, picture
from people.checking import check
from people.explaining import explain
from people.leaving import Left, ends, in_hexadecimal
from people.living import Talk
from people.ordering import NoEndRecord, came_first
from people.output import NoReader, Unwritten, prepare, put, show, tell
from people.playing import Played, Unpaired, pair, whole
from people.reading import Fault, read_run
from people.running import NotRun, Program, ready, run
from people.sections import NoEvent, Section
from people.sources import BadCommand, end_bytes, has_folder, is_typed, read_parts, records_of, typed_lines, write_file
from people.timeline import trace
from people.usage import STANDARD_INPUT, BadUse, help_of, parse
from people.wording import say

GOOD, DIFFERENT, BAD_USE = 0, 1, 2
BROKEN_PIPE = children.BY_SIGNAL + signal.SIGPIPE


def play(session: str) -> Played:
    """A session as it is played; a missing tool is said before anything is read."""
    ready()
    records = records_of(session)
    return pair(records, run(records))


def run_command(session: str) -> int:
    ready()
    records = records_of(session)
    for line in whole(records, run(records)):
        show(line)
    return GOOD


def explain_command(session: str, first: int = 0, last: Optional[int] = None) -> int:
    for line in explain(play(session), Section(first, last)):
        show(line)
    return GOOD


def draw_command(session: str, first: int = 0, last: Optional[int] = None) -> int:
    section = Section(first, last).at_most(drawing.MOST_EVENTS)
    for line in drawing.draw(trace(play(session), section), section):
        show(line)
    return GOOD


def svg_command(file: str, session: str, first: int = 0, last: Optional[int] = None) -> int:
    section = Section(first, last).at_most(picture.MOST_EVENTS)
    has_folder(Path(file))
    drawn, left_out = picture.picture(trace(play(session), section), section)
    write_file(Path(file), drawn)
    if left_out:
        tell(f"{file}: {left_out}")
    return GOOD


def live_command() -> int:
    ready()
    talk = Talk(Program(), tell)
    if is_typed():
        tell("Items are played as they are typed, one a line; Ctrl-D ends.")
    for said in talk.answers(typed_lines()):
        show(said)
    tell("the program has stopped" if talk.stops else "the input has ended")
    return GOOD


def record_command(session: str, raw: int = 0) -> int:
    played = play(session)
    for number, data in ends(played, Left(played.fresh)):
        if raw:
            put(data)
        else:
            show(f"{number} {in_hexadecimal(data)}")
    return GOOD


def order_command(first: str, second: str) -> int:
    show(came_first(end_bytes(first), end_bytes(second)))
    return GOOD


def compose_command(session: str) -> int:
    put(records_of(session))
    return GOOD


def read_command(*files: str) -> int:
    status = GOOD
    for name in files or (STANDARD_INPUT,):
        before = f"{name}, " if len(files) > 1 else ""
        for piece in read_run(read_parts(name)):
            show(f"{before}byte {piece.offset}: {say(piece.content)}")
            if isinstance(piece.content, Fault):
                status = DIFFERENT
    return status


def check_command() -> int:
    ready()
    counts = {True: 0, False: 0}
    for words, as_expected in check():
        show(words)
        counts[as_expected] += 1
    show(f"{counts[True]} passed, {counts[False]} failed")
    return DIFFERENT if counts[False] else GOOD


def help_command(command: str = "--help") -> int:
    show(help_of(command).rstrip("\n"))
    return GOOD


COMMANDS: Dict[str, Callable[..., int]] = {
    "": run_command, "--explain": explain_command, "--draw": draw_command, "--svg": svg_command, "live": live_command,
    "record": record_command, "order": order_command, "compose": compose_command, "read": read_command, "check": check_command,
    "--help": help_command,
}


def status_of(words: List[str]) -> int:
    """Does what the words of the command line ask for, and says what hinders it."""
    try:
        prepare()
        command, places, options = parse(words)
        return COMMANDS[command](*places, **options)
    except NoReader:
        return BROKEN_PIPE
    except (BadUse, BadCommand, NoEvent) as error:
        tell(error)
        return BAD_USE
    except (NotRun, Unpaired, Unwritten, NoEndRecord) as error:
        tell(error)
    except OSError as error:
        tell(f"{error.filename or 'the system'}: {error.strerror}")
    return DIFFERENT


def main(words: List[str]) -> int:
    """The exit status of a command line. However it ends, nothing that it started is left."""
    try:
        children.watch()
        status = status_of(words)
        children.calm()
    except children.Interrupted as interrupted:
        status = interrupted.status
    finally:
        children.end_all()
    return status
