"""Wording: records and faults in words."""
from typing import Iterable, Tuple, Union

from people.layout import CALL_NAMES, Call, Commit, Committed, Fresh, Record, Release, Rollback, RolledBack, Start
from people.reading import Fault


def say(content: Union[Record, Fault]) -> str:
    """A record in a sentence, or why there is none."""
    return SENTENCES[type(content)](content)


def say_fault(fault: Fault) -> str:
    return f"no record: {fault.check} ({fault.found})"


def say_fresh(fresh: Fresh) -> str:
    words = [f"word {place} is {word}" for place, word in enumerate(fresh.words) if word]
    others = "the others 0" if words else "all words 0"
    return f"fresh from version {fresh.first_version}: " + ", ".join(words + [others])


def say_start(start: Start) -> str:
    pairs = " ".join(f"{object_number}:{supremum}" for object_number, supremum in start.pairs)
    return f"slot {start.slot} starts with {pairs or 'an empty list'}"


def say_call(call: Call) -> str:
    known = call.call_kind < len(CALL_NAMES)
    name = CALL_NAMES[call.call_kind] if known else f"kind {call.call_kind}"
    # A read takes no argument; one that is there all the same is shown.
    shown = call.argument or name != "read"
    return f"slot {call.slot} calls object {call.object_number}: {name}" + (f" {call.argument}" if shown else "")


def say_release(release: Release) -> str:
    return f"slot {release.slot} releases object {release.object_number}"


def say_commit(commit: Commit) -> str:
    return f"slot {commit.slot} commits at tick {commit.tick}"


def say_rollback(rollback: Rollback) -> str:
    return f"slot {rollback.slot} rolls back at tick {rollback.tick}"


def say_entries(entries: Iterable[Tuple[int, int]]) -> str:
    return ", ".join(f"object {object_number} version {version}" for object_number, version in entries)


def say_committed(record: Committed) -> str:
    return f"end record: slot {record.slot} committed at tick {record.tick}, {say_entries(record.entries)}"


def say_rolled_back(record: RolledBack) -> str:
    return f"end record: slot {record.slot} rolled back at tick {record.tick}, {say_entries(record.entries)}"


SENTENCES = {
    Fault: say_fault, Fresh: say_fresh, Start: say_start, Call: say_call, Release: say_release, Commit: say_commit,
    Rollback: say_rollback, Committed: say_committed, RolledBack: say_rolled_back,
}
