"""Sections: which events of a session are shown, and in words which are not."""
from dataclasses import dataclass
from typing import Optional


class NoEvent(Exception):
    """Why there is nothing to show."""


@dataclass(frozen=True)
class Section:
    """The events from one number to another; without the second, to the last."""

    first: int = 0
    last: Optional[int] = None

    def __contains__(self, number: int) -> bool:
        return self.first <= number and (self.last is None or number <= self.last)

    def at_most(self, count: int) -> "Section":
        """The section with that many events where nothing says how far it goes."""
        return self if self.last is not None else Section(self.first, max(self.first, 1) + count - 1)


WHOLE = Section()


class Shown:
    """What has been shown of a section, while the events go by."""

    def __init__(self, section: Section):
        self.section = section
        self.first: Optional[int] = None
        self.last: Optional[int] = None
        self.seen: Optional[int] = None

    def see(self, number: int, shown: bool) -> None:
        """Notes an event that went by, and whether it was shown."""
        self.seen = number
        if shown:
            self.first = number if self.first is None else self.first
            self.last = number

    def check(self) -> None:
        """Refuses a section that was asked for and has no event."""
        if self.first is not None:
            return
        if self.section.first > (self.seen or 0):
            last = f"the last is {self.seen}" if self.seen else "there is none at all"
            raise NoEvent(f"there is no event {self.section.first}: {last}")
        if self.seen:
            raise NoEvent(f"there is no event up to {self.section.last}: the last is {self.seen}")

    def left_out(self) -> str:
        """Which events have not been shown, or nothing."""
        if self.first is None or self.last is None or self.seen is None:
            return ""
        gaps = [between(1, self.first - 1), between(self.last + 1, self.seen)]
        named = " and ".join(gap for gap in gaps if gap)
        return f"left out: {named}; --from N and --to M show others" if named else ""


def between(first: int, last: int) -> str:
    if last < first:
        return ""
    return f"event {first}" if first == last else f"events {first} to {last}"
