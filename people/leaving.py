"""What a session leaves behind, from its accepted events alone: the bytes of its ends, and at last its tables."""
import struct
from typing import Dict, Iterator, List, Optional, Tuple

from people.answers import ACCEPTED
from people.following import VERSIONS, Claim, Effect, Followed
from people.layout import OBJECTS, SLOTS, Call, Commit, Committed, End, Event, Fresh, RolledBack
from people.playing import Played, Unpaired, pair


def act(call: Call, word: int) -> Tuple[int, int]:
    """The word after a call and the value that it gives: read, write, add, spend."""
    total, covered = (word + call.argument) % VERSIONS, int(call.argument <= word)
    spent = word - call.argument if covered else word
    return ((word, word), (call.argument, 0), (total, total), (spent, covered))[call.call_kind]


class Left:
    """The tables that accepted events leave, beside what is followed of them: the words and the saved words."""

    def __init__(self, fresh: Fresh):
        self.followed = Followed(fresh.first_version)
        self.words = list(fresh.words)
        self.saved: Dict[Claim, int] = {}

    def accept(self, event: Event) -> Effect:
        """Takes an accepted event, and says what it did."""
        effect = self.followed.accept(event)
        if isinstance(event, Call):
            word = self.words[event.object_number]
            for claim in effect.claims:
                self.saved.setdefault(claim, word)
            self.words[event.object_number], effect.value = act(event, word)
        for claim in effect.restored:
            self.words[claim.object_number] = self.saved[claim]
        if isinstance(event, End):
            for claim in effect.claims:
                self.saved.pop(claim, None)
        return effect

    def version(self, place: int) -> int:
        return (self.followed.first_version + place) % VERSIONS

    def tables(self) -> Iterator[str]:
        """Every object, and every pair of a live slot."""
        for number in range(OBJECTS):
            yield f"object {number}: " + " ".join(map(str, self.object(number)))
        for slot in sorted(self.followed.live):
            for number in range(OBJECTS):
                yield f"pair {slot} {number}: " + " ".join(map(str, self.pair(slot, number)))

    def object(self, number: int) -> List[int]:
        places = [places[number] for places in (self.followed.given, self.followed.let_go, self.followed.ended)]
        return [self.words[number], *map(self.version, places)]

    def pair(self, slot: int, number: int) -> List[int]:
        """Whether the slot is live; declared, supremum, private version, count, called, spoiled, saved."""
        claim = self.followed.claim(slot, number) if slot in self.followed.live else None
        if claim is None:
            return [int(slot in self.followed.live), 0, 0, 0, 0, 0, 0, 0]
        saved = self.saved.get(claim, 0)
        return [1, 1, claim.supremum, claim.version, claim.count, int(claim.called), int(claim.spoiled), saved]

    def memory(self) -> bytes:
        """The tables as the library keeps them: words, bytes and marks, at the places that docs/ARCHITECTURE.md says."""
        pairs = [self.pair(slot, number) for slot in range(SLOTS) for number in range(OBJECTS)]
        live, declared, supremum, private, count, called, spoiled, saved = zip(*pairs)
        words = [word for number in range(OBJECTS) for word in self.object(number)]
        words += [word for both in zip(private, saved) for word in both]
        counts = [byte for both in zip(supremum, count) for byte in both]
        return struct.pack(f"<{len(words)}I", *words) + bytes([*counts, *live[::OBJECTS], *declared, *called, *spoiled])


def end_record(end: End, claims: List[Claim]) -> bytes:
    kind = (Committed if isinstance(end, Commit) else RolledBack).KIND
    entries = [struct.pack("<BI", claim.object_number, claim.version) for claim in claims]
    body = struct.pack("<IBB", end.tick, end.slot, len(entries)) + b"".join(entries)
    return struct.pack("<HH", len(body), kind) + body


def in_hexadecimal(data: bytes) -> str:
    return data.hex(" ").upper()


def ends(played: Played, left: Left) -> Iterator[Tuple[int, bytes]]:
    """The bytes of each accepted end behind its event's number, while the tables are left."""
    for step in played.steps:
        if step.answer == ACCEPTED:
            effect = left.accept(step.content)
            if isinstance(step.content, End):
                data = end_record(step.content, effect.claims)
                if step.value != len(data):
                    raise Unpaired(f"'{step.line}' does not follow from the lines before it: its end record has {len(data)} bytes")
                yield step.number, data


def ends_and_left(records: bytes, lines: List[str]) -> Tuple[Dict[int, str], Optional[Left]]:
    """The digits of each accepted end, and what is left at last; nothing where the session does not begin."""
    played = pair(records, lines)
    left = Left(played.fresh)
    written = {number: in_hexadecimal(data) for number, data in ends(played, left)}
    return written, left if played.begins else None


def left_behind(records: bytes, lines: List[str]) -> List[str]:
    """The ends and the tables in the words of the library's players."""
    written, left = ends_and_left(records, lines)
    return [*written.values(), *(left.tables() if left else ())]


def written_out(records: bytes, lines: List[str]) -> List[str]:
    """What a device writes: the lines, behind that of each accepted end its bytes, and at last the words of memory that are not 0."""
    written, left = ends_and_left(records, lines)
    numbers = [int(line.split()[0]) for line in lines]
    memory = struct.iter_unpack("<I", left.memory() if left else b"")
    return [said for number, line in zip(numbers, lines) for said in (line, written.get(number)) if said] + [
        f"{place:04X} {word:08X}" for place, (word,) in enumerate(memory) if word]
