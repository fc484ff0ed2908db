"""Following: who declared, called, let go of and spoiled what, from the accepted events alone.

Turns and needs are the program's to judge; here is only what its numbers leave out: private versions,
the place where an object is let go, and whom a rollback spoils.
"""
from collections import defaultdict
from dataclasses import dataclass, field
from enum import Enum
from typing import Dict, List, Optional

from people.layout import Call, End, Event, Rollback, Start

VERSIONS = 1 << 32
COUNTS = 256
# The end record: what stands before its entries, and each entry.
END_BYTES = 10
ENTRY_BYTES = 5


class State(Enum):
    """How a live transaction stands at one of its objects."""

    WAITS = "waits for its turn"
    TURN = "has its turn"
    LET_GO = "has let go and not ended"
    SPOILED = "is spoiled, and so doomed"


@dataclass(eq=False)
class Claim:
    """One transaction at one of its objects. Its place counts the object's versions from 1 and never wraps."""

    object_number: int
    slot: int
    place: int
    version: int
    supremum: int
    count: int = 0
    called: bool = False
    spoiled: bool = False


@dataclass
class Effect:
    """What an accepted event did, and the value that it gives; whoever follows words knows that of a call."""

    value: int = 0
    claims: List[Claim] = field(default_factory=list)
    let_go: List[Claim] = field(default_factory=list)
    restored: List[Claim] = field(default_factory=list)
    spoiled: List[Claim] = field(default_factory=list)


class Followed:
    """The live transactions, and how far each object's places are given out, let go and ended."""

    def __init__(self, first_version: int):
        self.first_version = first_version
        self.given: Dict[int, int] = defaultdict(int)
        self.let_go: Dict[int, int] = defaultdict(int)
        self.ended: Dict[int, int] = defaultdict(int)
        self.live: Dict[int, Dict[int, Claim]] = {}

    def claims(self) -> List[Claim]:
        """The claims of all live transactions."""
        return [claim for slot in self.live for claim in self.claims_of(slot)]

    def claims_of(self, slot: int) -> List[Claim]:
        return list(self.live.get(slot, {}).values())

    def claim(self, slot: int, object_number: int) -> Optional[Claim]:
        return self.live.get(slot, {}).get(object_number)

    def state(self, claim: Claim) -> State:
        if claim.spoiled:
            return State.SPOILED
        ahead = claim.place - self.let_go[claim.object_number]
        return State.LET_GO if ahead <= 0 else State.TURN if ahead == 1 else State.WAITS

    def states(self) -> Dict[Claim, State]:
        return {claim: self.state(claim) for claim in self.claims()}

    def waits_to_end(self, claim: Claim) -> bool:
        """Whether an earlier transaction on the object has not ended."""
        return claim.place != self.ended[claim.object_number] + 1

    def accept(self, event: Event) -> Effect:
        """Follows an event that the program accepted."""
        if isinstance(event, Start):
            return self._start(event)
        if isinstance(event, End):
            return self._end(event)
        claim = self.claim(event.slot, event.object_number)
        if claim is None:
            return Effect()
        return self._call(claim) if isinstance(event, Call) else self._release(claim)

    def _start(self, start: Start) -> Effect:
        claims: Dict[int, Claim] = {}
        for object_number, supremum in start.pairs:
            self.given[object_number] += 1
            place = self.given[object_number]
            version = (self.first_version + place) % VERSIONS
            claims[object_number] = Claim(object_number, start.slot, place, version, supremum)
        self.live[start.slot] = claims
        return Effect(claims=list(claims.values()))

    def _call(self, claim: Claim) -> Effect:
        claim.called = True
        if claim.supremum:
            claim.count = (claim.count + 1) % COUNTS
            if claim.count == claim.supremum:
                return self._release(claim)
        return Effect(claims=[claim])

    def _release(self, claim: Claim) -> Effect:
        self.let_go[claim.object_number] = claim.place
        return Effect(claims=[claim], let_go=[claim])

    def _end(self, end: End) -> Effect:
        effect = Effect(claims=self.claims_of(end.slot))
        effect.value = END_BYTES + ENTRY_BYTES * len(effect.claims)
        self.live.pop(end.slot, None)
        if isinstance(end, Rollback):
            effect.restored = [claim for claim in effect.claims if claim.called and not claim.spoiled]
            objects = [claim.object_number for claim in effect.restored]
            effect.spoiled = [claim for claim in self.claims()
                              if claim.called and not claim.spoiled and claim.object_number in objects]
        for claim in effect.spoiled:
            claim.spoiled = True
        for claim in effect.claims:
            self.let_go[claim.object_number] = max(self.let_go[claim.object_number], claim.place)
            self.ended[claim.object_number] = claim.place
        return effect
