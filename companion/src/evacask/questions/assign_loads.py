"""How full each arc is if each room goes one way, without planning times: what an arc alone allows.

All who have at least d periods to an arc of rate r enter it from d on. If there are n of them, the last enters at d + (n - 1) div r at the earliest,
and walks on from there. The greatest of these moments, over all arcs, is close to when all are out, and is found for a changed room from its arcs alone.
"""
from __future__ import annotations

from dataclasses import dataclass
from typing import Dict, Iterable, List, Mapping, Sequence, Tuple

from evacask.model.building import Model, Way
from evacask.model.variant import whole
from evacask.questions.assign_times import Group
from evacask.questions.assign_ways import Path, length

# Who comes to an arc: the moment from which on, how many, and the periods of the walk from its begin to the exit.
Use = Tuple[int, int, int]
# By how much more an end counts than one a moment earlier, as far as 600 moments around the goal, and what an end at the goal counts.
STEEPNESS, LATEST, UNIT = 1.15, 600, 1 << 40


def end_of(uses: Iterable[Use], rate: int) -> int:
    """The moment at which the last of those who go by an arc is out at the earliest."""
    people, end, walk = 0, 0, 10**9
    for moment, more, rest in sorted(uses, reverse=True):
        people += more
        walk = min(walk, rest)
        end = max(end, moment + (people - 1) // rate + walk)
    return end


@dataclass(frozen=True)
class Change:
    """By how much the sum of weights rises, and the uses by room and the ends of the arcs that change."""

    rise: int
    uses: Dict[Way, Dict[str, List[Use]]]
    ends: Dict[Way, int]


class Loads:
    """The uses of each arc by the rooms, and its end. `work` counts uses that were looked at."""

    def __init__(self, model: Model, groups: Sequence[Group], goal: int):
        self.model, self.goal, self.work = model, goal, 0
        self.groups: Dict[str, List[Tuple[int, int]]] = {}
        for room, moment, people in groups:
            self.groups.setdefault(room, []).append((moment, people))
        self.uses: Dict[Way, Dict[str, List[Use]]] = {}
        self.ends: Dict[Way, int] = {}
        self.weights: Dict[int, int] = {}

    def set(self, ways: Mapping[str, Path]) -> None:
        self.uses, self.ends = {}, {}
        for room, path in ways.items():
            for way, uses in self.uses_of(room, path):
                self.uses.setdefault(way, {})[room] = uses
        for way, rooms in self.uses.items():
            self.ends[way] = self.end(way, rooms)

    def uses_of(self, room: str, path: Path) -> List[Tuple[Way, List[Use]]]:
        found, at, walk = [], 0, length(self.model, path)
        for way in path:
            found.append((way, [(moment + at, people, walk - at) for moment, people in self.groups[room]]))
            at += self.model.arcs[way].travel
        return found

    def end(self, way: Way, rooms: Mapping[str, List[Use]]) -> int:
        uses = [use for some in rooms.values() for use in some]
        self.work += len(uses)
        return end_of(uses, whole(self.model.arcs[way].rate)) if uses else 0

    def weight(self, end: int) -> int:
        """What an arc's end counts: the later the more, so that the sum of all falls if the latest do. Whole, so that no sum is rounded."""
        late = end - self.goal
        if late not in self.weights:
            self.weights[late] = int(UNIT * STEEPNESS ** max(-LATEST, min(LATEST, late))) if end else 0
        return self.weights[late]

    def change(self, room: str, old: Path, new: Path) -> Change:
        """What happens if a room goes another way."""
        changed: Dict[Way, Dict[str, List[Use]]] = {}
        for way in old:
            changed[way] = {other: uses for other, uses in self.uses[way].items() if other != room}
        for way, uses in self.uses_of(room, new):
            changed[way] = {**changed.get(way, self.uses.get(way, {})), room: uses}
        ends = {way: self.end(way, rooms) for way, rooms in changed.items()}
        rise = sum(self.weight(end) - self.weight(self.ends.get(way, 0)) for way, end in ends.items())
        return Change(rise, changed, ends)

    def take(self, change: Change) -> None:
        self.uses.update(change.uses)
        self.ends.update(change.ends)
