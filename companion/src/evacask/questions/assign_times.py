"""Times for people whose ways are fixed: everybody waits in the room where they start or come in, and then goes without a stop.

Groups are planned one after the other, each person as early as what is left of the rates allows. So no rate is ever broken, and no capacity but that
of a room in which late-comers wait.
"""
from __future__ import annotations

import enum
from dataclasses import dataclass
from typing import Dict, List, Mapping, Tuple

from evacask.client.blocks import Move
from evacask.model.building import Model, Way
from evacask.model.variant import whole
from evacask.questions.assign_ways import Path, length

Group = Tuple[str, int, int]
Departures = Dict[Group, List[Tuple[int, int]]]
NEVER = 10**9


class Order(enum.Enum):
    """Which groups are planned first: those with the longest walk, those who would be out last if they were alone, or those with the shortest walk."""

    FARTHEST_FIRST = enum.auto()
    LONGEST_FIRST = enum.auto()
    NEAREST_FIRST = enum.auto()


@dataclass(frozen=True)
class Times:
    """When all are out, the sum of the moments at which people are, and for each group who leaves when."""

    cleared: int
    total: int
    departures: Departures

    @property
    def key(self) -> Tuple[int, int]:
        return self.cleared, self.total


class Timetable:
    """Plans the times. `work` counts the moments at which an arc was looked at."""

    def __init__(self, model: Model):
        self.model, self.work = model, 0
        self.span = 4 * model.horizon + 1  # (a poor choice of ways takes longer than the horizon: it is compared all the same)
        self.rates = {way: [whole(arc.rate)] * (self.span + 1) for way, arc in model.arcs.items()}
        for it in model.windows:
            until = min(it.until, self.span + 1)
            self.rates[it.way][it.first : until] = [0] * max(0, until - it.first)
        self.groups: List[Group] = [(it.name, 0, whole(it.start)) for it in model.rooms if it.start]
        self.groups += [(it.name, it.moment, whole(it.people)) for it in model.entrants]

    def plan(self, ways: Mapping[str, Path], order: Order) -> Times:
        """Times of all groups whose rooms have a way."""
        lengths = {room: length(self.model, path) for room, path in ways.items()}
        groups = sorted((it for it in self.groups if it[0] in ways), key=lambda it: self.rank(it, ways[it[0]], lengths[it[0]], order))
        free: Dict[Way, List[int]] = {}
        departures: Departures = {}
        cleared = total = 0
        for group in groups:
            walk = lengths[group[0]]
            left = self.leave(group, ways[group[0]], walk, free)
            if not left:
                return Times(NEVER, NEVER, {})
            departures[group] = left
            cleared = max(cleared, left[-1][0] + walk)
            total += sum((moment + walk) * people for moment, people in left)
        return Times(cleared, total, departures)

    def rank(self, group: Group, path: Path, walk: int, order: Order) -> int:
        """Groups of a lower rank are planned first."""
        if order is Order.NEAREST_FIRST:
            return walk
        alone = (group[2] - 1) // min(whole(self.model.arcs[way].rate) for way in path) if order is Order.LONGEST_FIRST else 0
        return -(group[1] + walk + alone)

    def leave(self, group: Group, path: Path, walk: int, free: Dict[Way, List[int]]) -> List[Tuple[int, int]]:
        """The moments at which the people of a group set out, as early as is left, and how many do; none if they can't all be out."""
        legs, offset = [], 0
        for way in path:
            if way not in free:
                free[way] = self.rates[way][:]
            legs.append((whole(self.model.arcs[way].rate), offset, free[way]))
            offset += self.model.arcs[way].travel
        legs.sort(key=lambda it: it[0])  # (the narrowest first: a full one is found at once)
        rows = [(row, at) for _, at, row in legs]
        _, moment, people = group
        found: List[Tuple[int, int]] = []
        while people and moment <= self.span - walk:
            most = people
            for row, at in rows:
                if row[moment + at] < most:
                    most = row[moment + at]
                    if not most:
                        break
            if most:
                for row, at in rows:
                    row[moment + at] -= most
                found.append((moment, most))
                people -= most
                self.work += len(rows)
            moment += 1
        self.work += moment - group[1]
        return [] if people else found


def moves_of(model: Model, ways: Mapping[str, Path], times: Times) -> List[Move]:
    """The moves of a plan, as a block has them: by moment and then by arc, each arc once a moment."""
    together: Dict[Tuple[int, Way], int] = {}
    for (room, _, _), left in times.departures.items():
        offset = 0
        for way in ways[room]:
            for moment, people in left:
                key = moment + offset, way
                together[key] = together.get(key, 0) + people
            offset += model.arcs[way].travel
    order = {way: at for at, way in enumerate(model.arcs)}
    keys = sorted(together, key=lambda it: (it[0], order[it[1]]))
    return [Move(moment, way[0], way[1], together[moment, way]) for moment, way in keys]
