"""The search for one way per room: by loads first, which are quick, and then by times. Its work is counted, so the same building has the same answer."""
from __future__ import annotations

import random
from dataclasses import dataclass
from typing import Dict, List, Mapping

from evacask.model.building import Model
from evacask.questions.assign_loads import Loads
from evacask.questions.assign_times import Order, Times, Timetable
from evacask.questions.assign_ways import Path, length

Ways = Dict[str, Path]


@dataclass(frozen=True)
class Found:
    """A way for each room, and the times by it."""

    ways: Ways
    times: Times
    order: Order


class Search:
    """Better and better ways, until all are out as soon as by the best plan, or the work is done."""

    def __init__(self, model: Model, choices: Mapping[str, List[Path]], goal: int, work: int):
        self.model, self.choices, self.goal, self.work = model, choices, goal, work
        self.table = Timetable(model)
        self.loads = Loads(model, self.table.groups, goal)
        self.tries = 0
        self.rooms = sorted(choices, key=lambda it: (-sum(people for _, people in self.loads.groups[it]), it))

    def is_over(self, best: Found) -> bool:
        """Whether the best ways are as good as the best plan, or the work is done."""
        return best.times.cleared <= self.goal or self.table.work + self.loads.work >= self.work

    def run(self) -> Found:
        """Descends from the plan's ways and from the nearest exits, and then from the best ways with a few rooms changed by lot."""
        planned = {room: paths[0] for room, paths in self.choices.items()}
        best = self.timed(planned)
        for start in (planned, nearest_ways(self.model, self.choices)):
            best = self.descended(best, start)
        best = self.polished(best)
        dice = random.Random(1)
        while not self.is_over(best) and any(len(it) > 1 for it in self.choices.values()):
            ways = dict(best.ways)
            for room in dice.sample(sorted(ways), min(len(ways), dice.randint(2, 6))):
                ways[room] = dice.choice(self.choices[room])
            found = self.descended(best, ways)
            best = best if found is best else self.polished(found)
        return best

    def descended(self, best: Found, start: Ways) -> Found:
        """One room at a time to the way by which the loads fall the most, as long as one does; then the times. The better of these and the best."""
        ways, improved = dict(start), True
        self.loads.set(ways)
        while improved and not self.is_over(best):
            improved = False
            for room in self.rooms:
                improved = self.loads_fall(ways, room) or improved
        found = self.timed(ways)
        return found if found.times.key < best.times.key else best

    def loads_fall(self, ways: Ways, room: str) -> bool:
        """Sends a room the way by which the loads fall the most, if they do."""
        options = [(self.loads.change(room, ways[room], path), path) for path in self.choices[room] if path != ways[room]]
        if not options:
            return False
        change, path = min(options, key=lambda it: it[0].rise)
        if change.rise >= 0:
            return False
        self.loads.take(change)
        ways[room] = path
        return True

    def timed(self, ways: Ways) -> Found:
        """The best times by some ways, in one of the orders."""
        self.tries += len(Order)
        plans = [(self.table.plan(ways, order), order) for order in Order]
        times, order = min(plans, key=lambda it: it[0].key)
        return Found(dict(ways), times, order)

    def polished(self, best: Found) -> Found:
        """One room at a time to another way, by the times themselves, as long as that helps: those first who are out last."""
        improved = True
        while improved and not self.is_over(best):
            start = best
            for room in self.latest_first(start):
                best = self.polished_room(best, room)
            improved = best is not start
        return best

    def latest_first(self, found: Found) -> List[str]:
        return sorted(self.choices, key=lambda it: -last_out(self.model, found, it))

    def polished_room(self, best: Found, room: str) -> Found:
        """The best of all ways of one room, the others as they are."""
        for path in self.choices[room]:
            if path != best.ways[room] and not self.is_over(best):
                self.tries += 1
                ways = {**best.ways, room: path}
                times = self.table.plan(ways, best.order)
                if times.key < best.times.key:
                    best = Found(ways, times, best.order)
        return best


def last_out(model: Model, found: Found, room: str) -> int:
    """When the last of a room is out."""
    walk = length(model, found.ways[room])
    return max((left[-1][0] + walk for group, left in found.times.departures.items() if group[0] == room), default=0)


def nearest_ways(model: Model, choices: Mapping[str, List[Path]]) -> Ways:
    """The shortest way of each room."""
    return {room: min(paths, key=lambda it: length(model, it)) for room, paths in choices.items()}
