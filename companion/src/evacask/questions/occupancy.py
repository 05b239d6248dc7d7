"""Who is where when, by the printed plan: another best plan may differ."""
from __future__ import annotations

from dataclasses import dataclass, field
from typing import Dict, Iterator, List, Sequence

from evacask.client.blocks import Plan
from evacask.errors import Broken
from evacask.model.building import Model, Way
from evacask.model.shares import Count


@dataclass
class Occupancy:
    """The moves of a plan, added up by arc and by node. `entered` counts who enters each arc at each moment."""

    model: Model
    cleared: int
    entered: Dict[Way, Dict[int, Count]] = field(default_factory=dict)
    changes: Dict[str, Dict[int, Count]] = field(default_factory=dict)

    def add(self, name: str, moment: int, people: Count) -> None:
        changes = self.changes[name]
        changes[moment] = changes.get(moment, 0) + people

    def stay(self, name: str) -> List[Count]:
        """How many are in a node at each moment up to that when all are out, and don't leave it then. In an exit these are all who are out by it."""
        changes, count, found = self.changes[name], 0, []  # type: Dict[int, Count], Count, List[Count]
        for moment in range(self.cleared + 1):
            count = count + changes.get(moment, 0)
            found.append(count)
        return found

    def by_moment(self, names: Sequence[str]) -> Iterator[List[Count]]:
        """Of each moment those who stay in each of some nodes."""
        return (list(row) for row in zip(*map(self.stay, names)))

    def through(self) -> Dict[Way, Count]:
        """How many enter each arc in all."""
        return {way: sum(entered.values()) for way, entered in self.entered.items()}


def occupancy(model: Model, plan: Plan) -> Occupancy:
    """The occupancy of a building by a plan of it; `Broken` if not so many are out at each moment as the plan says."""
    found = Occupancy(model, plan.cleared, {way: {} for way in model.arcs}, {name: {} for name in model.nodes})
    for node in model.rooms:
        found.add(node.name, 0, node.start or 0)
    for it in model.entrants:
        found.add(it.name, it.moment, it.people)
    for move in plan.moves:
        way = move.tail, move.head
        found.entered[way][move.moment] = move.people
        found.add(move.tail, move.moment, -move.people)
        found.add(move.head, move.moment + model.arcs[way].travel, move.people)
    out = [found.stay(it.name) for it in model.exits]
    if tuple(sum(count[moment] for count in out) for moment in range(plan.cleared + 1)) != plan.arrivals:
        raise Broken("the program printed moves that don't add up to its arrivals, as evacplan never does")
    return found
