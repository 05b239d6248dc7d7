"""The calculation by hand beside the answer: the people who pass the passage that decides over its flow, and the walk to it and on from it."""
from __future__ import annotations

import heapq
from dataclasses import dataclass
from typing import Dict, List, Optional, Tuple

from evacask.client.blocks import Plan
from evacask.model.building import Model, Way
from evacask.model.ground import Ground
from evacask.model.shares import Count
from evacask.model.walks import walks
from evacask.questions.why import Why


@dataclass(frozen=True)
class ByHand:
    """`people` pass `way` by the printed plan, `flow` of them a second. The first walk `before` s to it, and the last `after` s over it and out."""

    way: Way
    people: Count
    flow: float
    before: int
    after: int
    ground: Ground = Ground.PRINTED

    @property
    def passing(self) -> float:
        """The seconds in which so many pass."""
        return float(self.people) / self.flow

    @property
    def seconds(self) -> float:
        """When the last of them are out."""
        return self.before + self.passing + self.after


def by_hand(model: Model, plan: Plan, cut: Why) -> Optional[ByHand]:
    """The sum for the way that lets most people through in a cut; None if no way is in it."""
    counted: Dict[Way, Count] = {(it.names[0], it.names[1]): it.people for it in cut.places if len(it.names) == 2}
    if not any(counted.values()):
        return None
    way = max(counted, key=lambda it: counted[it])
    arc = model.arcs[way]
    people = sum(it.people for it in plan.moves if (it.tail, it.head) == way)
    before, after = reached(model).get(arc.tail), walks(model).get(arc.head)
    if not people or before is None or after is None:
        return None
    return ByHand(way, people, float(arc.rate) / model.period, before * model.period, (arc.travel + after.periods) * model.period)


def reached(model: Model) -> Dict[str, int]:
    """Of each node to which a walk leads from a room with people, the periods of the shortest, with nobody in the way."""
    on: Dict[str, List[Tuple[str, int]]] = {}
    for arc in model.arcs.values():
        if arc.rate:
            on.setdefault(arc.tail, []).append((arc.head, arc.travel))
    found: Dict[str, int] = {}
    waiting = [(0, it.name) for it in model.rooms if it.start] + [(it.moment, it.name) for it in model.entrants]
    heapq.heapify(waiting)
    while waiting:
        periods, name = heapq.heappop(waiting)
        if name not in found:
            found[name] = periods
            for head, travel in on.get(name, []):
                heapq.heappush(waiting, (periods + travel, head))
    return found
