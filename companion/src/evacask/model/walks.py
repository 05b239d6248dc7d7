"""Shortest walks out of a building, and the walking bound. This is own arithmetic (`evacask`), which nobody has proved."""
from __future__ import annotations

import heapq
from dataclasses import dataclass
from typing import Dict, List, Optional, Tuple

from evacask.model.shares import Count, shares_in
from evacask.model.building import Arc, Model


@dataclass(frozen=True)
class Walk:
    """The quickest walk out of a node with nobody in the way: its periods, and the arc that it begins with (None at an exit)."""

    periods: int
    first: Optional[Arc]


def walks(model: Model, rate: Count = 0) -> Dict[str, Walk]:
    """Of each node from which so many people at once can walk out, the quickest walk over arcs with that rate; over any open arc without a number."""
    into: Dict[str, List[Arc]] = {}
    for arc in model.arcs.values():
        if arc.rate and arc.rate >= rate:
            into.setdefault(arc.head, []).append(arc)
    found: Dict[str, Walk] = {}
    waiting: List[Tuple[int, int, str, Optional[Arc]]] = [(0, 0, node.name, None) for node in model.exits]
    heapq.heapify(waiting)
    while waiting:
        periods, _, name, first = heapq.heappop(waiting)
        if name not in found:
            found[name] = Walk(periods, first)
            for arc in into.get(name, []):
                heapq.heappush(waiting, (periods + arc.travel, arc.line, arc.tail, arc))
    return found


@dataclass(frozen=True)
class Bound:
    """The walking bound: out of each room with people a walk for `rate` people at once takes at most `periods`."""

    periods: int
    rate: Count
    moment: int


def walking_bound(model: Model) -> Optional[Bound]:
    """The least moment that the law gives, over all rates, or None where its premises don't hold.

    The law: no rate changes with time, nobody comes later, somebody is inside, and out of each room with people there is a walk of at most u
    periods over arcs of a rate of at least r. Then everybody is out by u + (people - 1) div r, counted in shares if the model has them.
    """
    starts = [node.name for node in model.rooms if node.start]
    if not model.is_steady or not starts:
        return None
    best = None
    for rate in sorted({arc.rate for arc in model.arcs.values() if arc.rate}):
        out = walks(model, rate)
        if not all(name in out for name in starts):
            break  # (nor is there a walk for more people at once)
        periods = max(out[name].periods for name in starts)
        bound = Bound(periods, rate, periods + (shares_in(model.people, model.shares) - 1) // shares_in(rate, model.shares))
        if best is None or bound.moment < best.moment:
            best = bound
    return best
