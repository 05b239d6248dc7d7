"""Which way out people go from each room, by the printed plan: another best plan may differ."""
from __future__ import annotations

from dataclasses import dataclass
from typing import Dict, List, Tuple

from evacask.client.blocks import strictly
from evacask.client.reports import Report
from evacask.client.routes import Route, routes_of
from evacask.errors import Broken
from evacask.model.building import Model
from evacask.model.shares import Count


@dataclass(frozen=True)
class RoomWay:
    """`people` of a room go through these nodes, the room first; the first of them set out at moment `first`, and the last at `last`."""

    nodes: Tuple[str, ...]
    people: Count
    first: int
    last: int


def ways_of(model: Model, report: Report) -> Tuple[RoomWay, ...]:
    """The routes of a report, those along the same nodes together: by room in the order of the building, the way of most people first.

    `Broken` if they aren't the routes of all people.
    """
    found: Dict[Tuple[str, ...], List[Route]] = {}
    for route in routes_of(report):
        found.setdefault(route.nodes, []).append(route)
    if sum(it.people for some in found.values() for it in some) != model.people:
        raise Broken("the program printed routes that aren't those of all people, as evacplan never does")
    place = {name: at for at, name in enumerate(model.nodes)}
    ways = strictly(lambda: [way_of(nodes, some) for nodes, some in found.items()], "a route")
    return tuple(strictly(lambda: sorted(ways, key=lambda it: (place[it.nodes[0]], -it.people, it.nodes)), "a route"))


def way_of(nodes: Tuple[str, ...], routes: List[Route]) -> RoomWay:
    """The routes along some nodes as one way."""
    moments = [it.steps[0][0] for it in routes]
    return RoomWay(nodes, sum(it.people for it in routes), min(moments), max(moments))
