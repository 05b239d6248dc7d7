"""What a cut is worth in a building: the sum of what leads out of it, by the rules of docs/users/formats.md, "Reading the cuts out of the labels".

It is worked out here from the nodes and moments that the program prints, so that a question can say what the same cut is worth with other rates and
capacities, and so that each cut is read twice. The building is in units: see `variant.in_units`.
"""
from __future__ import annotations

from dataclasses import dataclass
from typing import Dict, Iterable, List, Mapping, Set, Tuple

from evacask.errors import Span
from evacask.model.building import Model, Way
from evacask.model.shares import Count
from evacask.model.variant import whole

Place = Tuple[str, ...]


@dataclass(frozen=True)
class Crossings:
    """How often each arc and each waiting in a node counts in the cut of a moment, and the people who aren't held up by it.

    `places` has an arc by its two names, and a node by one. `inside` are the rooms that are in the cut when it begins.
    """

    moment: int
    places: Mapping[Place, int]
    entries: int
    inside: Set[str]

    def worth(self, model: Model) -> int:
        """No more people than this are out by the moment in a building with these nodes, arcs, windows and people, whatever its rates and capacities."""
        return self.entries + sum(count * whole(size_of(model, place)) for place, count in self.places.items())


def size_of(model: Model, place: Place) -> Count:
    """The rate of an arc, or the capacity of a node."""
    return model.arcs[place[0], place[1]].rate if len(place) == 2 else model.nodes[place[0]].capacity or 0


def crossings(model: Model, spans: Iterable[Span], moment: int) -> Crossings:
    """What leads out of the cut that is these nodes at these moments, up to a moment."""
    cells = {(name, t) for name, first, last in spans for t in range(first, last + 1)}
    places: Dict[Place, int] = {}
    for way, count in arcs_out(model, cells, moment).items():
        places[way] = count
    for name, t in cells:
        if t < moment and (name, t + 1) not in cells:
            places[name,] = places.get((name,), 0) + 1
    entries = sum(whole(it.start) for it in model.rooms if (it.name, 0) not in cells)
    entries += sum(whole(it.people) for it in model.entrants if it.moment <= moment and (it.name, it.moment) not in cells)
    return Crossings(moment, places, entries, {name for name, t in cells if t == 0})


def arcs_out(model: Model, cells: Set[Tuple[str, int]], moment: int) -> Dict[Way, int]:
    """At how many moments each arc leads out of the cut and is open."""
    closed: Dict[Way, Set[int]] = {}
    for it in model.windows:
        closed.setdefault(it.way, set()).update(range(it.first, it.until))
    moments: Dict[str, List[int]] = {}
    for name, t in cells:
        moments.setdefault(name, []).append(t)
    found: Dict[Way, int] = {}
    for way, arc in model.arcs.items():
        shut, last = closed.get(way, set()), moment - arc.travel
        count = sum(1 for t in moments.get(arc.tail, ()) if t <= last and t not in shut and (arc.head, t + arc.travel) not in cells)
        if count:
            found[way] = count
    return found
