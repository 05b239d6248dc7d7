"""What is full in every best plan, and when: read off the labels of a block.

By law (docs/maintainers/laws.md, "What is full in every best plan") an arc is full at a moment t in every plan that is best by every period, if for some period k
t + travel <= k and label(head, t + travel) <= k < label(tail, t). An exit has no label. A node is full so if it is an arc of travel 1 to itself.
What the printed plan fills besides isn't named here: another best plan may leave it.
"""
from __future__ import annotations

from dataclasses import dataclass
from typing import Dict, List, Optional, Sequence, Set, Tuple

from evacask.client.blocks import Plan
from evacask.model.building import Model, Way
from evacask.model.ground import Ground
from evacask.model.records import Record, Records
from evacask.model.shares import Count


@dataclass(frozen=True)
class FullPlace:
    """An arc by two names, or a node by one, that every best plan fills: at each of these moments `people` enter the arc, or stay in the node."""

    names: Tuple[str, ...]
    people: Count
    moments: Tuple[int, ...]


@dataclass(frozen=True)
class Full(Records):
    """All such arcs and nodes, each in the order of the building."""

    places: Tuple[FullPlace, ...]
    ground: Ground = Ground.CUTS

    @property
    def ways(self) -> Set[Way]:
        """The arcs among them."""
        return {(it.names[0], it.names[1]) for it in self.places if len(it.names) == 2}

    def records(self) -> List[Record]:
        """A dict for each place and moment at which it is full."""
        return [{"place": " ".join(it.names), "moment": moment, "people": it.people} for it in self.places for moment in it.moments]


def full(model: Model, plan: Plan) -> Full:
    """The arcs and nodes of a building that every best plan fills. What holds nobody, or is closed, isn't full."""
    labels, closed = labels_of(model, plan), closures(model)
    found = []
    for arc in model.arcs.values():
        moments = moments_of(labels[arc.tail], labels.get(arc.head), arc.travel)
        found.append(FullPlace(arc.way, arc.rate, tuple(it for it in moments if it not in closed.get(arc.way, ()))))
    for node in model.rooms:
        found.append(FullPlace((node.name,), node.capacity or 0, tuple(moments_of(labels[node.name], labels[node.name], 1))))
    return Full(tuple(it for it in found if it.people and it.moments))


def labels_of(model: Model, plan: Plan) -> Dict[str, List[int]]:
    """The label of each node but exits at each moment before all are out: the clearing moment, until a line of the block says another."""
    found: Dict[str, List[int]] = {it.name: [] for it in model.rooms}
    last = dict.fromkeys(found, plan.cleared)
    for it in plan.labels:
        found[it.name] += [last[it.name]] * (it.moment - len(found[it.name]))
        last[it.name] = it.value
    return {name: values + [last[name]] * (plan.cleared - len(values)) for name, values in found.items()}


def closures(model: Model) -> Dict[Way, Set[int]]:
    """The moments at which windows close each arc that they close."""
    found: Dict[Way, Set[int]] = {}
    for it in model.windows:
        found.setdefault(it.way, set()).update(range(it.first, it.until))
    return found


def moments_of(tail: Sequence[int], head: Optional[Sequence[int]], travel: int) -> List[int]:
    """The moments at which an arc is an item of some period's cut, by the labels of its two ends; no label is that of an exit."""
    last = max(0, len(tail) - travel)
    if head is None:
        return [t for t in range(last) if t + travel < tail[t]]
    return [t for t in range(last) if max(t + travel, head[t + travel]) < tail[t]]
