"""What some losses come to, without a plan for each.

- If only one way leads out of some rooms, and the plan sends nobody else through it, then without it those people stay inside, and all others are
  out as before: the plan still serves them.
- If several ways are shut at once and all are out as soon as before, then each of them can be lost: a building with more ways is never slower.
"""
from __future__ import annotations

from collections import Counter
from typing import Callable, Collection, Dict, List, Mapping, Sequence, Set, Tuple

from evacask.client.blocks import Outcome, Plan
from evacask.model.building import Model, Way
from evacask.model.shares import Count
from evacask.questions.sweep import Scenario

# An arc by two names, or an exit, with all arcs into it, by one.
Names = Tuple[str, ...]
# Ways that are shut at once at first.
GROUP = 4


def people_through(plan: Plan) -> "Counter[Way]":
    """How many people a plan sends each way."""
    through: "Counter[Way]" = Counter()
    for it in plan.moves:
        through[it.tail, it.head] += it.people
    return through


def can_leave(model: Model, without: Collection[Way]) -> Set[str]:
    """The nodes from which a walk leads out, over arcs that aren't among some ways."""
    into: Dict[str, List[str]] = {}
    for arc in model.arcs.values():
        if arc.rate and arc.way not in without:
            into.setdefault(arc.head, []).append(arc.tail)
    waiting = [it.name for it in model.exits]
    found = set(waiting)
    while waiting:
        new = set(into.get(waiting.pop(), [])) - found
        found |= new
        waiting += new
    return found


def only_ways_out(plan: Plan, losses: Mapping[Names, Collection[Way]]) -> Dict[Names, Outcome]:
    """The outcomes of losses of ways through which the plan sends nobody but the people of rooms that have no other way out."""
    model, through = plan.model, people_through(plan)
    starts = Counter({it.name: it.start for it in model.rooms})
    for entrant in model.entrants:
        starts[entrant.name] += entrant.people
    found = {}
    for names, ways in losses.items():
        safe = can_leave(model, ways)
        inside: Count = sum(people for name, people in starts.items() if name not in safe)
        if inside and inside == sum(through[it] for it in ways):
            found[names] = Outcome(None, plan.people - inside)
    return found


def harmless(ways: Sequence[Way], cleared: int, ask: Callable[[List[Scenario]], List[Outcome]]) -> Set[Way]:
    """Ways that can each be lost, found by shutting several at once: those at the beginning first in groups. A group that costs time is halved."""
    found: Set[Way] = set()
    groups = [ways[at : at + GROUP] for at in range(0, len(ways), GROUP)]
    while groups:
        outcomes = ask([["shut %s %s" % it for it in group] for group in groups])
        halves: List[Sequence[Way]] = []
        for group, outcome in zip(groups, outcomes):
            if outcome.cleared == cleared:
                found.update(group)
            else:
                halves += [group[: len(group) // 2], group[len(group) // 2 :]]
        groups = [it for it in halves if len(it) > 1]
    return found
