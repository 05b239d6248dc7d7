"""The worst losses of several ways or exits at once, exact, over far fewer plans than there are pairs or triples.

A way that the plan without some places doesn't use can be lost besides at no cost: that plan stays one of the building, and a lost way helps nobody
(law: wider and larger). So a loss costs more than a part of it only if each place that is added is used by the plan without the others. And without
a place at most those are kept inside who went there, so a loss that can't reach the worst ones so far needs no plan.
"""
from __future__ import annotations

import math
import re
from collections import Counter
from dataclasses import dataclass
from typing import Callable, Dict, FrozenSet, List, Optional, Sequence, Set, Tuple

from evacask.client.asking import session
from evacask.client.blocks import Plan
from evacask.client.curve import curve_of
from evacask.client.dialogue import Session
from evacask.client.talk import Client
from evacask.errors import WordsError
from evacask.model.building import Model
from evacask.model.ground import Ground
from evacask.model.shares import Count, in_people
from evacask.model.variant import in_units, whole
from evacask.questions.late import with_late_exit

Place = Tuple[str, ...]
Lost = FrozenSet[Place]
MOVES = re.compile(rb"^move \d+ (\S+ \S+) (\d+)$", re.M)
NEVER = math.inf


@dataclass(frozen=True)
class Loss:
    """Without these places (arcs by two names, exits by one) at most `most` people are out by the horizon; all by `cleared`, None if not all can be."""

    places: Tuple[Place, ...]
    most: Count
    cleared: Optional[int]


@dataclass(frozen=True)
class Losses:
    """The worst losses of `count` places that cost more than each part of them. `tried` of `possible` were planned, the rest follows by law."""

    count: int
    people: Count
    cleared: Optional[int]
    worst: Tuple[Loss, ...]
    tried: int
    possible: int
    ground: Ground = Ground.CUTS

    def records(self) -> List[Dict[str, object]]:
        return [{"places": [" ".join(it) for it in one.places], "most": one.most, "cleared": one.cleared} for one in self.worst]


@dataclass(frozen=True)
class Cost:
    """How many shares of people are out by the horizon, and when all are (None if not all can be), and how many go by each place in the plan."""

    most: int
    cleared: Optional[int]
    used: Dict[Place, int]

    @property
    def badness(self) -> Tuple[float, float]:
        """The greater the worse."""
        return -self.most, NEVER if self.cleared is None else self.cleared


def losses(
    client: Client,
    model: Model,
    count: int = 2,
    places: Optional[Sequence[Place]] = None,
    top: int = 5,
    tell: Callable[[int, int], None] = lambda done, of: None,
) -> Losses:
    """The worst losses of 1, 2 or 3 of some places (all arcs, if none are given) at once. `top` says how many."""
    if not 1 <= count <= 3 or not 1 <= top <= 1000:
        raise WordsError(f"the worst {top} losses of {count} places: there may be 1 to 3 places and 1 to 1,000 losses")
    wanted = [*dict.fromkeys(model.arcs if places is None else (named(model, it) for it in places))]
    units = in_units(model)
    extended, _ = with_late_exit(units, model.horizon)
    with session(client, extended) as talk:
        search = Search(units, talk, wanted, top, tell)
        search.run(count)
    opening = search.known[frozenset()]
    worst = tuple(Loss(tuple(sorted(lost)), in_people(cost.most, model.shares), cost.cleared) for lost, cost in search.worst(count))
    return Losses(count, model.people, opening.cleared, worst, search.tried, math.comb(len(wanted), count))


def named(model: Model, place: Place) -> Place:
    """A place by the names of the building; `UnknownName` if there is none, `WordsError` if it is a room."""
    if len(place) == 2:
        return model.arc(*place).way
    node = model.node(*place)
    if not node.is_exit:
        raise WordsError(f"{node.name} is no exit: an exit or an arc can be lost")
    return (node.name,)


class Search:
    """The losses that were planned, in one session on the building with a late exit, so that none is refused."""

    def __init__(self, model: Model, talk: Session, places: List[Place], top: int, tell: Callable[[int, int], None]):
        self.model, self.talk, self.places, self.top, self.tell = model, talk, set(places), top, tell
        self.people = whole(model.people)
        self.known: Dict[Lost, Cost] = {frozenset(): self.cost_of(talk.opening)}
        self.tried, self.is_last = 0, False
        self.seen: Set[Lost] = set()
        self.worst_so_far: List[Tuple[float, float]] = []

    def cost_of(self, plan: Plan) -> Cost:
        """What a plan of the building with the late exit says of the building itself."""
        curve, people = curve_of(plan.raw)[: self.model.horizon + 1], self.people
        cleared = curve.index(people) if curve[-1] == people else None
        gone: "Counter[bytes]" = Counter()
        for way, number in MOVES.findall(plan.raw):
            gone[way] += int(number)
        used: "Counter[Place]" = Counter()
        for way, total in gone.items():
            tail, head = way.decode("ascii").split(" ")
            used[tail, head] += total
            used[head,] += total
        return Cost(curve[-1], cleared, {it: total for it, total in used.items() if it in self.places})

    def run(self, count: int) -> None:
        """Plans all losses of fewer places that may cost more than a part of them, and of `count` places those that may be among the worst."""
        for depth in range(1, count + 1):
            self.is_last, self.seen = depth == count, set()
            self.visit(frozenset(), depth)

    def visit(self, lost: Lost, depth: int) -> None:
        """Adds `depth` places to those that are lost in the session, each of them used by the plan without it."""
        used = self.known[lost].used
        for place in sorted(used, key=lambda it: (-used[it], it)):
            more = lost | {place}
            if more in self.seen or not self.is_open(lost, place, depth):
                continue
            self.seen.add(more)
            self.lose(place, more)
            if depth > 1:
                self.visit(more, depth - 1)
            elif self.is_last:
                self.rank(more)
            self.talk.undo()

    def is_open(self, lost: Lost, place: Place, depth: int) -> bool:
        """Whether a further place, and `depth` - 1 others after it, may be a loss to plan: it isn't known, nor harmless."""
        more = lost | {place}
        if depth == 1:
            return more not in self.known and not self.is_harmless(lost, self.known[lost].used[place])
        if more not in self.known:
            return True
        return any(more | {it} not in self.seen and self.is_open(more, it, depth - 1) for it in self.known[more].used)

    def lose(self, place: Place, more: Lost) -> None:
        plan = self.talk.edit(f"{'shut' if len(place) == 2 else 'shutexit'} {' '.join(place)}")
        if more not in self.known:
            self.tried += 1
            self.known[more] = self.cost_of(plan)
            self.tell(self.tried, self.tried)

    def is_harmless(self, lost: Lost, people: int) -> bool:
        """Whether a further place, by which so many people go, can't make one of the worst losses: it keeps at most these inside."""
        return self.is_last and len(self.worst_so_far) == self.top and (-(self.known[lost].most - people), NEVER) < self.worst_so_far[-1]

    def rank(self, lost: Lost) -> None:
        if self.adds_up(lost):
            self.worst_so_far = sorted([*self.worst_so_far, self.known[lost].badness], reverse=True)[: self.top]

    def adds_up(self, lost: Lost) -> bool:
        """Whether a loss costs more than each part of it; else one of its places adds nothing."""
        return all(self.cost(lost - {place}).badness < self.known[lost].badness for place in lost)

    def cost(self, lost: Lost) -> Cost:
        """What a loss costs, planned or by the law: a place that a plan without the others doesn't use adds nothing."""
        if lost in self.known:
            return self.known[lost]
        free = [lost - {place} for place in lost if self.is_free(lost - {place}, place)]
        return max((self.cost(it) for it in free), key=lambda it: it.badness)

    def is_free(self, less: Lost, place: Place) -> bool:
        """Whether a place can be lost besides at no cost, as far as is known."""
        if less in self.known:
            return place not in self.known[less].used
        return any(self.is_free(less - {one}, one) and self.is_free(less - {one}, place) for one in less)

    def worst(self, count: int) -> List[Tuple[Lost, Cost]]:
        """The worst losses of exactly so many places, the worst first, alike ones by their names."""
        found = [(lost, cost) for lost, cost in self.known.items() if len(lost) == count and self.adds_up(lost)]
        found.sort(key=lambda it: sorted(it[0]))
        return sorted(found, key=lambda it: it[1].badness, reverse=True)[: self.top]
