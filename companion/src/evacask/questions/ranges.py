"""How sure a clearing time is: between which moments all are out, if rates, travels and starts are only known as intervals.

Wider ways, shorter walks and fewer people never make all out later. So two corners bound every building whose numbers lie in the intervals, also if
each number varies by itself: the one with all numbers at their best, and the one with all at their worst. What the laws ask for is looked at first.
"""
from __future__ import annotations

import math
from dataclasses import dataclass, field, replace
from fractions import Fraction
from typing import Dict, List, Mapping, Optional, Tuple

from evacask.client.asking import plan_or_short
from evacask.client.blocks import Plan
from evacask.client.talk import Client
from evacask.errors import WordsError
from evacask.model.building import Arc, Model, Way
from evacask.model.ground import Ground
from evacask.model.shares import Count, exact_shares, in_people, shares_in
from evacask.model.variant import MOST_PEOPLE, MOST_RATE, MOST_TRAVEL, people_of, varied

# From the first number to the second, both included.
Interval = Tuple[int, int]
Counts = Tuple[Count, Count]
KINDS = ("rate", "travel", "people")


@dataclass(frozen=True)
class Ranges:
    """The least and the greatest value of some rates, travels (periods) and starts; what isn't named is as it is in the building."""

    rates: Mapping[Way, Counts] = field(default_factory=dict)
    travels: Mapping[Way, Interval] = field(default_factory=dict)
    people: Mapping[str, Counts] = field(default_factory=dict)

    def only(self, kind: str) -> "Ranges":
        """One kind of these ranges."""
        return replace(
            self,
            rates=self.rates if kind == "rate" else {},
            travels=self.travels if kind == "travel" else {},
            people=self.people if kind == "people" else {},
        )

    @property
    def kinds(self) -> List[str]:
        return [kind for kind, given in zip(KINDS, (self.rates, self.travels, self.people)) if given]


@dataclass(frozen=True)
class Span:
    """If these inputs vary, all are out from `earliest` to `latest` (moments). None: not all by the horizon; then at most so many (`.._most`)."""

    varied: Tuple[str, ...]
    earliest: Optional[int]
    earliest_most: Count
    latest: Optional[int]
    latest_most: Count


@dataclass(frozen=True)
class Range:
    """The spans of each kind of input by itself and of all together, the last. `doubt` says what keeps the bounds from being certain, if anything.

    `depends` are the kinds that change the answer at all. `coarse` counts the travels below 5 periods, in which rounding may be most of the interval.
    """

    cleared: Optional[int]
    most: Count
    spans: Tuple[Span, ...]
    doubt: Optional[str]
    coarse: int
    ground: Ground = Ground.PROVED

    @property
    def depends(self) -> Tuple[str, ...]:
        return tuple(it.varied[0] for it in self.spans[:-1] if (it.earliest, it.earliest_most) != (it.latest, it.latest_most))

    def records(self) -> List[Dict[str, object]]:
        return [{"varied": list(it.varied), "earliest": it.earliest, "latest": it.latest} for it in self.spans]


def percents(model: Model, rate: Interval = (0, 0), travel: Interval = (0, 0), people: Interval = (0, 0)) -> Ranges:
    """Ranges by percents below and above each number, rounded outwards to whole numbers, and of people in shares to whole shares."""
    for low, high in (rate, travel, people):
        if not (0 <= low <= 100 and 0 <= high <= 1000):
            raise WordsError(f"{low} and {high} percent: below it is 0 to 100 of a hundred, and above 0 to 1,000")
    arcs = model.arcs.items()
    return Ranges(
        {way: counts_around(arc.rate, rate, MOST_RATE, model.shares) for way, arc in arcs} if any(rate) else {},
        {way: spread(arc.travel, travel, 1, MOST_TRAVEL) for way, arc in arcs} if any(travel) else {},
        {it.name: counts_around(it.start, people, MOST_PEOPLE, model.shares) for it in model.rooms if it.start} if any(people) else {},
    )


def counts_around(people: Count, percent: Interval, most: int, shares: int) -> Counts:
    """From so many percent fewer people to so many more, but `most` shares."""
    low, high = spread(shares_in(people, shares), percent, 0, most)
    return in_people(low, shares), in_people(high, shares)


def spread(value: int, percent: Interval, least: int, most: int) -> Interval:
    low, high = Fraction(value * (100 - percent[0]), 100), Fraction(value * (100 + percent[1]), 100)
    return max(least, math.floor(low)), min(most, math.ceil(high))


def ranges(client: Client, model: Model, given: Ranges) -> Range:
    """When all are out at the best and at the worst of some ranges."""
    check_ranges(model, given)
    now = plan_or_short(client, model)
    parts = [given.only(kind) for kind in given.kinds]
    spans = [span_of(client, model, part) for part in (parts if len(parts) > 1 else [])]
    spans.append(span_of(client, model, given))
    coarse = sum(1 for way in given.travels if model.arcs[way].travel < 5)
    cleared, most = (now.cleared, now.people) if isinstance(now, Plan) else (None, now.most)
    doubt = doubt_of(model, given)
    return Range(cleared, most, tuple(spans), doubt, coarse, Ground.OWN if doubt else Ground.PROVED)


def check_ranges(model: Model, given: Ranges) -> None:
    """`WordsError` if a range has no value, leaves out the building's own, or goes beyond what the language allows."""
    for way, rates in given.rates.items():
        check_range(f"rate of {' '.join(way)}", model.arc(*way).rate, rates, (0, MOST_RATE), model.shares)
    for way, travels in given.travels.items():
        check_range(f"travel of {' '.join(way)}", model.arc(*way).travel, travels, (1, MOST_TRAVEL))
    for name, people in given.people.items():
        node = model.node(name)
        if node.start is None:
            raise WordsError(f"{node.name} is an exit: nobody starts there")
        check_range(f"start of {name}", node.start, people, (0, MOST_PEOPLE), model.shares)


def check_range(what: str, now: Count, interval: Counts, limits: Interval, shares: int = 1) -> None:
    """Whether an interval holds a number and stays within limits, which are in shares of a person."""
    try:
        low, high = (exact_shares(it, shares) for it in interval)
    except ValueError as fault:
        raise WordsError(f"the {what}: {fault}") from None
    if not limits[0] <= low <= shares_in(now, shares) <= high <= limits[1]:
        least, most = (in_people(it, shares) for it in limits)
        raise WordsError(f"the {what} is {now}, and the interval from {interval[0]} to {interval[1]} has to hold it, from {least} to {most:,}")


def span_of(client: Client, model: Model, given: Ranges) -> Span:
    best, worst = plan_or_short(client, corner(model, given, True)), plan_or_short(client, corner(model, given, False))
    early = (best.cleared, best.people) if isinstance(best, Plan) else (None, best.most)
    late = (worst.cleared, worst.people) if isinstance(worst, Plan) else (None, worst.most)
    return Span(tuple(given.kinds), *early, *late)


def corner(model: Model, given: Ranges, is_best: bool) -> Model:
    """The building in which all are out first, or last. A room holds all who may start in it at most, in both corners."""
    arcs: Dict[Way, Arc] = {}
    for way, arc in model.arcs.items():
        rate, travel = given.rates.get(way, (arc.rate, arc.rate)), given.travels.get(way, (arc.travel, arc.travel))
        arcs[way] = replace(arc, rate=rate[is_best], travel=travel[not is_best])
    nodes = {}
    for name, people in given.people.items():
        node = model.nodes[name]
        nodes[name] = replace(node, start=people[not is_best], capacity=max(node.capacity or 0, people[1]))
    return varied(model, nodes=nodes, arcs=arcs)


def doubt_of(model: Model, given: Ranges) -> Optional[str]:
    """What keeps the corners from being certain, None if nothing does."""
    if any(low < high for low, high in given.travels.values()):
        if model.windows:
            return "longer walks can help here, as an arc has a window (docs/maintainers/laws.md, longer walks)"
        worst = corner(model, given, False)
        tight = [name for name, people in people_of(worst).items() if people > (worst.nodes[name].capacity or 0)]
        if tight:
            return f"longer walks can help here, as {tight[0]} doesn't hold all who come into it (docs/maintainers/laws.md, longer walks)"
    if not model.is_steady:
        small = [name for name, people in given.people.items() if people[1] > (model.nodes[name].capacity or 0)]
        if small:
            return f"{small[0]} doesn't hold the most who may start there, and with windows or late-comers a larger room can help"
    return None
