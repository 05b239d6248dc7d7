"""The cheapest widenings with which all are out in time: exact, by cuts that the program prints.

Buy x. All are out by a moment exactly if each cut at that moment is worth at least the people. The worth of a cut is linear in x: its worth now, and
for each place how often it counts, times what was bought of it. So each printed cut is a demand that every purchase has to meet. The cheapest x that
meets the demands so far is put to the program. If that clears, it is enough, and it is the cheapest for fewer demands, so the cheapest at all. Else
the program prints a cut that it misses, which is the next demand.
"""
from __future__ import annotations

from dataclasses import dataclass, replace
from typing import Callable, Dict, List, Optional, Sequence, Tuple

from evacask.client.asking import plan_or_short
from evacask.client.blocks import Plan
from evacask.client.talk import Client
from evacask.errors import Broken, WordsError
from evacask.model.building import Model
from evacask.model.crossings import Crossings, Place, crossings, size_of
from evacask.model.ground import Ground
from evacask.model.shares import Count, exact_shares, in_people
from evacask.model.variant import MOST_PEOPLE, MOST_RATE, in_units, varied, whole
from evacask.questions.cover import Cover, Row, Work, cover

WORK = 40_000_000
Solver = Callable[[Sequence[Tuple[Row, int]], Sequence[int], Sequence[int], Work], Optional[Cover]]


@dataclass(frozen=True)
class Widening:
    """What can be bought up to `most` times: `step` more rate of an arc (two names), or more capacity of a node (one), each time for `cost`."""

    place: Place
    step: Count = 1
    cost: int = 1
    most: int = MOST_PEOPLE


@dataclass(frozen=True)
class Purchase:
    """A widening that is bought `times`: what was `before`, and is `after`."""

    place: Place
    times: int
    cost: int
    before: Count
    after: Count


@dataclass(frozen=True)
class Improvement:
    """For `cost` all are out by `cleared`, within `moment`, and no purchase for less than `at_least` is enough. `cuts` show that.

    No `cost`: nothing was found; with `most` because at most so many are out by `moment` whatever is bought, else because the work ran out.
    `sooner` is the answer about the moment before, if a budget was asked about, which isn't enough then as far as is known.
    """

    moment: int
    people: Count
    cost: Optional[int]
    at_least: int
    cleared: Optional[int]
    purchases: Tuple[Purchase, ...]
    cuts: int
    most: Optional[Count] = None
    sooner: Optional[Improvement] = None
    ground: Ground = Ground.CUTS

    @property
    def is_exact(self) -> bool:
        return self.cost == self.at_least or self.most is not None

    def records(self) -> List[Dict[str, object]]:
        return [{"place": " ".join(it.place), "times": it.times, "cost": it.cost, "before": it.before, "after": it.after} for it in self.purchases]


def all_widenings(model: Model) -> List[Widening]:
    """Each arc by 1 person for 1; each node too if a capacity can matter at all: if an arc has a window or people come later (law: capacities)."""
    arcs = [Widening(way) for way in model.arcs]
    return arcs if model.is_steady else arcs + [Widening((it.name,)) for it in model.rooms]


def improve(
    client: Client, model: Model, moment: int, widenings: Optional[Sequence[Widening]] = None, work: int = WORK, solver: Solver = cover
) -> Improvement:
    """The cheapest of some widenings (`all_widenings`, if none are given) with which all are out by a moment, in periods."""
    if not max((it.moment for it in model.entrants), default=0) <= moment <= model.horizon:
        raise WordsError(f"all are to be out by {moment}: it has to be a moment from the last entrant's to the horizon, {model.horizon}")
    given = all_widenings(model) if widenings is None else widenings
    units = in_units(model)
    offers = [limited(units, it, model.shares) for it in given]
    return Search(client, units, moment, offers, Work(work), solver, model.shares).run()


def limited(units: Model, it: Widening, shares: int) -> Widening:
    """A widening of the building's own names that stays within the limits of rates and capacities, with its step in shares. `WordsError` if it is none."""
    if it.step <= 0 or it.cost < 0 or it.most < 0:
        raise WordsError(
            f"a widening of {' '.join(it.place)} has step {it.step}, cost {it.cost}, most {it.most}: a step is above 0, and none of the others below it"
        )
    place: Place = units.arc(*it.place).way if len(it.place) == 2 else (units.node(*it.place).name,)
    if len(place) == 1 and units.nodes[place[0]].is_exit:
        raise WordsError(f"{place[0]} is an exit, which has no capacity")
    try:
        step = exact_shares(it.step, shares)
    except ValueError as fault:
        raise WordsError(f"a widening of {' '.join(place)}: {fault}") from None
    limit = MOST_RATE if len(place) == 2 else MOST_PEOPLE
    return replace(it, place=place, step=step, most=min(it.most, (limit - whole(size_of(units, place))) // step))


def widened(model: Model, offers: Sequence[Widening], x: Sequence[int]) -> Model:
    """The building with what was bought."""
    more: Dict[Place, int] = {}
    for it, times in zip(offers, x):
        more[it.place] = more.get(it.place, 0) + whole(it.step) * times
    arcs = {way: replace(arc, rate=min(MOST_RATE, whole(arc.rate) + more[way])) for way, arc in model.arcs.items() if more.get(way)}
    rooms = [it for it in model.rooms if more.get((it.name,))]
    nodes = {it.name: replace(it, capacity=min(MOST_PEOPLE, whole(it.capacity) + more[it.name,])) for it in rooms}
    return varied(model, nodes=nodes, arcs=arcs)


class Search:
    """The demands so far, and the purchase that is to be put to the program next. `model` and `offers` count in shares, the answer in people."""

    def __init__(self, client: Client, model: Model, moment: int, offers: List[Widening], work: Work, solver: Solver, shares: int):
        self.client, self.model, self.moment, self.offers, self.work, self.solver = client, model, moment, offers, work, solver
        self.shares, self.people = shares, in_people(whole(model.people), shares)
        self.demands: List[Tuple[Row, int]] = []

    def run(self) -> Improvement:
        """Buys, asks and adds a demand, until a purchase is enough or none can be, or as much work again is done without an end."""
        bought, last = Cover(0, 0, (0,) * len(self.offers)), -self.work.left
        while bought.x is not None and self.work.left > last:
            self.check_limits(bought.x)
            now = widened(self.model, self.offers, bought.x)
            answer = plan_or_short(self.client, now, self.moment)
            if isinstance(answer, Plan):
                return self.improvement(bought, answer.cleared)
            self.demand(crossings(now, answer.cut, self.moment))
            found = self.solver(self.demands, [it.cost for it in self.offers], [it.most for it in self.offers], self.work)
            if found is None:
                return self.barred(bought.at_least)
            bought = replace(found, at_least=max(found.at_least, bought.at_least))
        return self.improvement(Cover(bought.at_least, None, None), None)

    def check_limits(self, x: Sequence[int]) -> None:
        """`WordsError` if a purchase is more of one place than its limit, as each of several offers for it stays within it alone."""
        total = {it.place: whole(size_of(self.model, it.place)) for it in self.offers}
        for it, times in zip(self.offers, x):
            total[it.place] += whole(it.step) * times
        for place, size in total.items():
            if size > (MOST_RATE if len(place) == 2 else MOST_PEOPLE):
                raise WordsError(f"what may be bought of {' '.join(place)} in several rows is together more than a rate or a capacity may be")

    def demand(self, cut: Crossings) -> None:
        """What a purchase has to meet so that this cut is worth all people."""
        row = {at: cut.places[it.place] * whole(it.step) for at, it in enumerate(self.offers) if cut.places.get(it.place) and it.most}
        self.demands.append((row, whole(self.model.people) - cut.worth(self.model)))

    def improvement(self, bought: Cover, cleared: Optional[int]) -> Improvement:
        sizes = {it.place: whole(size_of(self.model, it.place)) for it in self.offers}
        purchases = []
        for it, times in zip(self.offers, bought.x or ()):
            if times:
                before = sizes[it.place]
                sizes[it.place] += whole(it.step) * times
                now, then = (in_people(size, self.shares) for size in (before, sizes[it.place]))
                purchases.append(Purchase(it.place, times, it.cost * times, now, then))
        ground = Ground.CUTS if self.solver is cover else Ground.OWN
        return Improvement(self.moment, self.people, bought.cost, bought.at_least, cleared, tuple(purchases), len(self.demands), ground=ground)

    def barred(self, at_least: int) -> Improvement:
        """No purchase meets all demands: if everything is bought, a cut says how many are out at most."""
        everything = widened(self.model, self.offers, [it.most for it in self.offers])
        answer = plan_or_short(self.client, everything, self.moment)
        if isinstance(answer, Plan):
            raise Broken("all are out if everything is bought, and the program's cuts say that no purchase is enough")
        most = in_people(whole(answer.most), self.shares)
        return Improvement(self.moment, self.people, None, at_least, None, (), len(self.demands), most)
