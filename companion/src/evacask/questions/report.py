"""All that a page about a building says, as data: its answer, why not sooner, who is where when, what decides, and what each way is worth."""
from __future__ import annotations

from dataclasses import dataclass
from typing import Callable, Dict, List, Optional, Tuple, Union

from evacask.client.asking import check, session
from evacask.client.blocks import Plan
from evacask.client.reports import Verdict
from evacask.client.talk import Client, Source
from evacask.errors import Shortfall
from evacask.model.building import Model
from evacask.model.crossings import Place, crossings
from evacask.model.drawn_building import DrawnBuilding
from evacask.model.shares import Count
from evacask.questions.bracket import Bracket, bracket
from evacask.questions.by_hand import ByHand, by_hand
from evacask.questions.full import Full, full
from evacask.questions.occupancy import Occupancy, occupancy
from evacask.questions.review import Review, review_of
from evacask.questions.room_ways import RoomWay, ways_of
from evacask.questions.summary import Short, short_of
from evacask.questions.why import Why, why_by
from evacask.questions.worth import Worth, worth


@dataclass(frozen=True)
class Storey:
    """A floor: how many stay on it at each moment, by the printed plan."""

    number: int
    name: str
    stay: Tuple[Count, ...]

    @property
    def most(self) -> Count:
        return max(self.stay)

    @property
    def first(self) -> int:
        """The first moment at which most stay."""
        return self.stay.index(self.most)

    @property
    def left(self) -> int:
        """The moment at which the last one leaves, or 0 if nobody ever stays."""
        return max((moment + 1 for moment, people in enumerate(self.stay) if people), default=0)


@dataclass(frozen=True)
class Report:
    """A building from which everybody gets out, and all that its page says. Moments are in periods."""

    model: Model
    source: Source
    plan: Plan
    verdict: Verdict
    uncongested: int
    cut: Optional[Why]
    by_hand: Optional[ByHand]
    bracket: Optional[Bracket]
    occupancy: Occupancy
    full: Full
    storeys: Tuple[Storey, ...]
    rooms: Tuple[RoomWay, ...]
    worth: Worth
    review: Review

    def moment_of(self, percent: int) -> int:
        """The first moment by which so many of a hundred people are out."""
        return next(moment for moment, out in enumerate(self.plan.arrivals) if out * 100 >= percent * self.plan.people)


@dataclass(frozen=True)
class Crossed:
    """What a place adds to the cut of a shortfall: `people`, over so many periods. It is an arc by two names, a node by one."""

    names: Place
    people: Count
    periods: int


@dataclass(frozen=True)
class ShortReport:
    """A building from which not everybody can be out by the horizon. Over `crossed` and besides `free` people, who aren't held up, nobody gets out."""

    model: Model
    source: Source
    short: Short
    crossed: Tuple[Crossed, ...]
    free: Count
    review: Review


def report(
    client: Client,
    model: Model,
    drawn: Optional[DrawnBuilding] = None,
    trials: Optional[int] = None,
    workers: int = 4,
    tell: Callable[[int, int], None] = lambda done, of: None,
) -> Union[Report, ShortReport]:
    """The data of a page about a building, and about its plan in metres if it was drawn so. At most so many trials say what ways are worth."""
    try:
        with session(client, model) as talk:
            plan, walk, routes = talk.opening, talk.report("summary").number("uncongested"), talk.report("routes")
            cut = talk.cut() if plan.cleared else None
    except Shortfall as short:
        return short_report(client, model, short)
    where, reason = occupancy(model, plan), why_by(cut, plan) if cut else None
    crossed = {(it.names[0], it.names[1]) for it in cut.items if it.word == "arc"} if cut else set()
    return Report(
        model,
        client.source,
        plan,
        check(client, model, plan.raw),
        walk,
        reason,
        by_hand(model, plan, reason) if reason else None,
        bracket(client, drawn, drawn.period, model.shares) if drawn else None,
        where,
        full(model, plan),
        storeys_of(model, where),
        ways_of(model, routes),
        worth(client, plan, where.through(), crossed, trials, workers, tell),
        review_of(model, plan.cleared, walk),
    )


def short_report(client: Client, model: Model, short: Shortfall) -> ShortReport:
    """The data of a page about a shortfall. What a cut is worth is added up by docs/users/formats.md, "Reading the cuts out of the labels"."""
    found = []
    for names, periods in crossings(model, short.cut, model.horizon).places.items():
        size = model.arcs[names[0], names[1]].rate if len(names) == 2 else model.nodes[names[0]].capacity or 0
        found.append(Crossed(names, size * periods, periods))
    crossed = tuple(sorted((it for it in found if it.people), key=lambda it: (-it.people, it.names)))
    free = short.most - sum(it.people for it in crossed)
    return ShortReport(model, client.source, short_of(model, short), crossed, free, review_of(model, None, 0))


def storeys_of(model: Model, where: Occupancy) -> Tuple[Storey, ...]:
    """The floors with rooms, the highest first."""
    rooms: Dict[int, List[List[Count]]] = {}
    for node in model.rooms:
        rooms.setdefault(node.floor, []).append(where.stay(node.name))
    sums = {floor: tuple(sum(row) for row in zip(*stays)) for floor, stays in rooms.items()}
    return tuple(Storey(it, model.floors.get(it, ""), sums[it]) for it in sorted(sums, reverse=True))
