"""The short answer: how many people, when they are out, what congestion costs, and what decides; or why not everybody can be out."""
from __future__ import annotations

from dataclasses import dataclass
from typing import Dict, List, Optional, Tuple, Union

from evacask.client.asking import session
from evacask.client.talk import Client
from evacask.errors import Shortfall, Span
from evacask.model.building import Model
from evacask.model.draft import LAST_MOMENT
from evacask.model.drawn_building import DrawnBuilding
from evacask.model.ground import Ground
from evacask.model.records import Records
from evacask.model.shares import Count
from evacask.model.walks import Bound, walking_bound, walks
from evacask.questions.bracket import Bracket, bracket
from evacask.questions.by_hand import ByHand, by_hand
from evacask.questions.review import review_of
from evacask.questions.why import Why, why_of

# Nodes and arcs together, times the moments from 0 to the horizon, are at most so many.
MOST_CELLS = 1_000_000


@dataclass(frozen=True)
class Summary(Records):
    """A building from which everybody gets out. Moments are in periods; `person_periods` is the sum of the moments at which people are out.

    `cut` is that of the period before clearing, if there is one, and `hand` the calculation by hand for its widest way. `bound` is own arithmetic, and
    so is the number of `doubts`. `bracket` is of a building that was drawn in metres.
    """

    title: str
    people: Count
    cleared: int
    uncongested: int
    person_periods: Count
    cut: Optional[Why]
    hand: Optional[ByHand]
    bracket: Optional[Bracket]
    bound: Optional[Bound]
    doubts: int
    ground: Ground = Ground.PROVED

    @property
    def mean(self) -> Optional[float]:
        """The mean moment at which a person is out; None of nobody."""
        return float(self.person_periods / self.people) if self.people else None

    def records(self) -> List[Dict[str, object]]:
        """One dict with the figures."""
        said: Dict[str, object] = {
            "people": self.people,
            "cleared": self.cleared,
            "uncongested": self.uncongested,
            "mean": self.mean,
            "doubts": self.doubts,
        }
        return [said]


@dataclass(frozen=True)
class Short(Records):
    """A building from which at most `most` of `people` can be out by the horizon; `cut` shows it.

    Own arithmetic says what to do: `caught` are nodes with people from which no way leads out; `enough` is a horizon that the walking bound makes
    enough, and `greatest` the greatest that can be written.
    """

    horizon: int
    most: Count
    people: Count
    cut: Tuple[Span, ...]
    caught: Tuple[Tuple[str, Count], ...]
    enough: Optional[int]
    greatest: int
    doubts: int
    ground: Ground = Ground.PROVED

    def records(self) -> List[Dict[str, object]]:
        """A dict for each line of the cut."""
        return [{"node": name, "first": first, "last": last} for name, first, last in self.cut]


def summary(client: Client, model: Model, drawn: Optional[DrawnBuilding] = None) -> Union[Summary, Short]:
    """The short answer; with a bracket, if the building is that of a plan in metres."""
    try:
        with session(client, model) as talk:
            plan, report = talk.opening, talk.report("summary")
            cut = why_of(talk, None) if plan.people and plan.cleared else None
    except Shortfall as short:
        return short_of(model, short)
    walk = report.number("uncongested")
    return Summary(
        model.title,
        plan.people,
        plan.cleared,
        walk,
        report.people("personperiods"),
        cut,
        by_hand(model, plan, cut) if cut else None,
        bracket(client, drawn, drawn.period, model.shares) if drawn else None,
        walking_bound(model),
        len(review_of(model, plan.cleared, walk).doubts),
    )


def short_of(model: Model, short: Shortfall) -> Short:
    """Why not everybody can be out, and what to do as far as own arithmetic can tell."""
    bound, greatest = walking_bound(model), min(LAST_MOMENT, MOST_CELLS // (len(model.nodes) + len(model.arcs)) - 1)
    doubts = len(review_of(model, None, 0).doubts)
    return Short(model.horizon, short.most, short.people, short.cut, caught_in(model), bound.moment if bound else None, greatest, doubts)


def caught_in(model: Model) -> Tuple[Tuple[str, Count], ...]:
    """The nodes with people, or into which people come, from which no way leads out; and how many they are."""
    out = walks(model)
    inside: Dict[str, Count] = {node.name: node.start or 0 for node in model.rooms}
    for it in model.entrants:
        inside[it.name] += it.people
    return tuple((name, people) for name, people in inside.items() if people and name not in out)
