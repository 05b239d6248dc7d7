"""What if: a building, the same after some edits, and other buildings side by side."""
from __future__ import annotations

from dataclasses import dataclass
from typing import Dict, Iterable, List, Optional, Sequence, Tuple

from evacask.client.asking import session
from evacask.client.talk import Client
from evacask.errors import Refused, Shortfall
from evacask.model.building import Model
from evacask.model.edits import edited
from evacask.model.ground import Ground
from evacask.model.records import Records
from evacask.model.shares import Count


@dataclass(frozen=True)
class Scenario:
    """A building of a comparison: its figures, or how many can be out of it at most, or why there is no such building.

    Moments are in periods of `period` seconds, whose later end is claimed or isn't. `by_share` has the moments by which half of the people, and 95 %, are out.
    """

    name: str
    period: int
    has_later_end: bool
    people: Count
    most: Count
    cleared: Optional[int] = None
    person_periods: Optional[Count] = None
    by_share: Tuple[Optional[int], ...] = (None, None)
    refused: Optional[Refused] = None

    @property
    def mean(self) -> Optional[float]:
        """The mean moment at which a person is out."""
        return float(self.person_periods / self.people) if self.person_periods is not None and self.people else None


@dataclass(frozen=True)
class Comparison(Records):
    """Scenarios, each compared with the first."""

    scenarios: Tuple[Scenario, ...]
    ground: Ground = Ground.PROVED

    @property
    def is_any_refused(self) -> bool:
        return any(it.refused for it in self.scenarios)

    def records(self) -> List[Dict[str, object]]:
        """A dict for each scenario."""
        return [
            {
                "building": it.name,
                "people": it.people,
                "cleared": it.cleared,
                "most": it.most,
                "period": it.period,
                "half_out": it.by_share[0],
                "95 %": it.by_share[1],
                "mean": it.mean,
                "refused": it.refused.code if it.refused else None,
            }
            for it in self.scenarios
        ]


def compare(
    client: Client, model: Model, edits: Iterable[Sequence[str]] = (), others: Iterable[Tuple[str, Model]] = (), name: str = ""
) -> Comparison:
    """The building as it is, then the others with their names, then the building after each group of edits, which are one step."""
    found = [scenario(client, name, model), *(scenario(client, *it) for it in others)]
    for group in edits:
        named = "; ".join(group)
        try:
            found.append(scenario(client, named, edited(model, group)))
        except Refused as refused:
            found.append(Scenario(named, model.period, True, 0, 0, refused=refused))
    return Comparison(tuple(found))


def scenario(client: Client, name: str, model: Model) -> Scenario:
    """The figures of one building."""
    try:
        with session(client, model) as talk:
            plan, person_periods = talk.opening, talk.report("summary").people("personperiods")
    except Shortfall as short:
        return Scenario(name, model.period, model.has_later_end, short.people, short.most)
    # (95 of 100 by whole numbers, so that no rounding comes in)
    shares = [next((k for k, out in enumerate(plan.arrivals) if 100 * out >= share * plan.people), None) for share in (50, 95)]
    return Scenario(name, model.period, model.has_later_end, plan.people, plan.people, plan.cleared, person_periods, tuple(shares))
