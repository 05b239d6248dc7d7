"""Routes of a plan: groups of people who go together, as the program's report has them."""
from __future__ import annotations

from dataclasses import dataclass
from typing import List, Tuple

from evacask.client.asking import session
from evacask.client.blocks import strictly
from evacask.client.reports import Report
from evacask.client.talk import Client
from evacask.model.building import Model, Way
from evacask.model.lines import number_of
from evacask.model.shares import Count, in_people


@dataclass(frozen=True)
class Route:
    """`people` who start in `origin`, or come into it at moment `entered` (0 for those inside at first), enter these arcs at these moments."""

    people: Count
    origin: str
    entered: int
    steps: Tuple[Tuple[int, Way], ...]

    @property
    def nodes(self) -> Tuple[str, ...]:
        """The nodes in which the route begins, leads through and ends."""
        return (self.origin, *(way[1] for _, way in self.steps))


def routes(client: Client, model: Model) -> Tuple[Route, ...]:
    """Who goes which way in the plan that the program prints of a building; `Shortfall` if not everybody can be out."""
    with session(client, model) as talk:
        return routes_of(talk.report("routes"))


def routes_of(report: Report) -> Tuple[Route, ...]:
    """The routes of a report `routes`."""
    return strictly(lambda: tuple(read_routes(report)), "a route")


def read_routes(report: Report) -> List[Route]:
    found: List[Tuple[Count, str, int, List[Tuple[int, Way]]]] = []
    for word, *rest in report.lines:
        if word == "route":
            people, origin, *entered = rest
            found.append((in_people(number_of(people), report.shares), origin, number_of(entered[0]) if entered else 0, []))
        elif word == "step":
            moment, tail, head = rest
            _, origin, _, steps = found[-1]
            if tail != (steps[-1][1][1] if steps else origin):
                raise ValueError(f"a step from {tail}, where nobody is")
            steps.append((number_of(moment), (tail, head)))
        else:
            raise ValueError(word)
    return [Route(people, origin, entered, tuple(steps)) for people, origin, entered, steps in found]
