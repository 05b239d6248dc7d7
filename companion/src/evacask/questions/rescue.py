"""Who can be saved if not all can be out in time: the most people, and a best plan for them.

A best plan of the building with a late exit has as many out by the moment as can be. Its routes say who they are. The building with just these
people is then planned again, so the plan that is handed over is a best plan for them.
"""
from __future__ import annotations

from dataclasses import dataclass, replace
from typing import Dict, List, Optional, Tuple

from evacask.client.asking import solve
from evacask.client.blocks import Plan
from evacask.client.routes import routes
from evacask.client.talk import Client
from evacask.errors import Broken, Shortfall
from evacask.model.building import Model
from evacask.model.ground import Ground
from evacask.model.shares import Count, in_people
from evacask.model.variant import counted_in, in_units, varied, whole, with_starts
from evacask.questions.late import with_late_exit


@dataclass(frozen=True)
class Stay:
    """Of `people` who start in a room (at moment 0) or come into it (later), `saved` can be out, and the others stay."""

    room: str
    moment: int
    people: Count
    saved: Count

    @property
    def staying(self) -> Count:
        return self.people - self.saved


@dataclass(frozen=True)
class Rescue:
    """`most` of `people` can be out by `moment` (a period), and no more. `groups` says who in one best plan, `plan`."""

    moment: int
    most: Count
    people: Count
    groups: Tuple[Stay, ...]
    plan: Plan
    ground: Ground = Ground.PROVED

    def records(self) -> List[Dict[str, object]]:
        return [{"room": it.room, "moment": it.moment, "people": it.people, "saved": it.saved, "staying": it.staying} for it in self.groups]


def rescue(client: Client, model: Model, moment: Optional[int] = None) -> Rescue:
    """The most people who can be out by a moment (the horizon, if none is given), and a plan for them."""
    units = in_units(model)
    by = model.horizon if moment is None else min(moment, model.horizon)
    most: Optional[Count] = None
    if all(it.moment <= by for it in model.entrants):
        try:
            plan = solve(client, model, by)
            return Rescue(by, model.people, model.people, groups_of(units, starts_of(units), model.shares), plan)
        except Shortfall as short:
            most = short.most
    saved = saved_by(client, units, by)
    only = counted_in(with_only(units, saved), model.shares)
    if most is not None and only.people != most:
        raise Broken(f"{only.people} people are out by a late exit, and the program's cut says {most}")
    return Rescue(by, only.people, model.people, groups_of(units, saved, model.shares), solve(client, only, by))


Group = Tuple[str, int]


def starts_of(model: Model) -> Dict[Group, int]:
    """All groups of people: of a room and moment 0, or of a room and the moment at which they come in."""
    found = {(it.name, 0): whole(it.start) for it in model.rooms}
    found.update({(it.name, it.moment): whole(it.people) for it in model.entrants})
    return found


def saved_by(client: Client, model: Model, by: int) -> Dict[Group, int]:
    """How many of each group are out by a moment in a best plan of the building with a late exit."""
    extended, late = with_late_exit(model, by)
    saved = dict.fromkeys(starts_of(model), 0)
    for route in routes(client, extended):
        moment, way = route.steps[-1]
        if way[1] != late and moment + model.arcs[way].travel <= by:
            saved[route.origin, route.entered] += route.people
    return saved


def with_only(model: Model, people: Dict[Group, int]) -> Model:
    """The building with so many of each group, and nobody else."""
    fewer = with_starts(model, {it.name: people[it.name, 0] for it in model.rooms}, is_widened=False)
    entrants = [replace(it, people=people[it.name, it.moment]) for it in model.entrants if people[it.name, it.moment]]
    return varied(fewer, entrants=entrants)


def groups_of(units: Model, saved: Dict[Group, int], shares: int) -> Tuple[Stay, ...]:
    """Who stays of each group, in people, where `units` and `saved` count shares."""
    groups = ((*group, in_people(people, shares), in_people(saved[group], shares)) for group, people in starts_of(units).items() if people)
    return tuple(Stay(*it) for it in groups)
