"""Why not sooner: the cut of a period, added up by place."""
from __future__ import annotations

from dataclasses import dataclass
from typing import Dict, List, Optional, Tuple

from evacask.client.asking import session
from evacask.client.blocks import Cut, Plan
from evacask.client.dialogue import Session
from evacask.client.talk import Client
from evacask.model.building import Model
from evacask.model.ground import Ground
from evacask.model.records import Records
from evacask.model.shares import Count


@dataclass(frozen=True)
class Place:
    """What one place adds to a cut: `people`, at the moments at which it counts. It is a way by two names or a node by one.

    Without names these are people who aren't held up, who come in in `rooms`. At the moments `closed` the way lets nobody in.
    """

    names: Tuple[str, ...]
    rooms: Tuple[str, ...]
    people: Count
    moments: Tuple[int, ...]
    closed: Tuple[int, ...]


@dataclass(frozen=True)
class Why(Records):
    """At most `most` of `people` can be out by `period`; `places` add up to `most`. All are out by `cleared`. Moments are in periods."""

    period: int
    most: Count
    people: Count
    cleared: int
    places: Tuple[Place, ...]
    ground: Ground = Ground.PROVED

    def records(self) -> List[Dict[str, object]]:
        """A dict for each place."""
        return [
            {"people": it.people, "names": " ".join(it.names), "rooms": " ".join(it.rooms), "moments": list(it.moments), "closed": list(it.closed)}
            for it in self.places
        ]


def why(client: Client, model: Model, period: Optional[int] = None) -> Why:
    """The cut of a period, or of the one before all are out. `Refused` with 33 if the period is above the horizon."""
    with session(client, model) as talk:
        return why_of(talk, period)


def why_of(talk: Session, period: Optional[int]) -> Why:
    """The same of the building of a session."""
    return why_by(talk.cut(period), talk.plan)


def why_by(cut: Cut, plan: Plan) -> Why:
    """What a cut says of a plan of the same building."""
    return Why(cut.period, cut.people, plan.people, plan.cleared, tuple(places_of(cut)))


def places_of(cut: Cut) -> List[Place]:
    """The items of a cut by place, in the order of their first lines; those who aren't held up are one place."""
    found: Dict[Tuple[str, ...], Place] = {}
    for item in cut.items:
        key = () if item.word == "entry" else item.names
        old = found.get(key, Place(key, (), 0, (), ()))
        rooms = tuple(dict.fromkeys([*old.rooms, *item.names])) if item.word == "entry" else ()
        at = () if item.moment is None else (item.moment,)
        moments, closed = (old.moments + at, old.closed) if item.people else (old.moments, old.closed + at)
        found[key] = Place(key, rooms, old.people + item.people, moments, closed)
    return list(found.values())
