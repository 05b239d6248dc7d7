"""A moment before which no plan that sends each room to one exit has all out, whatever its ways are.

Shut all exits but one. The cut of that building at a moment k bounds who can be out there by k: of the rooms inside the cut no more people than its
items are worth. If whole rooms can't be shared out so that this is kept at each exit, k is too soon for every such plan.
"""
from __future__ import annotations

from dataclasses import dataclass
from typing import List, Optional, Set, Tuple

from evacask.client.asking import plan_or_short
from evacask.client.blocks import Plan
from evacask.client.talk import Client
from evacask.model.building import Model
from evacask.model.crossings import crossings
from evacask.model.variant import whole, without_exits

# More exits than these aren't looked at, nor more sharings of the rooms: then the best plan is the bound.
MOST_EXITS, MOST_SHARINGS = 6, 20_000


@dataclass(frozen=True)
class Limit:
    """At most `most` people of these rooms can be out by an exit; `most` None: all can."""

    most: Optional[int]
    rooms: Set[str]


def lower_bound(client: Client, model: Model, best: int, stop: int) -> int:
    """The first moment from `best` on by which whole rooms can be shared out among the exits; `stop` if none before it is."""
    if len(model.exits) > MOST_EXITS:
        return best
    rooms = sorted(((whole(it.start), it.name) for it in model.rooms if it.start), reverse=True)
    for moment in range(best, stop):
        if can_be_shared(rooms, [limit_of(client, model, it.name, moment) for it in model.exits]):
            return moment
    return stop


def limit_of(client: Client, model: Model, name: str, moment: int) -> Limit:
    """Whom an exit takes by a moment if all others are shut."""
    alone = without_exits(model, (it.name for it in model.exits if it.name != name))
    answer = plan_or_short(client, alone, moment)
    if isinstance(answer, Plan):
        return Limit(None, set())
    cut = crossings(alone, answer.cut, moment)
    return Limit(whole(answer.most) - cut.entries, cut.inside)


def can_be_shared(rooms: List[Tuple[int, str]], limits: List[Limit]) -> bool:
    """Whether each room can go to one exit so that no limit is broken, as far as was looked; rooms that some exit doesn't limit always can."""
    sharings = {(0,) * len(limits)}
    for people, room in rooms:
        if any(room not in it.rooms for it in limits):
            continue
        sharings = {more for loads in sharings for more in shared(loads, people, limits)}
        if not sharings or len(sharings) > MOST_SHARINGS:
            return bool(sharings)
    return True


def shared(loads: Tuple[int, ...], people: int, limits: List[Limit]) -> List[Tuple[int, ...]]:
    """The loads of the exits after one room more, which goes to one of them."""
    found = []
    for at, limit in enumerate(limits):
        if limit.most is not None and loads[at] + people <= limit.most:
            found.append((*loads[:at], loads[at] + people, *loads[at + 1 :]))
    return found
