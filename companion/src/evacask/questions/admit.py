"""How many people a room, or the whole building, may hold for all to be out in time.

No search is needed. Put more people into a room than can be out, and ask for the most who can: the others can all be among them, since whoever is
saved in a best flow stays saved if more people are added elsewhere. So that number less the others is the answer, and the cut of that run shows that
one more is too many.
"""
from __future__ import annotations

from dataclasses import dataclass, replace
from typing import Dict, List, Optional, Sequence, Tuple

from evacask.client.asking import plan_or_short, solve
from evacask.client.blocks import Plan
from evacask.client.talk import Client
from evacask.errors import NoAnswer, Shortfall, WordsError
from evacask.model.building import Model, Node
from evacask.model.ground import Ground
from evacask.model.shares import Count, in_people, shares_in
from evacask.model.variant import MOST_PEOPLE, in_units, varied, whole, with_starts
from evacask.questions.rescue import rescue


@dataclass(frozen=True)
class RoomAdmission:
    """So many may start in a room (None: not even the others can all be out by `moment`); `now` start there, and it holds `capacity`.

    With one more at most `most` are out by `moment` (None: the limit of the language is reached). `others` are all other people.
    """

    room: str
    moment: int
    people: Optional[int]
    now: Count
    capacity: Count
    others: Count
    most: Optional[Count]
    ground: Ground = Ground.PROVED


@dataclass(frozen=True)
class Share:
    """How many of those who start in a room now, or of its capacity, one best sharing has in it."""

    room: str
    people: Count
    now: Count
    capacity: Count


@dataclass(frozen=True)
class Admission:
    """All rooms together. `thousandths` of the starts, rounded down in each room, are `alike` people, and are out by `moment`; a thousandth more aren't.

    Shared out as is best, at most `shared` of the `room` places in rooms can be filled, and `shares` is one such sharing.
    """

    moment: int
    now: Count
    thousandths: int
    alike: Count
    shared: Count
    room: Count
    shares: Tuple[Share, ...]
    ground: Ground = Ground.PROVED

    def records(self) -> List[Dict[str, object]]:
        return [{"room": it.room, "people": it.people, "now": it.now, "capacity": it.capacity} for it in self.shares]


def admit_room(client: Client, model: Model, room: str, moment: int) -> RoomAdmission:
    """The most people who may start in a room, with the others as they are, for all to be out by a moment (a period up to the horizon)."""
    node = model.node(room)
    if node.capacity is None or node.start is None:
        raise WordsError(f"{node.name} is an exit: nobody starts there")
    check_moment(model, moment)
    others, units, shares = model.people - node.start, in_units(model), model.shares
    left = MOST_PEOPLE - shares_in(others, shares)
    answer = RoomAdmission(node.name, moment, None, node.start, node.capacity, others, None)
    alone = plan_or_short(client, with_room(units, node.name, 0), moment)
    if isinstance(alone, Shortfall):
        return replace(answer, most=in_people(whole(alone.most), shares))
    crowd = plan_or_short(client, with_room(units, node.name, left), moment)
    if isinstance(crowd, Plan):
        return replace(answer, people=left // shares)
    people = (whole(crowd.most) - shares_in(others, shares)) // shares
    solve(client, with_room(units, node.name, people * shares), moment)  # (the plan that shows that so many are out)
    return replace(answer, people=people, most=in_people(whole(crowd.most), shares))


def with_room(model: Model, room: str, start: int) -> Model:
    """The building in units with so many people in a room that holds everybody, as its capacity would change with the question otherwise."""
    return varied(model, nodes={room: replace(model.nodes[room], start=start, capacity=MOST_PEOPLE)})


def check_moment(model: Model, moment: int) -> None:
    """`WordsError` if somebody comes in after the moment, or if it lies behind the horizon: then nothing can be said."""
    last = max((it.moment for it in model.entrants), default=0)
    if not last <= moment <= model.horizon:
        raise WordsError(f"the moment is {moment}, and it has to be from {last}, when the last people come in, to the horizon, {model.horizon}")


def admit(client: Client, model: Model, moment: int) -> Admission:
    """How many people all rooms may hold together: the same share of the starts in each, and as is best."""
    check_moment(model, moment)
    thousandths = greatest_share(client, model, moment)
    rooms = [it for it in model.rooms if it.kind == "WP" or it.start]
    people = shared_out(client, filled(model, rooms, moment), moment)
    shares = tuple(Share(it.name, people.get(it.name, 0), it.start or 0, it.capacity or 0) for it in rooms)
    shared, places = sum(it.people for it in shares), sum(it.capacity for it in shares)
    return Admission(moment, model.people, thousandths, scaled(model, thousandths).people, shared, places, shares)


def shared_out(client: Client, full: Model, moment: int) -> Dict[str, Count]:
    """Of those who fill the rooms the most who can be out by a moment, besides all who come in later; by their rooms."""
    saved = rescue(client, full, moment).groups
    if any(it.staying for it in saved if it.moment):
        return shared_one_by_one(client, full, moment)
    return {it.room: it.saved for it in saved if not it.moment}


def shared_one_by_one(client: Client, full: Model, moment: int) -> Dict[str, Count]:
    """The same, if a best plan has some of those who come in later stay: one room after the other takes as many as can be out besides all others.

    In whatever order, that is the most in all: whoever is saved in a best flow stays saved if more people are added elsewhere.
    """
    starts = {it.name: it.start for it in full.rooms if it.start}
    now = with_starts(full, dict.fromkeys(starts, 0))
    for room, start in starts.items():
        more = with_starts(now, {room: start})
        answer = plan_or_short(client, more, moment)
        now = more if isinstance(answer, Plan) else with_starts(now, {room: answer.most - now.people})
    return {room: now.nodes[room].start or 0 for room in starts}


def filled(model: Model, rooms: Sequence[Node], moment: int) -> Model:
    """The building with all in each room whom it holds and who can set out in time for the moment: of more people none is out by then either."""
    leaving: Dict[str, Count] = {it.name: 0 for it in rooms}
    for arc in model.arcs.values():
        if arc.tail in leaving:
            leaving[arc.tail] += arc.rate * max(0, moment - arc.travel + 1)
    full = with_starts(model, {it.name: min(it.capacity or 0, leaving[it.name]) for it in rooms})
    limit = in_people(MOST_PEOPLE, model.shares)
    if full.people > limit:
        raise NoAnswer(
            f"{full.people:,} people fit into the rooms and can set out in time, and at most {limit:,} are planned: ask about one by --room"
        )
    return full


def scaled(model: Model, thousandths: int) -> Model:
    """The building with its starts at so many thousandths, rounded down to whole people in each room."""
    return with_starts(model, {it.name: it.start * thousandths // 1000 for it in model.rooms if it.start})


def greatest_share(client: Client, model: Model, moment: int) -> int:
    """The greatest number of thousandths with which all are out by a moment. Each plan or cut decides a half, as more people are never out sooner."""

    def fits(thousandths: int) -> bool:
        more = scaled(model, thousandths)
        return shares_in(more.people, model.shares) <= MOST_PEOPLE and isinstance(plan_or_short(client, more, moment), Plan)

    if not any(it.start for it in model.rooms):
        raise NoAnswer("nobody starts in this building, so there is no share of them")
    if not fits(0):
        raise NoAnswer(f"even if nobody starts inside, those who come in later aren't all out by {model.time(moment)}")
    low, high = 0, 1000
    while fits(high) and high < 1000 * MOST_PEOPLE:
        low, high = high, 2 * high
    while high - low > 1:
        middle = (low + high) // 2
        low, high = (middle, high) if fits(middle) else (low, middle)
    return low
