"""One way for each room, for wardens and signs: who goes where, certified by the program, and how near that is to the best.

The plan comes from a search of this package. The program's check then says that it keeps all rates and capacities and has all out by the stated
moment. How much better a plan with one way for each room could be is bounded by cuts.
"""
from __future__ import annotations

from dataclasses import dataclass, replace
from typing import Dict, List, Mapping, Tuple

from evacask.client.asking import check, session
from evacask.client.blocks import Move
from evacask.client.routes import routes_of
from evacask.client.talk import Client
from evacask.errors import Broken, NoAnswer, WordsError
from evacask.model.building import Model
from evacask.model.ground import Ground
from evacask.model.shares import Count, in_people
from evacask.model.variant import in_units, whole
from evacask.questions.assign_bound import lower_bound
from evacask.questions.assign_search import Found, Search, nearest_ways
from evacask.questions.assign_times import NEVER, Group, moves_of
from evacask.questions.assign_ways import Path, choices_of

# Work of the search at effort 1: about half a second.
WORK = 400_000
RATES_AND_CAPACITIES, NOT_BEST = (53, 54), 57


@dataclass(frozen=True)
class RoomWay:
    """The way of all people of a room, by its nodes, to `exit`. The last of them is out at the moment `last_out`."""

    room: str
    people: Count
    exit: str
    last_out: int
    nodes: Tuple[str, ...]


@dataclass(frozen=True)
class Assignment:
    """With these ways all are out by `cleared`; by the best plan, which may part the people of a room, by `best`.

    No plan that sends each room to one exit has all out before `bound`. `block` is the plan, which the program's check took. `tries` counts what
    the search planned.
    """

    cleared: int
    best: int
    bound: int
    rooms: Tuple[RoomWay, ...]
    moves: Tuple[Move, ...]
    block: bytes
    tries: int
    ground: Ground = Ground.PROVED

    def records(self) -> List[Dict[str, object]]:
        return [{"room": it.room, "people": it.people, "exit": it.exit, "last_out": it.last_out, "way": list(it.nodes)} for it in self.rooms]


def assign(client: Client, model: Model, effort: int = 1, nearest: bool = False) -> Assignment:
    """A way for each room. `effort` 1 to 1,000 is how long it is looked for; with `nearest` each room goes the shortest way, and nothing is looked for.

    `Shortfall` if not all can be out by the horizon, `NoAnswer` if no plan by one way for each room was found that the program's check takes.
    """
    if not 1 <= effort <= 1000:
        raise WordsError(f"the effort {effort} isn't from 1 to 1,000")
    units = in_units(model)
    with session(client, units) as talk:
        best, routes = talk.opening.cleared, routes_of(talk.report("routes"))
    choices = choices_of(units, routes)
    lost = [room for room, paths in choices.items() if not paths]
    if lost:
        raise NoAnswer(f"no way leads out from {lost[0]}")
    search = Search(units, choices, best, WORK * effort)
    found = search.timed(nearest_ways(units, choices)) if nearest else search.run()
    if found.times.cleared > model.horizon:
        raise NoAnswer(no_plan(model, found))
    moves = moves_of(units, found.ways, found.times)
    block = certified(client, units, moves, found.times.cleared)
    bound = best if nearest else lower_bound(client, units, best, found.times.cleared)
    in_moves = tuple(replace(it, people=in_people(whole(it.people), model.shares)) for it in moves)
    return Assignment(found.times.cleared, best, bound, rooms_of(units, found, model.shares), in_moves, block, search.tries)


def no_plan(model: Model, found: Found) -> str:
    ending = "" if found.times.cleared == NEVER else f": the last are out by {model.time(found.times.cleared)}"
    return f"by one way for each room not everybody is out by the horizon, {model.time(model.horizon)}{ending}"


def certified(client: Client, model: Model, moves: List[Move], cleared: int) -> bytes:
    """The block of a plan, after the program's check has said that it is feasible: it looks at whether a plan is best only after all else."""
    block = block_of(model, moves, cleared)
    verdict = check(client, model, block)
    if verdict.code in RATES_AND_CAPACITIES:
        raise NoAnswer(f"no plan was found that keeps rates and capacities: the program's check says no {verdict.code} {' '.join(verdict.place)}")
    if verdict.code not in (None, NOT_BEST):
        raise Broken(f"the program's check says no {verdict.code} of a plan that has all out")
    return block


def block_of(model: Model, moves: List[Move], cleared: int) -> bytes:
    """A plan as an answer block, with labels that claim nothing."""
    arrived: Dict[int, int] = {}
    for it in moves:
        if model.nodes[it.head].is_exit:
            moment = it.moment + model.arcs[it.tail, it.head].travel
            arrived[moment] = arrived.get(moment, 0) + whole(it.people)
    out, lines = 0, ["answer 0", f"people {model.people}", f"cleared {cleared}"]
    for moment in range(cleared + 1):
        out += arrived.get(moment, 0)
        lines.append(f"out {moment} {out}")
    lines += [f"label {it.name} 0 0" for it in model.rooms if cleared]
    lines += [f"move {it.moment} {it.tail} {it.head} {it.people}" for it in moves]
    return "\n".join([*lines, "end", ""]).encode("ascii")


def rooms_of(model: Model, found: Found, shares: int) -> Tuple[RoomWay, ...]:
    """The ways of the rooms, in the order of the model, whose units are so many shares of a person."""
    last, people = last_out(model, found.ways, found.times.departures)
    rooms = (it.name for it in model.rooms if it.name in found.ways)
    nodes = {room: (room, *(way[1] for way in path)) for room, path in found.ways.items()}
    return tuple(RoomWay(room, in_people(people[room], shares), nodes[room][-1], last[room], nodes[room]) for room in rooms)


def last_out(model: Model, ways: Mapping[str, Path], departures: Mapping[Group, List[Tuple[int, int]]]) -> Tuple[Dict[str, int], Dict[str, int]]:
    """Of each room the moment at which its last is out, and how many people it has in all."""
    last: Dict[str, int] = {}
    people: Dict[str, int] = {}
    for (room, _, count), left in departures.items():
        walk = sum(model.arcs[way].travel for way in ways[room])
        last[room] = max(last.get(room, 0), left[-1][0] + walk)
        people[room] = people.get(room, 0) + count
    return last, people
