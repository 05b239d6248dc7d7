"""Who is where when, and who goes which way: the moves and routes of the printed plan, added up."""
from __future__ import annotations

from dataclasses import dataclass
from typing import Any, Callable, Dict, Iterable, List, Sequence, Tuple

from evacask.client.asking import session
from evacask.client.blocks import Plan
from evacask.client.reports import Report
from evacask.client.talk import Client
from evacask.errors import WordsError
from evacask.model.building import Model
from evacask.model.ground import Ground
from evacask.model.shares import Count
from evacask.model.walks import walks
from evacask.questions.full import full
from evacask.questions.occupancy import Occupancy, occupancy
from evacask.questions.room_ways import ways_of

Row = Tuple[Any, ...]


@dataclass(frozen=True)
class Table:
    """A table: its kind, the heads of its columns, and its rows. `grounds` has the ground of each column that isn't that of the table."""

    kind: str
    heads: Tuple[str, ...]
    rows: Tuple[Row, ...]
    ground: Ground = Ground.PRINTED
    grounds: Tuple[Tuple[str, Ground], ...] = ()

    def records(self) -> List[Dict[str, object]]:
        """A dict for each row."""
        return [dict(zip(self.heads, row)) for row in self.rows]


def over_time(of: Occupancy, heads: Sequence[str], rows: Iterable[Sequence[Count]]) -> Tuple[Tuple[str, ...], List[Row]]:
    """A row for each moment up to that when all are out. Its seconds are those from which on the moment is."""
    found: List[Row] = [(moment, of.model.seconds(moment), *row) for moment, row in enumerate(rows)]
    return ("moment", "seconds", *heads), found


def exits(of: Occupancy) -> Table:
    """How many are out at each moment, in all and by each exit."""
    names = [node.name for node in of.model.exits]
    heads, rows = over_time(of, ["out", *names], ([sum(row), *row] for row in of.by_moment(names)))
    return Table("exits", heads, tuple(rows), grounds=(("out", Ground.PROVED),))


def nodes(of: Occupancy) -> Table:
    """How many are in each node at each moment, and stay there."""
    names = [node.name for node in of.model.rooms]
    heads, rows = over_time(of, names, of.by_moment(names))
    return Table("nodes", heads, tuple(rows))


def arcs(of: Occupancy) -> Table:
    """How many enter each arc at each moment."""
    rows = ([entered.get(moment, 0) for entered in of.entered.values()] for moment in range(of.cleared + 1))
    heads, made = over_time(of, [f"{tail} {head}" for tail, head in of.entered], rows)
    return Table("arcs", heads, tuple(made))


def totals(of: Occupancy) -> Table:
    """Of each arc: its rate, how many enter it in all, the most at a moment, and the first and last moment."""
    rows = []
    for way, entered in of.entered.items():
        when: Row = (sum(entered.values()), max(entered.values()), min(entered), max(entered)) if entered else (0, 0, "", "")
        rows.append((*way, of.model.named(*way), of.model.arcs[way].rate, *when))
    return Table("totals", ("from", "to", "names", "rate", "people", "most", "first", "last"), tuple(rows))


def fullest(of: Occupancy) -> Table:
    """Of each node: its capacity, the most people who stay in it at a moment, and the first such moment."""
    rooms, rows = of.model.rooms, []
    counts = list(of.by_moment([node.name for node in rooms]))
    for place, node in enumerate(rooms):
        most = max(row[place] for row in counts)
        moment = next(moment for moment, row in enumerate(counts) if row[place] == most)
        rows.append((node.name, node.own_name, node.capacity, most, moment if most else "", of.model.seconds(moment) if most else ""))
    return Table("fullest", ("node", "name", "capacity", "most", "moment", "seconds"), tuple(rows))


def everything(of: Occupancy) -> Table:
    """All in one: at each moment who is out by each exit, who stays in each node, and who enters each arc. Rows of 0 are left out."""
    model, names = of.model, list(of.model.nodes)
    rows: List[Row] = []
    for moment, counts in enumerate(of.by_moment(names)):
        head = moment, model.seconds(moment)
        there = [(model.nodes[name], people) for name, people in zip(names, counts) if people]
        rows += [(*head, "exit" if node.is_exit else "node", node.name, "", node.own_name, people) for node, people in there]
        entered = [(way, people[moment]) for way, people in of.entered.items() if people.get(moment)]
        rows += [(*head, "arc", *way, model.named(*way), people) for way, people in entered]
    return Table("all", ("moment", "seconds", "kind", "from", "to", "name", "people"), tuple(rows))


def full_table(model: Model, plan: Plan) -> Table:
    """The moments at which every best plan fills an arc or a node."""
    rows: List[Row] = []
    for it in full(model, plan).places:
        kind, names = ("arc", it.names) if len(it.names) == 2 else ("node", (*it.names, ""))
        rows += [(moment, model.seconds(moment), kind, *names, model.named(*it.names), it.people) for moment in it.moments]
    rows.sort(key=lambda row: int(row[0]))
    return Table("full", ("moment", "seconds", "kind", "from", "to", "name", "people"), tuple(rows), Ground.CUTS)


def walk_table(model: Model) -> Table:
    """The quickest way out of each node with nobody in the way: own arithmetic, which each row says."""
    found, rows = walks(model), []
    for node in model.rooms:
        walk = found.get(node.name)
        numbers: Row = (walk.periods, model.seconds(walk.periods), walk.first.head if walk.first else "") if walk else ("none", "", "")
        rows.append((node.name, node.own_name, node.start, *numbers, "evacask's own arithmetic, not proved"))
    return Table("walks", ("node", "name", "start", "periods", "seconds", "next", "source"), tuple(rows), Ground.OWN)


def route_table(model: Model, report: Report) -> Table:
    """Of each room and each way out of it that somebody goes: how many do, by which exit, and when the first and the last set out."""
    ways = [(model.nodes[it.nodes[0]], it) for it in ways_of(model, report)]
    rows = ((room.name, room.own_name, it.people, it.nodes[-1], it.first, it.last, " ".join(it.nodes)) for room, it in ways)
    return Table("routes", ("from", "name", "people", "exit", "first", "last", "way"), tuple(rows))


OF_PLANS: Dict[str, Callable[[Occupancy], Table]] = {
    "exits": exits,
    "nodes": nodes,
    "arcs": arcs,
    "totals": totals,
    "fullest": fullest,
    "all": everything,
}
KINDS = ("exits", "nodes", "arcs", "routes", "totals", "fullest", "full", "all", "walks")


def tables(client: Client, model: Model, kind: str) -> Table:
    """One table of the building's plan; `Shortfall` if it can't be cleared, but for `walks`, which needs no plan."""
    if kind not in KINDS:
        raise WordsError(f"there is no table {kind}: there are {', '.join(KINDS)}")
    if kind == "walks":
        return walk_table(model)
    with session(client, model) as talk:
        if kind == "routes":
            return route_table(model, talk.report("routes"))
        return full_table(model, talk.opening) if kind == "full" else OF_PLANS[kind](occupancy(model, talk.opening))
