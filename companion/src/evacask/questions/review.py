"""Doubts: what the language allows and what is often a mistake. They are own arithmetic, and whoever made the building knows better."""
from __future__ import annotations

from collections import Counter
from dataclasses import dataclass
from typing import Dict, Iterable, Iterator, List, Optional, Set, Tuple

from evacask.client.asking import session
from evacask.client.talk import Client
from evacask.errors import Shortfall
from evacask.model.building import Arc, Model, Node
from evacask.model.ground import Ground
from evacask.model.records import Records
from evacask.model.shares import Count
from evacask.model.walks import walks

# Above so many people a second a rate may be one for a minute; above so many seconds a travel may be in seconds.
MANY_A_SECOND = 10
LONG_TRAVEL, LONG_SHORTEST_TRAVEL, LATE_ENTRANT = 300, 20, 1800
# A crowd that is out nearly as soon as a single person would be: its people, and the times that clearing is of the longest walk.
CROWD, NEARLY = 30, 1.15


@dataclass(frozen=True, order=True)
class Doubt:
    """A doubt: the number of the line that it is about, and what is doubted."""

    line: int
    what: str


@dataclass(frozen=True)
class Review(Records):
    """All doubts about a building, by line."""

    doubts: Tuple[Doubt, ...]
    ground: Ground = Ground.OWN

    def records(self) -> List[Dict[str, object]]:
        return [{"line": it.line, "doubt": it.what} for it in self.doubts]


def review(client: Client, model: Model) -> Review:
    """The doubts about a building, also about one that can't be cleared."""
    try:
        with session(client, model) as talk:
            return review_of(model, talk.opening.cleared, talk.report("summary").number("uncongested"))
    except Shortfall:
        return review_of(model, None, 0)


def review_of(model: Model, cleared: Optional[int], walk: int) -> Review:
    """The doubts about a building whose clearing moment is known; None if not everybody gets out. `walk` is the longest walk in periods."""
    found = [*node_doubts(model), *arc_doubts(model), *time_doubts(model, cleared), *answer_doubts(model, cleared, walk)]
    return Review(tuple(sorted(found)))


def reached(model: Model, starts: Iterable[str]) -> Set[str]:
    """Some nodes, and those to which people can walk from them."""
    onward: Dict[str, List[str]] = {}
    for arc in model.arcs.values():
        if arc.rate:
            onward.setdefault(arc.tail, []).append(arc.head)
    found, waiting = set(starts), list(starts)
    while waiting:
        new = [it for it in onward.get(waiting.pop(), []) if it not in found]
        found.update(new)
        waiting += new
    return found


def node_doubts(model: Model) -> Iterator[Doubt]:
    """Nodes that nobody can leave or reach, and people in odd places."""
    with_people = {node.name for node in model.rooms if node.start} | {it.name for it in model.entrants}
    safe, met = walks(model), reached(model, with_people)
    heads = {head for _, head in model.arcs}
    for node in model.nodes.values():
        yield from node_doubt(node, node.name in with_people, node.name in safe, node.name in met, node.name in heads)


def node_doubt(node: Node, has_people: bool, is_safe: bool, is_met: bool, is_head: bool) -> Iterator[Doubt]:
    """The doubts about one node."""
    if node.is_exit:
        if not is_head:
            yield Doubt(node.line, f"no arc leads into the exit {node.name}: is one missing?")
        return
    if not is_safe:
        people = ", and people are in it" if has_people else ""
        yield Doubt(node.line, f"no way leads out from {node.name}{people}: is an arc missing, or turned round?")
    elif not is_met:
        yield Doubt(node.line, f"nobody is in {node.name} or ever comes there: is an arc into it missing?")
    if node.kind == "SW" and node.start:
        people = "person starts" if node.start == 1 else "people start"
        yield Doubt(node.line, f"{node.start:,} {people} on the stair {node.name}: do they, at moment 0?")
    if node.kind == "WP" and not has_people:
        yield Doubt(node.line, f"nobody is in the work place {node.name}: is its start forgotten?")


def arc_doubts(model: Model) -> Iterator[Doubt]:
    """Arcs with odd numbers, or that lead to odd places."""
    twins: Dict[Tuple[str, Count, Count], int] = Counter((arc.tail[:2], arc.travel, arc.rate) for arc in model.arcs.values())
    for arc in model.arcs.values():
        yield from number_doubts(model, arc)
        if arc.tail[:2] == arc.head[:2] == "HA" and (arc.head, arc.tail) not in model.arcs:
            yield Doubt(arc.line, f"no arc leads back from {arc.head} to {arc.tail}, so nobody can go that way")
        tail, head = model.nodes[arc.tail].floor, model.nodes[arc.head].floor
        if abs(tail - head) > 1:
            yield Doubt(arc.line, f"this arc joins floors {tail} and {head}: is a name wrong?")
        kind = arc.tail[:2]
        if arc.travel != arc.rate and twins[kind, arc.travel, arc.rate] == 1 and twins[kind, arc.rate, arc.travel] > 1:
            said = f"travel {arc.travel} and rate {arc.rate}: like arcs have them the other way round, as {arc.rate} {arc.travel}"
            yield Doubt(arc.line, said)


def number_doubts(model: Model, arc: Arc) -> Iterator[Doubt]:
    """A rate or a travel of another unit."""
    if not arc.rate:
        yield Doubt(arc.line, "nobody may enter this arc: its rate is 0")
    a_second = arc.rate / model.period
    if a_second > MANY_A_SECOND:
        yield Doubt(arc.line, f"{a_second:.0f} people a second may enter this arc: is its rate one for a period?")
    if model.seconds(arc.travel) > LONG_TRAVEL:
        yield Doubt(arc.line, f"this arc takes {model.seconds(arc.travel)} s: is its travel in periods?")


def time_doubts(model: Model, cleared: Optional[int]) -> Iterator[Doubt]:
    """Windows and entrants whose moments may be seconds, and travels that all may be."""
    for it in model.windows:
        if it.first >= model.horizon:
            yield Doubt(it.line, "the window begins at the horizon or after it: are these moments, and not seconds?")
        elif cleared is not None and it.first >= cleared:
            said = f"the window begins when everybody is out, at moment {cleared}: are these moments, and not seconds?"
            yield Doubt(it.line, said)
    for entrant in model.entrants:
        after = model.seconds(entrant.moment)
        if after > LATE_ENTRANT:
            yield Doubt(entrant.line, f"these people come in {after} s after the start: is this a moment, and not seconds?")
    shortest = min(model.arcs.values(), key=lambda arc: arc.travel, default=None)
    if shortest and model.seconds(shortest.travel) >= LONG_SHORTEST_TRAVEL:
        takes = model.seconds(shortest.travel)
        yield Doubt(shortest.line, f"no arc takes less than {takes} s: are the travels in periods, and not in seconds?")


def answer_doubts(model: Model, cleared: Optional[int], walk: int) -> Iterator[Doubt]:
    """An answer that is near the longest walk, as if nobody had to wait."""
    if cleared and model.is_steady and model.people >= CROWD and cleared <= walk * NEARLY:
        times = f"everybody is out at moment {model.time(cleared)}, and the longest walk alone takes {walk} periods ({model.seconds(walk)} s)"
        yield Doubt(model.end_line, f"{times}: are the rates too great?")
