"""The ways that are tried for each room: those that people go in a best plan, and the shortest to each of the nearest exits."""
from __future__ import annotations

import heapq
from collections import Counter
from typing import Dict, Iterator, List, Sequence, Tuple

from evacask.client.routes import Route
from evacask.model.building import Arc, Model, Way
from evacask.model.variant import whole

Path = Tuple[Way, ...]
PLANNED, SHORTEST, EXITS, TRIES = 3, 2, 8, 3_000


def length(model: Model, path: Path) -> int:
    """The periods of a walk without a stop."""
    return sum(model.arcs[way].travel for way in path)


def rooms_with_people(model: Model) -> List[str]:
    """The rooms in which people start or come in, in the order of the model."""
    entered = {it.name for it in model.entrants}
    return [it.name for it in model.rooms if it.start or it.name in entered]


def choices_of(model: Model, routes: Sequence[Route]) -> Dict[str, List[Path]]:
    """Of each room with people, the ways that are tried: at most 3 of the plan's routes, and 2 to each of the 8 nearest exits."""
    gone: Dict[str, "Counter[Path]"] = {room: Counter() for room in rooms_with_people(model)}
    for route in routes:
        if len(set(route.nodes)) == len(route.nodes):
            gone[route.origin][tuple(way for _, way in route.steps)] += whole(route.people)
    far = {it.name: distances(model, it.name) for it in model.exits}
    found: Dict[str, List[Path]] = {}
    for room, paths in gone.items():
        near = sorted((it for it in far if room in far[it]), key=lambda it: (far[it][room], it))[:EXITS]
        shortest = (path for name in near for path in shortest_paths(model, room, name, far[name]))
        found[room] = [*dict.fromkeys([*(path for path, _ in paths.most_common(PLANNED)), *shortest])]
    return found


def distances(model: Model, name: str) -> Dict[str, int]:
    """The periods of the shortest walk to an exit, from each node that has one over open ways."""
    into: Dict[str, List[Arc]] = {}
    for arc in model.arcs.values():
        if arc.rate:
            into.setdefault(arc.head, []).append(arc)
    found: Dict[str, int] = {}
    waiting = [(0, name)]
    while waiting:
        periods, node = heapq.heappop(waiting)
        if node not in found:
            found[node] = periods
            for arc in into.get(node, []):
                heapq.heappush(waiting, (periods + arc.travel, arc.tail))
    return found


def shortest_paths(model: Model, room: str, name: str, left: Dict[str, int]) -> Iterator[Path]:
    """The shortest ways without a node twice from a room to an exit: best first by what was walked and what is left at least."""
    after: Dict[str, List[Arc]] = {}
    for arc in model.arcs.values():
        if arc.rate and arc.head in left:
            after.setdefault(arc.tail, []).append(arc)
    waiting: List[Tuple[int, int, int, str, Path]] = [(left[room], 0, 0, room, ())]
    tries = found = 0
    while waiting and found < SHORTEST and tries < TRIES:
        _, _, walked, node, path = heapq.heappop(waiting)
        if node == name:
            found += 1
            yield path
            continue
        seen = {room, *(way[1] for way in path)}
        for arc in after.get(node, []):
            if arc.head not in seen:
                tries += 1
                on = walked + arc.travel
                heapq.heappush(waiting, (on + left[arc.head], tries, on, arc.head, (*path, arc.way)))
