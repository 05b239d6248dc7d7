"""Where the nodes of a building are drawn: storeys as rows, the highest on top, alike ones folded. A function of the building alone."""
from __future__ import annotations

from dataclasses import dataclass
from typing import Dict, List, Mapping, Sequence, Tuple

from evacask.model.building import Model, Node
from evacask.model.lines import fields_of, is_number, lines_of

# A comment `#@ x y` right above a node, or above its name, places it within its storey: any whole numbers, from the left.
PLACE_MARK = "#@"
MOST_IN_LINE, MOST_STOREYS, SWEEPS = 9, 5, 8
# Storeys of the same form but other numbers are folded too if more rows than this are left.
MANY_ROWS = 8
WIDTH, LEFT, RIGHT = 800, 110, 20
ROOMS_HEIGHT, HALLS_HEIGHT, FOLD_HEIGHT = 66, 92, 34
# What a figure has below the middle of its last line: half of a box, and the bows of ways between nodes of that line.
BELOW = 48


@dataclass(frozen=True)
class StoreyRow:
    """A storey that is drawn, and the numbers of those like it that are left out below it; `same` if their people and rates are like its own too."""

    number: int
    folded: Tuple[int, ...] = ()
    same: bool = True


@dataclass(frozen=True)
class Figure:
    """A picture of some storeys: the middle of each node, the height of the first line of each storey, and where folded storeys are told."""

    places: Mapping[str, Tuple[float, float]]
    storeys: Mapping[int, float]
    folds: Tuple[Tuple[float, StoreyRow], ...]
    height: float


def figures_of(model: Model) -> List[Figure]:
    """The building in as many pictures as are needed for each to fit a page."""
    rows = rows_of(model)
    at = positions(model, [it.number for it in rows])
    return [figure(model, rows[first : first + MOST_STOREYS], at) for first in range(0, len(rows), MOST_STOREYS)]


def rows_of(model: Model) -> List[StoreyRow]:
    """The storeys from the top, those that are alike folded."""
    rows = folded(model, True)
    return rows if len(rows) <= MANY_ROWS else folded(model, False)


def folded(model: Model, same: bool) -> List[StoreyRow]:
    """The storeys from the top. Of four or more alike in a row the first and the last are drawn."""
    found: List[StoreyRow] = []
    for group in alike(model, same):
        if len(group) > 3:
            found += [StoreyRow(group[0], tuple(group[1:-1]), same), StoreyRow(group[-1])]
        else:
            found += [StoreyRow(it) for it in group]
    return found


def alike(model: Model, same: bool) -> List[List[int]]:
    """The storeys from the top, those of the same form that follow one another together."""
    groups: List[List[int]] = []
    forms: Dict[int, object] = {}
    for floor in sorted({it.floor for it in model.nodes.values()}, reverse=True):
        forms[floor] = form(model, floor, same)
        if groups and forms[groups[-1][-1]] == forms[floor]:
            groups[-1].append(floor)
        else:
            groups.append([floor])
    return groups


def form(model: Model, floor: int, same: bool) -> object:
    """What a storey is like, whatever its number: its nodes and the ways out of them relative to it, with their numbers if these must be the same."""
    nodes = [it for it in model.nodes.values() if it.floor == floor]
    arcs = [it for it in model.arcs.values() if model.nodes[it.tail].floor == floor]
    ways = ((it, it.tail.partition(".")[0], it.head.partition(".")[0], model.nodes[it.head].floor - floor) for it in arcs)
    return (
        [(it.name.partition(".")[0], *((it.capacity, it.start) if same else ())) for it in nodes],
        sorted((tail, head, down, *((it.travel, it.rate) if same else ())) for it, tail, head, down in ways),
    )


def lines_on(model: Model, floor: int) -> List[List[str]]:
    """The lines of a storey: rooms above, and below them the halls, stairs, lobbies and exits through which people go on."""
    nodes = [it for it in model.nodes.values() if it.floor == floor]
    parts = [[it.name for it in nodes if is_room(it)], [it.name for it in nodes if not is_room(it)]]
    return [part[at : at + MOST_IN_LINE] for part in parts for at in range(0, len(part), MOST_IN_LINE)]


def is_room(node: Node) -> bool:
    return node.kind == "WP"


def positions(model: Model, floors: Sequence[int]) -> Dict[str, float]:
    """How far each node is from the left, from 0 to 1: in the order of the file, then moved so that ways cross less."""
    lines = [line for floor in floors for line in lines_on(model, floor)]
    at = {name: (place + 0.5) / len(line) for line in lines for place, name in enumerate(line)}
    given = {name: x for line in lines for name, x in placed(model, line).items()}
    beside: Dict[str, List[str]] = {name: [] for name in at}
    for tail, head in model.arcs:
        if tail in at and head in at:
            beside[tail].append(head)
            beside[head].append(tail)
    for sweep in range(SWEEPS):
        for line in lines if sweep % 2 else lines[::-1]:
            means = {name: sum(at[it] for it in beside[name] or [name]) / len(beside[name] or [name]) for name in line}
            for place, name in enumerate(sorted(line, key=lambda it: (means[it], at[it]))):
                at[name] = (place + 0.5) / len(line)
    return {**at, **given}


def placed(model: Model, line: Sequence[str]) -> Dict[str, float]:
    """The places that comments give to all nodes of a line, spread over its width; none if a node has no such comment."""
    text = lines_of(model.text)
    found = {name: x_of_mark(text, model.nodes[name].line - 1) for name in line}
    marks = [it for it in found.values() if it is not None]
    if len(marks) < len(line) or len(set(marks)) < len(line):
        return {}
    order = sorted(line, key=lambda it: found[it] or 0)
    return {name: (at + 0.5) / len(line) for at, name in enumerate(order)}


def x_of_mark(text: Sequence[str], line: int) -> "int | None":
    """The x of a comment `#@ x y` among the comments right above a line."""
    for above in range(line - 1, -1, -1):
        fields = fields_of(text[above])
        if not fields or not fields[0].startswith("#"):
            return None
        if fields[0] == PLACE_MARK and len(fields) == 3 and is_number(fields[1]) and is_number(fields[2]):
            return int(fields[1])
    return None


def figure(model: Model, rows: Sequence[StoreyRow], at: Mapping[str, float]) -> Figure:
    """The picture of some storeys."""
    places: Dict[str, Tuple[float, float]] = {}
    storeys: Dict[int, float] = {}
    folds: List[Tuple[float, StoreyRow]] = []
    y = 34.0
    for row in rows:
        storeys[row.number] = y
        for line in lines_on(model, row.number):
            places.update({name: (LEFT + at[name] * (WIDTH - LEFT - RIGHT), y) for name in line})
            y += ROOMS_HEIGHT if is_room(model.nodes[line[0]]) else HALLS_HEIGHT
        if row.folded:
            folds.append((y - 20, row))
            y += FOLD_HEIGHT
    last = max([*(it[1] + BELOW for it in places.values()), *(it[0] + 14 for it in folds)])
    return Figure(places, storeys, tuple(folds), last)
