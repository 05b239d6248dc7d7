"""Variants of a building: the same statements with other numbers, as a model of its own with its text.

What a question asks about is often a building that nobody wrote: a wider door, a fuller room, one exit more. `varied` makes it, and the program
reads its text like any other. Comments are left out, but for own names and the mark of shares.

Questions that reckon with whole numbers ask about `in_units(model)`, in which each share counts as one, and turn their answers back into people.
"""
from __future__ import annotations

from dataclasses import replace
from typing import Dict, Iterable, Iterator, Mapping, Optional, Sequence

from evacask.model.building import Arc, Entrant, Model, Node, Way, Window
from evacask.model.lines import NAME_MARK
from evacask.model.shares import MARK, Count, in_people, shares_in

MOST_RATE, MOST_PEOPLE, MOST_HORIZON, MOST_TRAVEL = 10_000, 100_000, 1_200, 600


def varied(
    model: Model,
    *,
    horizon: Optional[int] = None,
    nodes: Optional[Mapping[str, Node]] = None,
    arcs: Optional[Mapping[Way, Arc]] = None,
    windows: Optional[Sequence[Window]] = None,
    entrants: Optional[Sequence[Entrant]] = None,
) -> Model:
    """A building with these nodes and arcs in place of those of the same names, or added; and with these windows, entrants and horizon (periods)."""
    changed = replace(
        model,
        horizon=model.horizon if horizon is None else horizon,
        nodes={**model.nodes, **(nodes or {})},
        arcs={**model.arcs, **(arcs or {})},
        windows=model.windows if windows is None else tuple(windows),
        entrants=model.entrants if entrants is None else tuple(entrants),
    )
    lines = [*statements(changed), "end"]
    return replace(changed, text="\n".join([*lines, ""]), end_line=len(lines))


def in_units(model: Model) -> Model:
    """The same numbers for the program, each share counted as one: all of them are whole. A building in whole people is itself."""
    return counted_in(model, 1)


def counted_in(model: Model, shares: int) -> Model:
    """The same numbers for the program, read as so many shares of a person each."""
    if shares == model.shares:
        return model

    def count(people: Count) -> Count:
        return in_people(shares_in(people, model.shares), shares)

    def node(it: Node) -> Node:
        return it if it.capacity is None or it.start is None else replace(it, capacity=count(it.capacity), start=count(it.start))

    return varied(
        replace(model, shares=shares),
        nodes={name: node(it) for name, it in model.nodes.items()},
        arcs={way: replace(it, rate=count(it.rate)) for way, it in model.arcs.items()},
        entrants=[replace(it, people=count(it.people)) for it in model.entrants],
    )


def whole(count: Optional[Count]) -> int:
    """A count of a building in whole people or in units as a number, and None, of an exit, as 0."""
    return int(count or 0)


def statements(model: Model) -> Iterator[str]:
    """The lines of a model before `end`, in version 2, with counts in its shares."""

    def count(people: Optional[Count]) -> int:
        return shares_in(people or 0, model.shares)

    yield "evacplan 2"
    if model.shares != 1:
        yield f"{MARK} {model.shares}"
    if model.title:
        yield f"title {model.title}"
    yield f"period {model.period}"
    yield f"horizon {model.horizon}"
    for floor in sorted({*model.floors, *(it.floor for it in model.nodes.values())}):
        yield f"floor {floor} {model.floors.get(floor) or floor}"
    for node in model.nodes.values():
        yield from [f"{NAME_MARK} {node.own_name}"] if node.own_name else []
        yield f"node {node.name}" if node.is_exit else f"node {node.name} {count(node.capacity)} {count(node.start)}"
    for arc in model.arcs.values():
        yield from [f"{NAME_MARK} {arc.own_name}"] if arc.own_name else []
        yield f"arc {arc.tail} {arc.head} {arc.travel} {count(arc.rate)}"
    yield from (f"window {it.way[0]} {it.way[1]} {it.first} {it.until}" for it in model.windows)
    yield from (f"entrant {it.name} {it.moment} {count(it.people)}" for it in model.entrants)


def with_starts(model: Model, starts: Mapping[str, Count], is_widened: bool = True) -> Model:
    """The building with so many people in some rooms at moment 0. A room that is too small for them is made larger if `is_widened` says so."""
    nodes = {}
    for name, start in starts.items():
        node = model.nodes[name]
        capacity = node.capacity or 0
        nodes[name] = replace(node, start=start, capacity=max(capacity, start) if is_widened else capacity)
    return varied(model, nodes=nodes)


def without_exits(model: Model, names: Iterable[str]) -> Model:
    """The building with some exits shut: nobody enters an arc that leads into one."""
    shut = set(names)
    return varied(model, arcs={way: replace(arc, rate=0) for way, arc in model.arcs.items() if arc.head in shut})


def people_of(model: Model) -> Dict[str, Count]:
    """How many people start in each node that is no exit, or come into it later."""
    inside = {node.name: node.start or 0 for node in model.rooms}
    for it in model.entrants:
        inside[it.name] += it.people
    return inside
