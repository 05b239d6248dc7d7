"""Two tables, of nodes and of ways, as a building, and back. A row may stand for several storeys, and each fault names table, row and column."""
from __future__ import annotations

import csv
import io
import re
from dataclasses import dataclass, field
from typing import Any, Dict, Iterable, List, Sequence, Tuple

from evacask.client.asking import accepted
from evacask.client.talk import Client
from evacask.errors import NoAnswer, Refused, WordsError
from evacask.model.building import Model, Way
from evacask.model.cells import Row, rows_of, shown
from evacask.model.lines import NAME_MARK, bytes_of, near
from evacask.model.variant import MOST_PEOPLE, MOST_RATE, MOST_TRAVEL

NODES, NODES_MORE = ("name", "capacity", "start"), ("floors", "own name", "floor text")
WAYS, WAYS_MORE = ("from", "to", "travel", "rate"), ("floors", "both ways", "own name")
MOST_NODES, MOST_WAYS, MOST_FLOOR, MOST_TEXT = 400, 1_600, 999, 150
NAME = re.compile(r"(WP|HA|SW|LO|DS)([1-9][0-9]{0,3})(?:\.([+-]?)([0-9]{1,3}))?")
NO_FLOOR = -1


@dataclass
class Draft:
    """The lines of the building so far, the row of each, the texts of floors, and which row has which node and which way."""

    lines: List[Tuple[str, Row]] = field(default_factory=list)
    floors: Dict[int, str] = field(default_factory=dict)
    nodes: Dict[str, Row] = field(default_factory=dict)
    ways: Dict[Way, Row] = field(default_factory=dict)


@dataclass(frozen=True)
class Table:
    """A table of the user's: its name, for messages, and its bytes."""

    name: str
    data: bytes


def model_of_tables(client: Client, nodes: Table, ways: Table, period: int, horizon: int, title: str = "") -> Model:
    """The building of a table of nodes and a table of ways. `period` in seconds, `horizon` in periods. `TableError` names what is wrong in a row."""
    if not title.isprintable() or len(bytes_of(title)) > MOST_TEXT:
        raise WordsError(f"a title is one line of at most {MOST_TEXT} bytes")
    draft = Draft()
    for row in rows_of(nodes.data, nodes.name, NODES, NODES_MORE):
        add_nodes(draft, row)
    for row in rows_of(ways.data, ways.name, WAYS, WAYS_MORE):
        add_ways(draft, row, nodes.name)
    floors = [f"floor {it} {text or it}" for it, text in sorted(draft.floors.items())]
    head = ["evacplan 1", *([f"title {title}"] if title else []), f"period {period}", f"horizon {horizon}", *floors]
    try:
        return accepted(client, "\n".join([*head, *(line for line, _ in draft.lines), "end", ""]))
    except Refused as fault:
        at = fault.line - len(head) - 1
        if 0 <= at < len(draft.lines):
            raise draft.lines[at][1].fault("", f"{fault.meaning} {fault.remedy}") from None
        raise


def add_nodes(draft: Draft, row: Row) -> None:
    """The nodes of a row: one, or one on each of its floors."""
    for floor in floors_of(row):
        name = name_at(row, "name", floor)
        if name in draft.nodes:
            raise row.fault("name", f"{name} is in row {draft.nodes[name].number} already")
        if len(draft.nodes) == MOST_NODES:
            raise row.fault("name", f"{name} would be node {MOST_NODES + 1}, and a building has at most {MOST_NODES}")
        draft.nodes[name] = row
        add_floor(draft, row, int(name.partition(".")[2]))
        add_own_name(draft, row)
        draft.lines.append((f"node {name}{numbers_of_node(row, name)}", row))


def numbers_of_node(row: Row, name: str) -> str:
    if name.startswith("DS"):
        for column in ("capacity", "start"):
            if row.text(column):
                raise row.fault(column, f"{name} is an exit, which has none: leave the cell empty")
        return ""
    capacity = row.whole("capacity", 0, MOST_PEOPLE)
    start = row.whole("start", 0, MOST_PEOPLE) if row.text("start") else 0
    if start > capacity:
        raise row.fault("start", f"{start} people don't fit into {name}, which holds {capacity}")
    return f" {capacity} {start}"


def add_floor(draft: Draft, row: Row, floor: int) -> None:
    """The floor of a node, with its text if one of its rows has one."""
    text, before = text_at(row, "floor text"), draft.floors.get(floor, "")
    if text and before and text != before:
        raise row.fault("floor text", f"floor {floor} is called {shown(before)} in a row above")
    draft.floors[floor] = text or before


def add_own_name(draft: Draft, row: Row) -> None:
    own = text_at(row, "own name")
    if own:
        draft.lines.append((f"{NAME_MARK} {own}", row))


def text_at(row: Row, column: str) -> str:
    """The text of a cell, as a line of the building has it."""
    text = unguarded(row.text(column))
    if len(bytes_of(text)) > MOST_TEXT:
        raise row.fault(column, f"{shown(text)} has more than {MOST_TEXT} bytes")
    return text


def add_ways(draft: Draft, row: Row, nodes: str) -> None:
    """The ways of a row: one or, if its floors or `both ways` say so, several."""
    numbers = f"{row.whole('travel', 1, MOST_TRAVEL)} {row.whole('rate', 0, MOST_RATE)}"
    both = row.text("both ways").lower()
    if both not in ("", "no", "yes"):
        raise row.fault("both ways", f"{shown(both)} is neither yes nor no")
    for floor in floors_of(row):
        tail, head = (end_of(draft, row, column, floor, nodes) for column in ("from", "to"))
        for way in [(tail, head), (head, tail)][: 2 if both == "yes" else 1]:
            check_way(draft, row, way)
            draft.ways[way] = row
            add_own_name(draft, row)
            draft.lines.append((f"arc {way[0]} {way[1]} {numbers}", row))


def end_of(draft: Draft, row: Row, column: str, floor: int, nodes: str) -> str:
    name = name_at(row, column, floor)
    if name not in draft.nodes:
        raise row.fault(column, f"there is no node {name} in {nodes}{near(name, draft.nodes)}")
    return name


def check_way(draft: Draft, row: Row, way: Way) -> None:
    tail, head = way
    if tail == head:
        raise row.fault("to", f"no way leads from {tail} to itself")
    if tail.startswith("DS"):
        raise row.fault("from", f"no way leads on from {tail}: whoever is in an exit is out")
    if way in draft.ways:
        raise row.fault("to", f"the way from {tail} to {head} is in row {draft.ways[way].number} already: add the rates")
    if len(draft.ways) == MOST_WAYS:
        raise row.fault("from", f"this would be way {MOST_WAYS + 1:,}, and a building has at most {MOST_WAYS:,}")


def floors_of(row: Row) -> Iterable[int]:
    """The floors of a row: 3, or 1-20, or 0 2-4; none is one way with the floors of its names."""
    found: List[int] = []
    for part in row.text("floors").replace(",", " ").split():
        match = re.fullmatch(r"([0-9]{1,3})(?:-([0-9]{1,3}))?", part)
        if not match or match[2] and int(match[2]) < int(match[1]):
            raise row.fault("floors", f"{shown(part)} is no floor: write 3, or 1-20, or both with a blank between")
        found += range(int(match[1]), int(match[2] or match[1]) + 1)
        if len(found) > MOST_FLOOR:
            raise row.fault("floors", f"there are more than {MOST_FLOOR} floors")
    return found or [NO_FLOOR]


def name_at(row: Row, column: str, floor: int) -> str:
    """The name of a cell: WP1.3 as it is, WP1 on the floor of the row, SW1.-1 and SW1.+1 on the one below and the one above."""
    cell = unguarded(row.text(column))
    match = NAME.fullmatch(cell)
    if not match:
        raise row.fault(column, f"{shown(cell)} is no name: it is as WP12.3, and begins with WP, HA, SW, LO or DS")
    if floor == NO_FLOOR and (match[4] is None or match[3]):
        raise row.fault(column, f"{cell} needs a floor: write {match[1]}{match[2]}.1, or fill the column floors")
    at = floor if match[4] is None else int(match[4]) + floor * (match[3] == "+") if match[3] != "-" else floor - int(match[4])
    if not 0 <= at <= MOST_FLOOR:
        raise row.fault(column, f"the floor {at} isn't from 0 to {MOST_FLOOR}")
    return f"{match[1]}{match[2]}.{at}"


def unguarded(cell: str) -> str:
    """A text without the quote that stands before what a spreadsheet would take for a formula."""
    return cell[1:] if cell[:1] == "'" and cell[1:2] in ("=", "+", "-", "@") else cell


def tables_of(model: Model) -> Tuple[str, str]:
    """The two tables of a building, in CSV. `NoAnswer` if it has windows or late-comers, or counts in shares, which have no place in them."""
    if model.shares != 1:
        raise NoAnswer(
            f"the building counts {model.shares} shares of each person, and the two tables have whole people: write it in whole people first"
        )
    lost = [f"{len(it)} {what}" for it, what in ((model.windows, "windows"), (model.entrants, "entrants")) if it]
    if lost:
        raise NoAnswer(f"{' and '.join(lost)} have no place in the two tables")
    texts = {floor: text for floor, text in model.floors.items() if text != str(floor)}
    nodes = [[it.name, it.capacity, it.start, it.own_name, texts.pop(it.floor, "")] for it in model.nodes.values()]
    ways = [[it.tail, it.head, it.travel, it.rate, it.own_name] for it in model.arcs.values()]
    return written([*NODES, "own name", "floor text"], nodes), written([*WAYS, "own name"], ways)


def written(heads: Sequence[str], rows: Iterable[Sequence[Any]]) -> str:
    out = io.StringIO()
    writer = csv.writer(out, lineterminator="\n")
    writer.writerow(heads)
    writer.writerows([guarded(cell) for cell in row] for row in rows)
    return out.getvalue()


def guarded(cell: Any) -> Any:
    """A text that a spreadsheet would take for a formula gets a quote in front; what isn't there is an empty cell."""
    return "" if cell is None else f"'{cell}" if isinstance(cell, str) and cell[:1] in ("=", "+", "-", "@", "\t") else cell
