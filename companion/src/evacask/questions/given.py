"""Tables that users write for questions: costs of widenings, scenarios, intervals and counts. Each fault names table, row and column."""
from __future__ import annotations

from typing import Any, Dict, Iterator, List, Tuple

from evacask.errors import TableError, UnknownName
from evacask.model.building import Model, Way
from evacask.model.cells import Row, rows_of, shown
from evacask.model.crossings import Place, size_of
from evacask.model.shares import Count, in_people, shares_in
from evacask.model.variant import MOST_PEOPLE, MOST_RATE, MOST_TRAVEL
from evacask.questions.improve import Widening
from evacask.questions.observed import MOST_SECONDS, Counted
from evacask.questions.ranges import Counts, Interval, Ranges
from evacask.questions.sweep import Edits, fault_of

MOST_COST, MOST_OFFERS, MOST_SCENARIOS, MOST_COUNTS = 1_000_000, 5_000, 10_000_000, 10_000
COSTS = ("from", "to", "step", "cost", "most")
SCENARIOS = ("name", "edits")
INTERVALS = ("from", "to", "rate low", "rate high", "travel low", "travel high", "start low", "start high")


def place_at(row: Row, model: Model) -> Place:
    """The arc from `from` to `to`, or the node `from` if `to` is empty."""
    tail, head = row.text("from"), row.text("to")
    try:
        node = model.node(tail)
    except UnknownName as fault:
        raise row.fault("from", str(fault)) from None
    if not head:
        return (node.name,)
    try:
        return model.arc(tail, head).way
    except UnknownName as fault:
        raise row.fault("to", str(fault)) from None


def widenings_of(data: bytes, table: str, model: Model) -> List[Widening]:
    """What can be bought: `step` more rate of an arc, or capacity of a node, for `cost`, up to `most` times."""
    found = []
    for row in rows_of(data, table, COSTS, most=MOST_OFFERS):
        place = place_at(row, model)
        if len(place) == 1 and model.nodes[place[0]].is_exit:
            raise row.fault("from", f"{place[0]} is an exit, which has no capacity")
        limit = MOST_RATE if len(place) == 2 else MOST_PEOPLE
        step, size = row.people("step", 1, limit, model.shares), size_of(model, place)
        if shares_in(size + step, model.shares) > limit:
            raise row.fault("step", f"{size:,} and {step:,} more are above {in_people(limit, model.shares):,}")
        most = MOST_PEOPLE if row.text("most") == "" else row.whole("most", 0, MOST_PEOPLE)
        found.append(Widening(place, step, row.whole("cost", 1, MOST_COST), most))
    return found


def scenarios_of(data: bytes, table: str, model: Model) -> Iterator[Tuple[int, str, Edits]]:
    """The row, the name and the edits of each scenario: a building after some edits, with ; between them."""
    for row in rows_of(data, table, SCENARIOS, most=MOST_SCENARIOS):
        edits = tuple(it.strip() for it in row.text("edits").split(";") if it.strip())
        for edit in edits:
            fault = fault_of(edit, model)
            if fault:
                raise row.fault("edits", fault)
        yield row.number, row.text("name"), edits


def ranges_of(data: bytes, table: str, model: Model) -> Ranges:
    """Intervals of rates and travels of arcs, and of starts of nodes (which have no `to`). An empty cell is the building's own number."""
    rates: Dict[Way, Counts] = {}
    travels: Dict[Way, Interval] = {}
    people: Dict[str, Counts] = {}
    for row in rows_of(data, table, ("from", "to"), INTERVALS[2:], most=MOST_OFFERS):
        place = place_at(row, model)
        if len(place) == 2:
            arc = model.arcs[place[0], place[1]]
            take_interval(row, rates, arc.way, "rate", arc.rate, (0, MOST_RATE), model.shares)
            take_interval(row, travels, arc.way, "travel", arc.travel, (1, MOST_TRAVEL))
            unused(row, "start")
            continue
        if model.nodes[place[0]].is_exit:
            raise row.fault("from", f"{place[0]} is an exit: nobody starts there")
        take_interval(row, people, place[0], "start", model.nodes[place[0]].start or 0, (0, MOST_PEOPLE), model.shares)
        unused(row, "rate")
        unused(row, "travel")
    return Ranges(rates, travels, people)


def take_interval(row: Row, into: Any, key: "Way | str", what: str, now: Count, limits: Interval, shares: int = 1) -> None:
    """Reads an interval, which has to hold the building's own number. Limits are in shares."""
    low_head, high_head = f"{what} low", f"{what} high"
    if not row.text(low_head) and not row.text(high_head):
        return
    low, high = (row.people(head, *limits, shares) if row.text(head) else now for head in (low_head, high_head))
    if low > high:
        raise row.fault(low_head, f"{low} is above {high}: the lower end comes first")
    if not low <= now <= high:
        raise row.fault(low_head if now < low else high_head, f"the {what} is {now} now, and the interval from {low} to {high} has to hold it")
    if key in into:
        raise row.fault(low_head, f"the {what} has an interval in a row above already")
    into[key] = (low, high)


def unused(row: Row, what: str) -> None:
    for head in (f"{what} low", f"{what} high"):
        if row.text(head):
            raise row.fault(head, f"{shown(row.text(head))} is for {'a node' if what == 'start' else 'an arc'}: leave the cell empty")


def counts_of(data: bytes, table: str, model: Model) -> Dict[str, List[Counted]]:
    """The counts of a drill: a column `seconds`, and one for each exit that was counted, in all up to then."""
    exits = [it.name for it in model.exits]
    found: Dict[str, List[Counted]] = {}
    for row in rows_of(data, table, ("seconds",), exits, most=MOST_COUNTS):
        seconds = row.whole("seconds", 0, MOST_SECONDS)
        for name in (it for it in row.cells if it != "seconds"):
            out = row.whole(name, 0, 10 * MOST_PEOPLE)
            before = found.setdefault(name, [])
            if before and seconds <= before[-1][0]:
                raise row.fault("seconds", f"{seconds} comes after {before[-1][0]}: seconds rise")
            if before and out < before[-1][1]:
                raise row.fault(name, f"{out} comes after {before[-1][1]}: counts are in all up to then, and never fall")
            before.append((seconds, out))
    if not found:
        raise TableError(table, 1, "", f"no exit was counted: beside seconds there is a column for each exit: {', '.join(exits)}")
    return found
