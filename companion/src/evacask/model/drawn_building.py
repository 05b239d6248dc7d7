"""A building with its ways in metres, and the text of a building that the program reads: for a period, in shares of a person, rounded to a side."""
from __future__ import annotations

import math
from dataclasses import dataclass
from typing import Callable, Dict, List, Optional, Sequence, Tuple

from evacask.model.drawn import DrawnWay, PlanFault, Rounding, Wrong, arc_numbers, drawn_way
from evacask.model.draft import MOST_PEOPLE
from evacask.model.lines import fields_of, is_number, lines_of
from evacask.model.shares import MARK, MOST

LONGEST_PERIOD, LONGEST_HORIZON = 600, 1_200
# The greatest part of a drawn rate that shares which were chosen by themselves may lose.
GREATEST_LOSS = 0.005


@dataclass(frozen=True)
class DrawnBuilding:
    """The lines of a plan in metres. `period` is its own, in seconds."""

    name: str
    lines: Tuple[str, ...]
    period: int
    ways: Tuple[DrawnWay, ...]

    @property
    def people(self) -> int:
        """All people of its nodes and entrants, as far as they are numbers."""
        return sum(people_in(fields_of(line)) for line in self.lines)

    @property
    def has_windows(self) -> bool:
        return any(fields_of(line)[:1] == ["window"] for line in self.lines)


def people_in(fields: Sequence[str]) -> int:
    """The people of a node's or an entrant's line; 0 of another line, or if they aren't a number."""
    return int(fields[3]) if len(fields) == 4 and fields[0] in ("node", "entrant") and is_number(fields[3]) else 0


@dataclass(frozen=True)
class Scale:
    """How a plan becomes a building: periods of so many seconds, shares of a person, and the side to which numbers are rounded."""

    period: int
    shares: int = 1
    rounding: Rounding = Rounding.LATER


def drawn_building(name: str, text: str) -> DrawnBuilding:
    """The plan of a text; `PlanFault` names the line of the first fault."""
    lines, ways = lines_of(text), []
    for number, line in enumerate(lines, 1):
        fields = fields_of(line)
        if fields[:1] == ["way"]:
            try:
                ways.append(drawn_way(fields, number))
            except Wrong as wrong:
                raise PlanFault(name, number, str(wrong)) from None
    return DrawnBuilding(name, tuple(lines), period_of(name, lines), tuple(ways))


def has_ways(text: str) -> bool:
    """Whether a text is a plan in metres."""
    return any(fields_of(line)[:1] == ["way"] for line in lines_of(text))


def period_of(name: str, lines: Sequence[str]) -> int:
    """The period that a plan gives."""
    found = [(number, it) for number, it in enumerate(map(fields_of, lines), 1) if it[:1] == ["period"]]
    for number, fields in found[:1]:
        if len(fields) == 2 and is_number(fields[1]) and 1 <= int(fields[1]) <= LONGEST_PERIOD:
            return int(fields[1])
        raise PlanFault(name, number, f"after `period` come 1 to {LONGEST_PERIOD} seconds")
    raise PlanFault(name, len(lines), "the plan has no line `period SECONDS`")


def building_text(drawn: DrawnBuilding, scale: Scale) -> str:
    """The building: each way is an arc, and each other line is kept but for what the period and the shares change."""
    ways, made, people = {it.line: it for it in drawn.ways}, [], 0
    for number, line in enumerate(drawn.lines, 1):
        fields = fields_of(line)
        people += people_in(fields)
        try:
            check_people(people, scale.shares)
            made.append(arc_line(ways[number], scale) if number in ways else other_line(drawn, fields, line, scale))
        except Wrong as wrong:
            raise PlanFault(drawn.name, number, str(wrong)) from None
        if fields[:1] == ["end"] and scale.shares > 1:
            made.insert(-1, f"{MARK} {scale.shares}")
    return "".join(f"{line}\n" for line in made)


def check_people(people: int, shares: int) -> None:
    """Refuses more shares than the language allows. Too many whole people are the plan's own fault, and the program names it."""
    if shares > 1 and people * shares > MOST_PEOPLE:
        raise Wrong(
            f"up to here there are {people} people, which are {people * shares} in {shares} shares of a person, and the most is {MOST_PEOPLE}"
        )


def arc_line(way: DrawnWay, scale: Scale) -> str:
    return "arc {} {} {} {}".format(*way.way, *arc_numbers(way, scale.period, scale.shares, scale.rounding))


def other_line(drawn: DrawnBuilding, fields: List[str], line: str, scale: Scale) -> str:
    """A line of the building, other than a way."""
    word = fields[0] if fields else ""
    if word == MARK:
        raise Wrong(f"a plan in metres counts whole people, so it has no line {MARK}")
    if word == "arc" and scale != Scale(drawn.period):
        raise Wrong("an arc has no metres, so it can't go over to another period, to shares or to the other side: write it as a way")
    change = CHANGES.get(word)
    return change(drawn.period, fields, scale) or line if change else line


def period_line(given: int, fields: List[str], scale: Scale) -> str:
    return f"period {scale.period}"


def horizon_line(given: int, fields: List[str], scale: Scale) -> str:
    """The horizon, which ends no sooner than that of the plan if the language allows so many periods."""
    if given == scale.period or len(fields) != 2 or not is_number(fields[1]):
        return ""
    return f"horizon {min(LONGEST_HORIZON, math.ceil(int(fields[1]) * given / scale.period))}"


def node_line(given: int, fields: List[str], scale: Scale) -> str:
    """A node with its people in shares. A capacity of 100,000 holds whoever there may be, so it stands for any greater one."""
    if len(fields) != 4 or scale.shares == 1 or not all(map(is_number, fields[2:])):
        return ""
    capacity, start = (int(it) * scale.shares for it in fields[2:])
    return f"node {fields[1]} {min(capacity, MOST_PEOPLE)} {start}"


def window_line(given: int, fields: List[str], scale: Scale) -> str:
    return " ".join([*fields[:3], *(moment(it, given, scale.period) for it in fields[3:5]), *fields[5:]])


def entrant_line(given: int, fields: List[str], scale: Scale) -> str:
    people = [f"{int(it) * scale.shares}" if is_number(it) else it for it in fields[3:4]]
    return " ".join([*fields[:2], *(moment(it, given, scale.period) for it in fields[2:3]), *people, *fields[4:]])


CHANGES: Dict[str, Callable[[int, List[str], Scale], str]] = {
    "period": period_line,
    "horizon": horizon_line,
    "node": node_line,
    "window": window_line,
    "entrant": entrant_line,
}


def moment(word: str, given: int, wanted: int) -> str:
    """A moment of the plan as one of the other period, which must be a whole one."""
    if not is_number(word):
        raise Wrong(f"{word} is no number")
    seconds = int(word) * given
    if seconds % wanted:
        raise Wrong(f"moment {word} is {seconds} s, which is no whole number of periods of {wanted} s")
    return f"{seconds // wanted}"


@dataclass(frozen=True)
class Shares:
    """How many shares of a person a building counts in, and the greatest part of a drawn rate that rounding down loses."""

    number: int
    loss: float


def shares_for(drawn: DrawnBuilding, period: int, number: int) -> Shares:
    """So many shares, and what they lose."""
    return Shares(number, max((way.loss(period, number) for way in drawn.ways), default=0.0))


def best_shares(drawn: DrawnBuilding, period: int) -> Shares:
    """The least number of shares that loses at most half a percent of each rate, of those that keep the limits; else the one that loses least."""
    fitting = [it for it in range(1, MOST + 1) if fits(drawn, period, it)] or [1]
    found = [shares_for(drawn, period, it) for it in fitting]
    return next((it for it in found if it.loss <= GREATEST_LOSS), min(found, key=lambda it: (it.loss, it.number)))


def fits(drawn: DrawnBuilding, period: int, shares: int) -> bool:
    """Whether a building in so many shares keeps the limits of people and rates."""
    try:
        for way in drawn.ways:
            arc_numbers(way, period, shares, Rounding.EARLIER)
    except Wrong:
        return False
    return drawn.people * shares <= MOST_PEOPLE


def too_short(drawn: DrawnBuilding, period: int) -> Optional[DrawnWay]:
    """The first way that takes less than a period: no travel is short enough for it."""
    return next((it for it in drawn.ways if round(it.seconds / period, 9) < 1), None)


def in_periods(drawn: DrawnBuilding) -> str:
    """The building of a plan for its own period, in as few shares of a person as lose little."""
    return building_text(drawn, Scale(drawn.period, best_shares(drawn, drawn.period).number))
