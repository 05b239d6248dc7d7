"""The command `sensitivity` and its sheet."""
from __future__ import annotations

import os
from argparse import Namespace
from collections import Counter
from typing import Any, List, Optional, Tuple

from evacask.client.blocks import Outcome
from evacask.faces.asked import Asked, put
from evacask.faces.progress import progress
from evacask.faces.sheet import Column, Sheet
from evacask.faces.wording import some
from evacask.faces.words import BUILDING, SHARED, Command, argument, rate
from evacask.model.draft import MOST_RATE
from evacask.model.building import Model
from evacask.model.shares import in_people
from evacask.questions.sensitivity import Sensitivity, WayOutcome, sensitivity

# Plans that are made at once.
WORKERS = max(1, min(8, os.cpu_count() or 1))
DATA = (
    "from,to,names,without,without_s,without_before_s,without_out,as_it_is,as_it_is_s,as_it_is_before_s,"
    "widened,widened_s,widened_before_s,widened_out"
).split(",")


def columns(answer: Sensitivity, shares: int) -> Tuple[Column, ...]:
    """Those to read, and those for a spreadsheet."""
    heads = ("without", "as it is", "any rate" if answer.rate == in_people(MOST_RATE, shares) else f"rate {answer.rate}")
    read = (*(Column(it, "", is_right=True) for it in heads), Column("way", ""), Column("", ""))
    return (*read, *(Column("", it, is_shown=False) for it in DATA))


class Kinds:
    """The ways of an answer by what text says of them."""

    def __init__(self, answer: Sensitivity, model: Model):
        self.answer = answer
        self.arcs_at = Counter(name for way in model.arcs for name in way)
        self.arcs_into = Counter(head for _, head in model.arcs)

    def is_arc_again(self, way: WayOutcome) -> bool:
        """Whether it is an exit with one arc into it, which is a way of its own."""
        return len(way.names) == 1 and self.arcs_into[way.names[0]] == 1

    def is_room_door(self, way: WayOutcome) -> bool:
        """Whether it is the only way out of a room, into which no arc leads."""
        return len(way.names) == 2 and self.arcs_at[way.names[0]] == 1

    def brings(self, way: WayOutcome) -> bool:
        return way.wide.cleared is not None and way.wide.cleared < self.answer.cleared

    def is_idle(self, way: WayOutcome) -> bool:
        """Whether it changes nothing."""
        return way.without.cleared == way.wide.cleared == self.answer.cleared

    def is_door_alone(self, way: WayOutcome) -> bool:
        """Whether nothing is to be said of it but that the people of its room stay inside without it."""
        return self.is_room_door(way) and way.wide.cleared == self.answer.cleared and not self.is_idle(way)


def sensitivity_sheet(answer: Sensitivity, model: Model) -> Sheet:
    """What costs and brings most, and the table of the ways that change something."""
    kinds = Kinds(answer, model)
    own = [(at, it) for at, it in enumerate(answer.ways) if not kinds.is_arc_again(it)]
    shown = [(at, it) for at, it in own if not kinds.is_idle(it) and not kinds.is_door_alone(it)]
    after = notes(answer, kinds, [it for _, it in own], [it for _, it in shown])
    rows = tuple(row(it, answer, model) for it in answer.ways)
    head = headline([it for _, it in shown], answer, kinds, model)
    return Sheet(answer, (head,), columns(answer, model.shares), rows, tuple(after), tuple(at for at, _ in shown))


def notes(answer: Sensitivity, kinds: Kinds, own: List[WayOutcome], shown: List[WayOutcome]) -> List[str]:
    """What is said below the table: of shortfalls, and of the ways that aren't in it."""
    lines = []
    if any(it.without.cleared is None or it.wide.cleared is None for it in shown):
        lines.append(f"`short` is how many can be out by the horizon at most, where not all {answer.people} can.")
    doors, idle = sum(map(kinds.is_door_alone, own)), sum(map(kinds.is_idle, own))
    if doors:
        lines.append(f"{some(doors, 'more is', 'more are')} the only way out of a room: without it the people of that room stay inside.")
    if idle:
        lines.append(f"{some(idle, 'other way changes', 'other ways change')} nothing, neither lost nor with more rate. --csv prints all.")
    return lines


def headline(shown: List[WayOutcome], answer: Sensitivity, kinds: Kinds, model: Model) -> str:
    """When all are out, what brings most, and what costs most."""
    parts = [f"Everybody is out after {model.span(answer.cleared)}."]
    brings = [it for it in shown if kinds.brings(it)]
    if brings:
        best = min(brings, key=lambda it: it.wide.cleared or 0)
        parts.append(f"More rate helps most at {what(best)}: {cell(best.wide, model)}.")
    costs = [it for it in shown if it.without.cleared != answer.cleared and not kinds.is_room_door(it)]
    if costs:
        without, named = costs[0].without, what(costs[0])
        end = f"{without.most} of {answer.people} get out at most" if without.cleared is None else cell(without, model)
        parts.append(f"{named[0].upper()}{named[1:]} costs most: without it {end}.")
    return " ".join(parts)


def what(way: WayOutcome) -> str:
    return " ".join(way.names) if len(way.names) > 1 else f"exit {way.names[0]}"


def cell(outcome: Outcome, model: Model) -> str:
    return f"short {outcome.most}" if outcome.cleared is None else model.span(outcome.cleared)


def row(way: WayOutcome, answer: Sensitivity, model: Model) -> Tuple[Any, ...]:
    """A way: cells to read, then those for a spreadsheet, where an exit has no `from`."""
    tail, head = way.names if len(way.names) > 1 else ("", way.names[0])
    as_it_is, named = Outcome(answer.cleared, answer.people), model.named(*way.names)
    read = (*(cell(it, model) for it in (way.without, as_it_is, way.wide)), what(way), named)
    times = (times_of(it, model) for it in (way.without.cleared, answer.cleared, way.wide.cleared))
    without, now, wide = times
    return (*read, tail, head, named, *without, way.without.most, *now, *wide, way.wide.most)


def times_of(moment: Optional[int], model: Model) -> Tuple[Any, Any, Any]:
    """A moment, the seconds from which on and before which it is; or three empty cells."""
    return (None, None, None) if moment is None else (moment, *model.ends(moment))


def run(given: Namespace) -> int:
    asked = Asked(given)
    with progress("questions") as tell:
        answer = sensitivity(asked.client, asked.model, given.rate, WORKERS, tell)
    return put(sensitivity_sheet(answer, asked.model), "sensitivity", given, asked.client)


COMMAND = Command(
    "sensitivity",
    run,
    "what does losing a way cost, and what does widening it gain?",
    "For each arc and exit: when everybody is out without it, as it is, and with any rate (10,000; for an exit, on all arcs into it).\n"
    "What the cuts already answer isn't tried. The ways that cost most come first.",
    "examples/office.evac",
    (BUILDING, argument("--rate", type=rate, metavar="N", help="try this rate instead of 10,000"), *SHARED),
)
