"""A drill that was counted, beside the best that any plan can do: where its time was lost.

The curve of the best plan is proved: no plan has more people out by any period. So each count says how far behind the drill is, and a count above the
curve says that the building as it is written isn't the one in which the drill was held.
"""
from __future__ import annotations

from dataclasses import dataclass
from typing import Dict, List, Mapping, Optional, Sequence, Tuple

from evacask.client.asking import solve
from evacask.client.blocks import Plan
from evacask.client.talk import Client
from evacask.errors import WordsError
from evacask.model.building import Model
from evacask.model.ground import Ground
from evacask.model.shares import Count

# Seconds, and how many had come out of an exit up to then in all.
Counted = Tuple[int, int]
MOST_SECONDS = 10_000_000


@dataclass(frozen=True)
class Moment:
    """At `seconds` after people set out, `out` were out, and by the best plan at most `best`. That plan has as many out from `best_by` seconds on.

    `behind` are the seconds between, and `lost` how many of them were lost since the count before. `best_by` None: no plan has as many out.
    """

    seconds: int
    out: int
    best: Count
    best_by: Optional[int]
    behind: Optional[int]
    lost: Optional[int]

    @property
    def is_beyond(self) -> bool:
        """Whether more were out than by any plan: the building isn't that of the drill."""
        return self.out > self.best


@dataclass(frozen=True)
class Exit:
    """What an exit did: how many came out, when the first were seen and the last, how many could have come by then by its rates, and by the plan."""

    name: str
    out: int
    first: Optional[int]
    last: Optional[int]
    could: Count
    planned: Count


@dataclass(frozen=True)
class Observed:
    """The counts beside the best plan. `start` are the seconds before people set out, which are taken off each count; `cleared` is the best moment."""

    people: Count
    cleared: int
    start: int
    moments: Tuple[Moment, ...]
    exits: Tuple[Exit, ...]
    ground: Ground = Ground.PROVED

    @property
    def beyond(self) -> List[Moment]:
        return [it for it in self.moments if it.is_beyond]

    def records(self) -> List[Dict[str, object]]:
        return [{"seconds": it.seconds, "out": it.out, "best": it.best, "behind": it.behind, "lost": it.lost} for it in self.moments]


def observed(client: Client, model: Model, counts: Mapping[str, Sequence[Counted]], start: int = 0) -> Observed:
    """A drill beside the best plan: for each exit that was counted the seconds and how many had come out in all, both rising."""
    check_counts(model, counts, start)
    plan = solve(client, model)
    times = sorted({seconds - start for rows in counts.values() for seconds, _ in rows})
    moments: List[Moment] = []
    for seconds in times:
        out = sum(count_at(rows, seconds + start) for rows in counts.values())
        moments.append(moment_of(plan, seconds, out, next((it.behind for it in reversed(moments) if it.behind is not None), 0)))
    exits = tuple(exit_of(plan, name, rows, start) for name, rows in counts.items())
    return Observed(model.people, plan.cleared, start, tuple(moments), exits)


def check_counts(model: Model, counts: Mapping[str, Sequence[Counted]], start: int) -> None:
    """`UnknownName` or `WordsError` for counts that can't be of this building."""
    if not counts or not any(counts.values()):
        raise WordsError("there are no counts: for each exit the seconds and how many had come out")
    for name, rows in counts.items():
        node = model.node(name)
        if not node.is_exit:
            raise WordsError(f"{node.name} is no exit")
        for (before, fewer), (seconds, out) in zip([(start - 1, 0), *rows], rows):
            if seconds <= before or out < fewer or seconds > MOST_SECONDS:
                raise WordsError(f"{name}: seconds have to rise from the start at {start} s, and counts in all never fall: {out} at {seconds} s")


def count_at(rows: Sequence[Counted], seconds: int) -> int:
    """How many had come out by some seconds, as far as was counted."""
    return max((out for at, out in rows if at <= seconds), default=0)


def moment_of(plan: Plan, seconds: int, out: int, behind_before: int) -> Moment:
    """A count beside the curve: whoever is out by a period may be out before it is over, so a count is held against the whole period that it lies in."""
    best = plan.arrivals[min(seconds // plan.period, plan.cleared)]
    period = next((k for k, arrived in enumerate(plan.arrivals) if arrived >= out), None)
    if period is None:
        return Moment(seconds, out, best, None, None, None)
    best_by = 0 if out == 0 else period * plan.period
    behind = seconds - best_by if out else seconds
    return Moment(seconds, out, best, best_by, behind, behind - behind_before)


def exit_of(plan: Plan, name: str, rows: Sequence[Counted], start: int) -> Exit:
    """What an exit let through, and what it could have by the rates of the ways into it from their first arrivals on."""
    model = plan.model
    came = rows[-1][1] if rows else 0
    first = next((seconds - start for seconds, out in rows if out), None)
    last = next((seconds - start for seconds, out in rows if out == came), None) if came else None
    until = (last or 0) // model.period
    into = [it for it in model.arcs.values() if it.head == name]
    could = sum(arc.rate * open_moments(model, arc.way, until - arc.travel) for arc in into)
    planned = sum(it.people for it in plan.moves if it.head == name)
    return Exit(name, came, first, last, could, planned)


def open_moments(model: Model, way: Tuple[str, str], last: int) -> int:
    """How many of the moments from 0 to the last one an arc is open at."""
    closed = {moment for it in model.windows if it.way == way for moment in range(it.first, min(it.until, last + 1))}
    return max(0, last + 1 - len(closed))
