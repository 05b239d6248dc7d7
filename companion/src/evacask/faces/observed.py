"""The command `observed` and its sheet."""
from __future__ import annotations

from argparse import Namespace
from typing import List, Tuple

from evacask.faces.asked import Asked, put
from evacask.faces.ending import Status
from evacask.faces.files import read_bytes
from evacask.faces.sheet import Column, Sheet, aligned
from evacask.faces.words import BUILDING, SHARED, Command, argument, number
from evacask.model.building import Model
from evacask.model.ground import Ground
from evacask.questions.given import counts_of
from evacask.questions.observed import Moment, Observed, observed

COLUMNS = (
    Column("seconds", "seconds", is_right=True),
    Column("out", "out", is_right=True),
    Column("best", "best", is_right=True),
    Column("as many out at best", "best_from_s", is_right=True),
    Column("behind", "behind_s", is_right=True),
    Column("lost since the line above", "lost_s", is_right=True),
)
HEADS = ["exit", "came out", "first seen by", "last by", "could have by then", "in the printed plan"]


def observed_sheet(answer: Observed, model: Model) -> Sheet:
    """The counts beside the best plan, and what each exit did."""
    before = tuple(
        f"At {it.seconds} s {it.out} were out, and no plan has more than {it.best} out: in the building as it is written rates are too low, travels too "
        "long, or people are elsewhere."
        for it in answer.beyond
    )
    rows = tuple(row(it) for it in answer.moments)
    exits = [HEADS, *(exit_row(answer, at) for at in range(len(answer.exits)))]
    after = (*aligned(exits, (False, True, True, True, True, True)), *where_lost(answer))
    return Sheet(answer, before, COLUMNS, rows, after)


def row(it: Moment) -> Tuple[object, ...]:
    best = "never" if it.best_by is None else f"from {it.best_by} s"
    lost = "" if it.lost is None else f"{it.lost:+} s"
    return (it.seconds, it.out, it.best, best, "" if it.behind is None else f"{it.behind} s", lost)


def exit_row(answer: Observed, at: int) -> List[str]:
    it = answer.exits[at]
    first, last = ("nobody" if seconds is None else f"{seconds} s" for seconds in (it.first, it.last))
    return [it.name, f"{it.out}", first, last, f"{it.could}", f"{it.planned}"]


def where_lost(answer: Observed) -> Tuple[str, ...]:
    """Whether time was lost by the flow or by the split: evacask's own arithmetic."""
    used = [it for it in answer.exits if it.last is not None]
    behind = [it.behind for it in answer.moments if it.behind is not None]
    if not behind or behind[-1] <= 0 or not used:
        return ()
    first, last = min(used, key=lambda it: it.last or 0), max(used, key=lambda it: it.last or 0)
    if (last.last or 0) - (first.last or 0) > behind[-1] // 2:
        return (f"{Ground.OWN}: {first.name} was done {(last.last or 0) - (first.last or 0)} s before {last.name}: the split cost time.",)
    return (f"{Ground.OWN}: the exits ended close together and let fewer through than they could: people came late or slowly.",)


def run(given: Namespace) -> int:
    asked = Asked(given)
    counts = counts_of(read_bytes(given.counts), given.counts, asked.model)
    answer = observed(asked.client, asked.model, counts, given.start)
    status = Status.REVIEW if answer.beyond else Status.ANSWERED
    return put(observed_sheet(answer, asked.model), "observed", given, asked.client, status)


COMMAND = Command(
    "observed",
    run,
    "where did a drill lose time: its counts beside the best plan",
    "The table has a column `seconds`, and one for each exit with the total number of people who had come out by then. The status is 10 if more\n"
    "people were out than any plan allows.",
    "examples/school.evac examples/school_drill.csv",
    (
        BUILDING,
        argument("counts", metavar="COUNTS.csv", help="the table of counts"),
        argument("--start", type=number, default=0, metavar="SECONDS", help="the seconds before people set out, which are subtracted"),
        *SHARED,
    ),
)
