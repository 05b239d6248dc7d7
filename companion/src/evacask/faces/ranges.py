"""The command `range` and its sheet."""
from __future__ import annotations

from argparse import Namespace
from typing import Optional, Tuple

from evacask.errors import WordsError
from evacask.faces.asked import Asked, put
from evacask.faces.files import read_bytes
from evacask.faces.given import percents
from evacask.faces.sheet import Column, Sheet
from evacask.faces.words import BUILDING, SHARED, Command, argument
from evacask.model.building import Model
from evacask.model.shares import Count
from evacask.questions import ranges as of_ranges
from evacask.questions.given import ranges_of
from evacask.questions.ranges import Range, Span, ranges

COLUMNS = (
    Column("earliest", "", is_right=True),
    Column("as it is", "", is_right=True),
    Column("latest", "", is_right=True),
    Column("what varies", "varied"),
    *(Column("", key, is_shown=False) for key in ("earliest_moment", "cleared_moment", "latest_moment", "earliest_most", "latest_most")),
)
CERTAIN = (
    "Certain for every building within these ranges, by the laws of wider ways, longer walks, and fewer and more people (docs/maintainers/laws.md)."
)


def range_sheet(answer: Range, model: Model) -> Sheet:
    """Between which moments all are out: a row for each kind of input, and one for all of them."""
    after = [f"Not certain: {answer.doubt}." if answer.doubt else CERTAIN]
    if len(answer.spans) > 1:
        after.append(f"The answer depends on {' and '.join(answer.depends) or 'none of these'}.")
    if 2 * answer.coarse > len(model.arcs):
        after.append(f"{answer.coarse} travels are below 5 periods: rounded outwards to whole periods they vary by more than was said.")
    rows = tuple(row(it, answer, model, is_all=len(answer.spans) > 1 and it is answer.spans[-1]) for it in answer.spans)
    return Sheet(answer, (), COLUMNS, rows, tuple(after))


def row(it: Span, answer: Range, model: Model, is_all: bool) -> Tuple[object, ...]:
    varied = "all of these" if is_all else " and ".join(it.varied)
    cells = (cell(model, it.earliest, it.earliest_most), cell(model, answer.cleared, answer.most), cell(model, it.latest, it.latest_most))
    return (*cells, varied, it.earliest, answer.cleared, it.latest, it.earliest_most, it.latest_most)


def cell(model: Model, moment: Optional[int], most: Count) -> str:
    return f"short {most}" if moment is None else model.span(moment)


def run(given: Namespace) -> int:
    asked = Asked(given)
    kinds = (given.rate, given.travel, given.people)
    if (given.table is None) == (kinds == ((0, 0),) * 3):
        raise WordsError("range takes percents by --rate, --travel and --people, or the intervals of a file by --table")
    ranges_given = of_ranges.percents(asked.model, *kinds) if given.table is None else ranges_of(read_bytes(given.table), given.table, asked.model)
    answer = ranges(asked.client, asked.model, ranges_given)
    return put(range_sheet(answer, asked.model), "range", given, asked.client)


COMMAND = Command(
    "range",
    run,
    "how certain is it: the earliest and the latest time, if inputs are intervals",
    "Each interval is rounded outwards to whole numbers. The table of --table has the columns from,to and some of rate low,rate high,\n"
    "travel low,travel high,start low,start high. A row without `to` is about a node.",
    "examples/school.evac --rate 20 --people 10",
    (
        BUILDING,
        argument("--rate", type=percents, default=(0, 0), metavar="PERCENT", help="rates may be this much lower or higher: 20, or 10:15"),
        argument("--travel", type=percents, default=(0, 0), metavar="PERCENT", help="travel times may be this much shorter or longer"),
        argument("--people", type=percents, default=(0, 0), metavar="PERCENT", help="this many fewer or more people may start in each room"),
        argument("--table", metavar="FILE", default=None, help="a table of intervals"),
        *SHARED,
    ),
)
