"""The command `report`: a page to hand in, or its data."""
from __future__ import annotations

import pathlib
import sys
from argparse import Namespace
from typing import Dict, Optional

from evacask.faces.asked import Asked, source
from evacask.faces.ending import Status
from evacask.faces.files import write_file
from evacask.faces.page.page import AnyReport, Other, page
from evacask.faces.progress import LINE, progress
from evacask.faces.sheet import Sheet, as_json
from evacask.faces.words import BUILDING, EDIT, Command, argument, number
from evacask.questions.report import Report, report
from evacask.questions.worth import MOST_BYTES, MOST_TRIALS

TRIALS = f"plan at most N buildings to find what ways are worth ({MOST_TRIALS}, or fewer if their plans are longer than {MOST_BYTES // 1_000_000} MB)"


def run(given: Namespace) -> int:
    asked = Asked(given)
    with progress("trial") as tell:
        answer = report(asked.client, asked.model, asked.drawn, given.trials, tell=tell)
        against = [beside(given, name) for name in given.against]
    LINE.erase()
    if given.json:
        text = as_json(Sheet(data_of(answer)), "report", source(asked.client))
    else:
        text = page(answer, given.title or asked.model.title or pathlib.Path(asked.name).name, against)
    write(text, given.output)
    return Status.ANSWERED if isinstance(answer, Report) else Status.REFUSED


def beside(given: Namespace, name: str) -> Other:
    """Another building with its report, on which nothing is tried."""
    other = Asked(Namespace(**{**vars(given), "edit": []}), name)
    return other.model.title or name, report(other.client, other.model, other.drawn, 0)


def data_of(answer: AnyReport) -> Dict[str, object]:
    """The answer, with the text of the building in place of its statements, and with the curve of its plan in place of the block."""
    found = {key: value for key, value in vars(answer).items() if key not in ("model", "source", "plan", "occupancy")}
    if isinstance(answer, Report):
        found.update(people=answer.plan.people, cleared=answer.plan.cleared, arrivals=answer.plan.arrivals)
    return {"text": answer.model.text, **found}


def write(text: str, output: Optional[str]) -> None:
    """Writes a page to a file, or to the output."""
    if output is None:
        sys.stdout.write(text)
    else:
        write_file(output, text.encode("utf-8", "replace"))


COMMAND = Command(
    "report",
    run,
    "make a page to hand in: the answer, what limits it, pictures and the input",
    "The page is one HTML file that loads nothing and runs no script. Each statement is marked with what it rests on: proved, by the cuts,\n"
    "printed plan, or evacask.",
    "examples/office.evac",
    (
        BUILDING,
        EDIT,
        argument("--title", default=None, help="the title of the page, instead of the building's"),
        argument("--against", action="append", default=[], metavar="OTHER", help="another building to set beside it"),
        argument("--trials", type=number, default=None, metavar="N", help=TRIALS),
        argument("-o", "--output", default=None, metavar="FILE", help="write the page to a file"),
        argument("--json", action="store_true", help="print the data of the page as JSON"),
    ),
)
