"""The command `compare` and its sheet."""
from __future__ import annotations

from argparse import Namespace
from typing import Any, Optional, Tuple

from evacask.faces import unforeseen as of_surprises
from evacask.faces.asked import Asked, edits_of, named, put, read
from evacask.faces.ending import Status
from evacask.faces.sheet import Column, Sheet
from evacask.faces.words import BUILDING, FACES, Command, argument, number
from evacask.model.seconds import interval, seconds_text
from evacask.questions.compare import Comparison, Scenario, compare

READ = ("cleared", "seconds", "change", "half out", "95 %", "mean", "people")
DATA = "cleared,from_s,before_s,most,half_out,out_95,mean,people,period_s,refused,building".split(",")
COLUMNS = (*(Column(it, "", is_right=True) for it in READ), Column("building", ""), *(Column("", it, is_shown=False) for it in DATA))


def compare_sheet(answer: Comparison) -> Sheet:
    """A row for each building; a refused edit is one too, and what its code means is said below."""
    first, after = answer.scenarios[0], []
    if any(it.cleared is None and not it.refused for it in answer.scenarios):
        after.append("`short` is how many can be out by the horizon at most, where not all can.")
    after += [refusal_line(it) for it in answer.scenarios if it.refused]
    rows = tuple((*read_cells(it, first), it.name, *data_cells(it), it.name) for it in answer.scenarios)
    return Sheet(answer, (), COLUMNS, rows, tuple(after))


def refusal_line(it: Scenario) -> str:
    """What a refused edit is told: refused 34: shut A B: It is shut already."""
    fault = it.refused
    return " ".join(filter(None, (f"refused {fault.code}: {fault.text}:", fault.meaning, fault.remedy))) if fault else ""


def read_cells(it: Scenario, first: Scenario) -> Tuple[str, ...]:
    """The cells of a scenario to read."""
    if it.refused:
        return (f"refused {it.refused.code}", *[""] * 6)
    if it.cleared is None:
        return (f"short {it.most}", *[""] * 5, f"{it.people}")
    shares = ("" if moment is None else span(moment, it) for moment in it.by_share)
    mean = "" if it.mean is None else span(it.mean, it)
    return (f"{it.cleared}", span(it.cleared, it), change(it, first), *shares, mean, f"{it.people}")


def span(moment: float, it: Scenario) -> str:
    return seconds_text(moment, it.period, it.has_later_end)


def change(it: Scenario, first: Scenario) -> str:
    """The seconds by which it is later than the first, with a sign. Buildings of unlike periods are compared by both ends of their intervals."""
    if it is first or first.cleared is None or it.cleared is None:
        return ""
    early, late = (mine - theirs for mine, theirs in zip(interval(it.cleared, it.period), interval(first.cleared, first.period)))
    if early != late:
        return f"{min(early, late):+} to {max(early, late):+} s"
    return f"{early:+} s" if early else "same"


def data_cells(it: Scenario) -> Tuple[Any, ...]:
    """The cells of a scenario for a spreadsheet: moments in periods, and the interval of the clearing moment in seconds."""
    ends: Tuple[Optional[int], Optional[int]] = (None, None) if it.cleared is None else interval(it.cleared, it.period)
    mean = None if it.mean is None else round(it.mean, 3)
    people = None if it.refused else it.people
    most = None if it.refused else it.most
    ends = ends if it.has_later_end else (ends[0], None)
    return (it.cleared, *ends, most, *it.by_share, mean, people, it.period, it.refused.code if it.refused else None)


def run(given: Namespace) -> int:
    if given.unforeseen is not None:
        return of_surprises.run(given)
    groups = [edits_of([words]) for words in given.edit]
    given.edit = []
    asked = Asked(given)
    others = [(name, named(name, asked.client, read(name))) for name in given.others]
    answer = compare(asked.client, asked.model, groups, others, asked.name)
    return put(compare_sheet(answer), "compare", given, asked.client, Status.REFUSED if answer.is_any_refused else Status.ANSWERED)


COMMAND = Command(
    "compare",
    run,
    "what if: a building, its edits and other buildings side by side",
    "An edit is a line of a session, such as 'shut A B' or 'rate A B 9'. Each --edit adds a line to the table.\n"
    "Several edits in one --edit are separated by a semicolon.",
    "examples/office.evac --edit 'shutexit DS2.1; rate SW1.2 LO1.1 8'",
    (
        BUILDING,
        argument("others", metavar="OTHER", nargs="*", help="another building"),
        argument("--edit", action="append", default=[], metavar="EDITS", help="the building after these edits"),
        argument("--unforeseen", type=number, metavar="SECONDS", default=None, help="the edits happen after this time, and nobody knew of them"),
        *FACES,
    ),
)
