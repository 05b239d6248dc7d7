"""The command `why` and its sheet."""
from __future__ import annotations

from argparse import Namespace
from typing import Sequence, Tuple

from evacask.faces.asked import Asked, put
from evacask.faces.sheet import Column, Sheet, runs, seconds_of_runs
from evacask.faces.words import BUILDING, SHARED, Command, argument, number
from evacask.model.building import Model
from evacask.questions.why import Place, Why, why

COLUMNS = (
    Column("people", "people", is_right=True),
    Column("place", "place"),
    Column("moments", "moments"),
    Column("seconds", "seconds"),
    Column("", "name"),
)


def why_sheet(answer: Why, model: Model) -> Sheet:
    """The items of the cut as a table, with what it says before and after."""
    if answer.period >= answer.cleared:
        end = f"All {answer.people} are out by moment {model.time(answer.cleared)}, so nothing holds them up at {answer.period}."
        return Sheet(answer, (end,), COLUMNS)
    by = f"by moment {model.time(answer.period)}"
    head = f"At most {answer.most} of {answer.people} can be out {by}. Each of them counts here:"
    if not answer.most:
        head = f"Nobody can be out {by}: no walk is so short, or the ways are closed."
    end = f"A best plan has as many out by then, and all {answer.people} by moment {model.time(answer.cleared)}."
    return Sheet(answer, (head,), COLUMNS, place_rows(answer.places, model), (end,))


def place_rows(places: Sequence[Place], model: Model) -> Tuple[Tuple[object, ...], ...]:
    """A row for each place of a cut."""
    return tuple((it.people, place(it), runs(it.moments), seconds_of_runs(it.moments, model.period), name(it, model)) for it in places)


def place(it: Place) -> str:
    if not it.names:
        return f"not held up: {listed(it.rooms)}"
    return f"wait in {it.names[0]}" if len(it.names) == 1 else " ".join(it.names)


def name(it: Place, model: Model) -> str:
    """Own names, and when the way is closed."""
    return ", ".join(filter(None, (model.named(*it.names), f"closed at {runs(it.closed)}" if it.closed else "")))


def listed(names: Sequence[str]) -> str:
    """Some names, the first few if they are many."""
    return ", ".join(names) if len(names) <= 4 else f"{', '.join(names[:3])} and {len(names) - 3} more"


def run(given: Namespace) -> int:
    asked = Asked(given)
    return put(why_sheet(why(asked.client, asked.model, given.period), asked.model), "why", given, asked.client)


COMMAND = Command(
    "why",
    run,
    "why not sooner: which ways are full, and when?",
    "The cut of a period, added up by way and moments. Everybody who is out by then is counted in one of its lines.",
    "examples/office.evac",
    (BUILDING, argument("period", type=number, nargs="?", metavar="K", help="the period (default: the one before everybody is out)"), *SHARED),
)
