"""The command `losses` and its sheet."""
from __future__ import annotations

from argparse import Namespace

from evacask.faces.asked import Asked, put
from evacask.faces.progress import progress
from evacask.faces.sheet import Column, Sheet
from evacask.faces.wording import some
from evacask.faces.words import BUILDING, SHARED, Command, argument, number
from evacask.model.building import Model
from evacask.questions.losses import Losses, losses

COLUMNS = (
    Column("all out", "", is_right=True),
    Column("out", "out", is_right=True),
    Column("lost together", "lost"),
    Column("", "name"),
    Column("", "cleared_moment", is_shown=False),
)


def losses_sheet(answer: Losses, model: Model) -> Sheet:
    """The worst losses, the worst first."""
    rows = []
    for it in answer.worst:
        names = "; ".join(filter(None, (model.named(*place) for place in it.places)))
        span = "" if it.cleared is None else model.span(it.cleared)
        rows.append((span, f"{it.most} of {answer.people}", ", ".join(" ".join(place) for place in it.places), names, it.cleared))
    what = some(answer.possible, *(("place", "places") if answer.count == 1 else (f"set of {answer.count} places", f"sets of {answer.count} places")))
    rest = f"Of the {what}, each that isn't listed costs less than these, or no more than a part of it alone."
    after = f"{answer.tried} losses were planned. {rest}"
    return Sheet(answer, (), COLUMNS, tuple(rows), (after,))


def run(given: Namespace) -> int:
    asked = Asked(given)
    places = [(it.name,) for it in asked.model.exits] if given.exits else None
    with progress("losses") as tell:
        answer = losses(asked.client, asked.model, given.k, places, given.top, tell)
    return put(losses_sheet(answer, asked.model), "losses", given, asked.client)


COMMAND = Command(
    "losses",
    run,
    "which two or three ways are worst to lose at once?",
    "A loss is listed if it costs more than any part of it. In a row without a time not everybody gets out: `out` is how many are out by the\n"
    "horizon.",
    "examples/metro.evac -k 2",
    (
        BUILDING,
        argument("-k", type=number, default=2, metavar="N", help="how many are lost at once: 1, 2 (the default) or 3"),
        argument("--exits", action="store_true", help="lose exits instead of single ways"),
        argument("--top", type=number, default=5, metavar="N", help="how many losses to list (default: 5)"),
        *SHARED,
    ),
)
