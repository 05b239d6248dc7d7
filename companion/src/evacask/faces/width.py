"""The command `width` and its sheet."""
from __future__ import annotations

from argparse import Namespace
from typing import Any, List, Tuple

from evacask.faces.asked import Asked, put
from evacask.faces.sheet import Column, Sheet, aligned
from evacask.faces.wording import OWN, some
from evacask.faces.given import EARLIER
from evacask.faces.words import BUILDING, SHARED, Command, argument, number
from evacask.model.building import Model
from evacask.model.draft import MOST_RATE
from evacask.model.ground import Ground
from evacask.model.shares import in_people
from evacask.questions.width import Leaves, Width, Widths, width

COLUMNS = tuple(
    Column("", key, is_shown=False, ground=Ground.OWN if key in ("passage", "clear_width_m") else None)
    for key in ("from", "to", "moment", "now", "rate", "most", "passage", "clear_width_m")
)


def width_sheet(answer: Width, model: Model) -> Sheet:
    """The least rate, who can be out with one less, and the clear widths."""
    own_name = model.named(answer.tail, answer.head)
    way = f"{answer.tail} {answer.head}" + (f" ({own_name})" if own_name else "")
    by = f"by moment {model.time(answer.moment)}"
    return Sheet(answer, tuple(lines(answer, model, way, by)), COLUMNS, rows(answer))


def lines(answer: Width, model: Model, way: str, by: str) -> List[str]:
    if answer.rate is None:
        most = f"with {in_people(MOST_RATE, model.shares):,} at most {answer.most} of {answer.people} are out {by}"
        return [f"No rate of {way} is enough: {most}.", "evacask why says what else holds them up, and evacask sensitivity what brings more."]
    if answer.rate == 0:
        return [f"{way} isn't needed at all: without it everybody is out {by}."]
    said = [f"{way} needs a rate of {answer.rate} for everybody to be out {by}; it has {answer.now} now."]
    said.append(f"With {answer.rate - in_people(1, model.shares)} at most {answer.most} of {answer.people} are out by then.")
    if answer.widths:
        need = f"{some(answer.rate, 'person needs', 'people need')} a clear width, in {model.period} s, of:"
        said += [f"{OWN}, by docs/users/modelling.md. {need}", *("  " + line for line in aligned(passages(answer.widths), (False, False)))]
    return said


def passages(widths: Widths) -> List[List[str]]:
    """The clear width of each kind of passage."""
    rows = [["door held open", f"{widths.door:.2f} m"], ["corridor or ramp", f"{widths.level:.2f} m"]]
    rows += [[f"stair {kind}", f"{clear:.2f} m"] for kind, clear in widths.stairs]
    return [*rows, ["door not held open", leaves_text(widths.leaves)]]


def leaves_text(it: Leaves) -> str:
    if it.leaves == 1:
        return f"1 leaf, {it.width:.2f} m"
    return f"{it.leaves} leaves" + (f" in {it.doors} doors" if it.doors > 1 else "") + f", {it.width:.2f} m together"


def rows(answer: Width) -> Tuple[Tuple[Any, ...], ...]:
    """A row for each kind of passage; one without a passage if none is needed."""
    head = (answer.tail, answer.head, answer.moment, answer.now, "never" if answer.rate is None else answer.rate, answer.most)
    it = answer.widths
    if it is None:
        return ((*head, None, None),)
    clear = [("door held open", it.door), ("corridor or ramp", it.level), *((f"stair {kind}", metres) for kind, metres in it.stairs)]
    clear.append(("door not held open", it.leaves.width))
    return tuple((*head, kind, f"{metres:.2f}") for kind, metres in clear)


def run(given: Namespace) -> int:
    asked = Asked(given)
    answer = width(asked.client, asked.model, given.tail, given.head, given.seconds, given.end)
    return put(width_sheet(answer, asked.model), "width", given, asked.client)


COMMAND = Command(
    "width",
    run,
    "how wide must a way be for everybody to be out in time?",
    "The least rate of the arc from A to B, and the widths of a door, a corridor and a stair with that rate. A period counts at its end.",
    "examples/office.evac SW2.2 DS2.1 120",
    (
        BUILDING,
        argument("tail", metavar="A", help="the node where the arc starts"),
        argument("head", metavar="B", help="the node where it ends"),
        argument("seconds", type=number, metavar="SECONDS", help="everybody must be out within this time"),
        EARLIER,
        *SHARED,
    ),
)
