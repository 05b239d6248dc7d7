"""The command `assign` and its sheet."""
from __future__ import annotations

from argparse import Namespace

from evacask.faces.asked import Asked, put
from evacask.faces.files import write_file
from evacask.faces.given import EFFORT
from evacask.faces.sheet import Column, Sheet
from evacask.faces.wording import some
from evacask.faces.words import BUILDING, SHARED, Command, argument
from evacask.model.building import Model
from evacask.model.ground import Ground
from evacask.questions.assign import Assignment, assign

COLUMNS = (
    Column("room", "room"),
    Column("people", "people", is_right=True),
    Column("exit", "exit", ground=Ground.OWN),
    Column("last out", "", is_right=True),
    Column("way", "way", ground=Ground.OWN),
    Column("", "name"),
    Column("", "last_out_moment", is_shown=False),
)


def assign_sheet(answer: Assignment, model: Model) -> Sheet:
    """The way of each room, and how good such a plan is."""
    late = answer.cleared - answer.best
    loss = "as soon as by the best plan" if not late else f"{some(late, 'period')} later than by the best plan, {model.time(answer.best)}"
    before = (
        f"With one way for each room all are out by moment {model.time(answer.cleared)}: {loss}.",
        bound_line(answer, model),
        "The program's check takes the plan: it keeps all rates and capacities, and has all out by then.",
    )
    rows = tuple((it.room, it.people, it.exit, model.span(it.last_out), " ".join(it.nodes), model.named(it.room), it.last_out) for it in answer.rooms)
    return Sheet(answer, before, COLUMNS, rows)


def bound_line(answer: Assignment, model: Model) -> str:
    if answer.cleared == answer.bound:
        return "No such plan is better."
    return f"By the cuts no plan that sends each room to one exit has all out before moment {model.time(answer.bound)}."


def run(given: Namespace) -> int:
    asked = Asked(given)
    answer = assign(asked.client, asked.model, given.effort, given.nearest)
    if given.plan is not None:
        write_file(given.plan, answer.block)
    return put(assign_sheet(answer, asked.model), "assign", given, asked.client)


COMMAND = Command(
    "assign",
    run,
    "one way for each room, for wardens and signs",
    "The search uses the ways of the best plan and the shortest ways. The program's check certifies the plan.",
    "examples/office.evac",
    (
        BUILDING,
        argument(
            "--nearest",
            action="store_true",
            help="send each room by its shortest way (a tie goes to the best plan's), and search no further",
        ),
        EFFORT,
        argument("--plan", metavar="FILE", default=None, help="write the plan to this file, as a block for evacplan check"),
        *SHARED,
    ),
)
