"""The command `rescue` and its sheet."""
from __future__ import annotations

from argparse import Namespace

from evacask.faces.asked import Asked, put
from evacask.faces.ending import Status
from evacask.faces.files import write_file
from evacask.faces.given import EARLIER, moment_within
from evacask.faces.sheet import Column, Sheet
from evacask.faces.words import BUILDING, SHARED, Command, argument, number
from evacask.model.building import Model
from evacask.model.ground import Ground
from evacask.questions.rescue import Rescue, rescue

COLUMNS = (
    Column("stay", "stay", is_right=True, ground=Ground.PRINTED),
    Column("of", "people", is_right=True),
    Column("room", "room"),
    Column("come in at", "moment", is_right=True, is_shown=False),
    Column("", "name"),
)


def rescue_sheet(answer: Rescue, model: Model) -> Sheet:
    """How many can be saved, and who stays in one best plan."""
    by = f"by moment {model.time(answer.moment)}"
    if answer.most == answer.people:
        return Sheet(answer, (f"All {answer.people} can be out {by}.",), COLUMNS)
    said = f"{answer.most} of {answer.people} can be out {by}, and no more. In one best plan for them stay:"
    rows = tuple((it.staying, it.people, it.room, it.moment, name(it.moment, model, it.room)) for it in answer.groups if it.staying)
    return Sheet(answer, (said,), COLUMNS, rows)


def name(moment: int, model: Model, room: str) -> str:
    """Own names, and when they come in."""
    return ", ".join(filter(None, (model.named(room), f"come in at {model.time(moment)}" if moment else "")))


def run(given: Namespace) -> int:
    asked = Asked(given)
    moment = None if given.seconds is None else moment_within(asked.model, given.seconds, given.end)
    answer = rescue(asked.client, asked.model, moment)
    if given.plan is not None:
        write_file(given.plan, answer.plan.raw)
    status = Status.ANSWERED if answer.most == answer.people else Status.REFUSED
    return put(rescue_sheet(answer, asked.model), "rescue", given, asked.client, status)


COMMAND = Command(
    "rescue",
    run,
    "who can be saved, if not everybody can?",
    "No plan saves more people. Which people they are depends on the plan that is printed.",
    "examples/school.evac --seconds 115",
    (
        BUILDING,
        argument("--seconds", type=number, metavar="SECONDS", default=None, help="within this time (default: by the horizon)"),
        EARLIER,
        argument("--plan", metavar="FILE", default=None, help="write the plan for those who are saved to this file"),
        *SHARED,
    ),
)
