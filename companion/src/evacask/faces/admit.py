"""The command `admit` and its sheets."""
from __future__ import annotations

from argparse import Namespace

from evacask.faces.asked import Asked, put
from evacask.faces.ending import Status
from evacask.faces.given import EARLIER, SECONDS, moment_within
from evacask.faces.sheet import Column, Sheet
from evacask.faces.wording import some
from evacask.faces.words import BUILDING, SHARED, Command, argument
from evacask.model.building import Model
from evacask.model.ground import Ground
from evacask.questions.admit import Admission, RoomAdmission, admit, admit_room

COLUMNS = (
    Column("people", "people", is_right=True, ground=Ground.PRINTED),
    Column("now", "now", is_right=True),
    Column("capacity", "capacity", is_right=True),
    Column("room", "room"),
    Column("", "name"),
)
ROOM_COLUMNS = tuple(Column("", key, is_shown=False) for key in ("room", "people", "now", "capacity", "others", "most"))


def room_sheet(answer: RoomAdmission, model: Model) -> Sheet:
    """How many one room may hold."""
    by, room = f"by moment {model.time(answer.moment)}", answer.room
    row = (room, answer.people, answer.now, answer.capacity, answer.others, answer.most)
    if answer.people is None:
        said = [f"Nobody may be in {room}: of the {answer.others} others at most {answer.most} can be out {by}."]
    else:
        said = [f"{room} may hold {some(answer.people, 'person', 'people')} at the start, with the others as they are, for all to be out {by}."]
        said.append(f"Now it is {answer.now}.")
        if answer.most is not None:
            said.append(f"With one more at most {answer.most} of {answer.others + answer.people + 1} are out by then.")
        if answer.people > answer.capacity:
            said.append(f"Its capacity is {answer.capacity}: that is the limit, then.")
    return Sheet(answer, tuple(said), ROOM_COLUMNS, (row,))


def all_sheet(answer: Admission, model: Model) -> Sheet:
    """How many all rooms may hold together."""
    by = f"by moment {model.time(answer.moment)}"
    said = (
        f"{answer.thousandths / 10:g} % of the people now, in each room alike, can be out {by}: {answer.alike}. Now it is {answer.now}.",
        f"Shared out as is best the rooms may hold {answer.shared} of the {answer.room} who fit into them. One such sharing:",
    )
    rows = tuple((it.people, it.now, it.capacity, it.room, model.named(it.room)) for it in answer.shares)
    return Sheet(answer, said, COLUMNS, rows)


def run(given: Namespace) -> int:
    asked = Asked(given)
    moment = moment_within(asked.model, given.seconds, given.end)
    if given.room is not None:
        answer = admit_room(asked.client, asked.model, given.room, moment)
        status = Status.REFUSED if answer.people is None else Status.ANSWERED
        return put(room_sheet(answer, asked.model), "admit", given, asked.client, status)
    return put(all_sheet(admit(asked.client, asked.model, moment), asked.model), "admit", given, asked.client)


COMMAND = Command(
    "admit",
    run,
    "how many people may a room or the building hold for everybody to be out in time?",
    "With --room, the other rooms stay as they are. Without it, the answer is about all rooms: with the same factor for each, and as is best.",
    "examples/school.evac 120 --room WP1.2",
    (BUILDING, SECONDS, EARLIER, argument("--room", metavar="NAME", default=None, help="ask about one room, by its name or its own name"), *SHARED),
)
