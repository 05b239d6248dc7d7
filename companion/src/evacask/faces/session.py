"""The command `session`: one question after the other, at a prompt."""
from __future__ import annotations

import sys
from argparse import Namespace

from evacask.errors import InputError, WordsError
from evacask.faces.asked import Asked
from evacask.faces.prompt import converse
from evacask.faces.words import EDIT, Command, argument
from evacask.questions.conversation import conversation


def run(given: Namespace) -> int:
    if given.building == "-":
        raise WordsError("session reads what you type, so the building must be a file")
    if sys.stdin is None:
        raise InputError("standard input can't be read: it is closed")
    asked = Asked(given)
    with conversation(asked.client, asked.model, given.mode) as talk:
        return converse(talk, asked.model)


COMMAND = Command(
    "session",
    run,
    "one question after another, at a prompt",
    "Each answer is one line. The arrow keys bring back earlier lines, and the tab key completes names.\n"
    "The prompt takes the commands in docs/users/formats.md, and whole, help and quit. Lines may also come from a pipe.",
    "examples/office.evac",
    (
        argument("building", metavar="BUILDING", help="a file with a building"),
        [
            argument("--study", dest="mode", action="store_const", const="study", default="session", help="a study of exits and rates"),
            argument("--replan", dest="mode", action="store_const", const="replan", help="a session whose plan is carried out"),
        ],
        EDIT,
    ),
)
