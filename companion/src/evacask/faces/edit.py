"""The command `edit`: the building after some edits, with comments and names."""
from __future__ import annotations

import sys
from argparse import Namespace

from evacask.faces.asked import Asked
from evacask.faces.ending import Status
from evacask.faces.files import write_file
from evacask.faces.words import BUILDING, EDIT, Command, argument
from evacask.model.edits import upgraded
from evacask.model.lines import bytes_of


def run(given: Namespace) -> int:
    model = Asked(given).model
    text = upgraded(model).text if given.version_of_text == "2" else model.text
    if given.output is None:
        sys.stdout.write(text)
    else:
        write_file(given.output, bytes_of(text))
    return Status.ANSWERED


COMMAND = Command(
    "edit",
    run,
    "write the building after some edits, with its comments and names",
    "Without an edit the building is written unchanged. What is shut is written with rate 0.",
    "examples/office.evac --edit 'shutexit DS2.1; rate SW1.2 LO1.1 8'",
    (
        BUILDING,
        EDIT,
        argument("-o", "--output", metavar="FILE", default=None, help="write to this file, completely or not at all"),
        argument("--version", dest="version_of_text", choices=("2",), default=None, help="write it in version 2 of the language"),
    ),
)
