"""The command `review` and its sheet."""
from __future__ import annotations

from argparse import Namespace

from evacask.faces.asked import Asked, put
from evacask.faces.ending import Status
from evacask.faces.sheet import Column, Sheet
from evacask.faces.words import BUILDING, SHARED, Command
from evacask.model.building import Model
from evacask.questions.review import Review, review

COLUMNS = (Column("line", "line", is_shown=False), Column("doubt", "doubt", is_shown=False))


def review_sheet(answer: Review, model: Model) -> Sheet:
    """A line for each doubt; nothing if there is none."""
    head = ("Warnings by evacask, which aren't proved:",) if answer.doubts else ()
    lines = tuple(f"line {it.line}: {it.what}" for it in answer.doubts)
    return Sheet(answer, head + lines, COLUMNS, tuple((it.line, it.what) for it in answer.doubts))


def run(given: Namespace) -> int:
    asked = Asked(given)
    answer = review(asked.client, asked.model)
    return put(review_sheet(answer, asked.model), "review", given, asked.client, Status.REVIEW if answer.doubts else Status.ANSWERED)


COMMAND = Command(
    "review",
    run,
    "is this the building that I meant: what is likely to be a mistake?",
    "A doubt is a warning by evacask and not a fault: you know the building better. If there is none, nothing is printed.",
    "examples/office.evac",
    (BUILDING, *SHARED),
)
