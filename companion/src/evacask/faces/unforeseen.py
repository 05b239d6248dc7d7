"""The sheet of what isn't foreseen, which `compare --unforeseen` prints."""
from __future__ import annotations

from argparse import Namespace
from typing import List, Optional, Tuple

from evacask.client.blocks import Outcome
from evacask.errors import WordsError
from evacask.faces.asked import Asked, edits_of, put
from evacask.faces.sheet import Column, Sheet
from evacask.model.building import Model
from evacask.questions.unforeseen import Unforeseen, unforeseen

COLUMNS = (
    Column("cleared", "", is_right=True),
    Column("seconds", "", is_right=True),
    Column("change", "", is_right=True),
    Column("out", "out", is_right=True),
    Column("what happens", "case"),
    Column("", "cleared_moment", is_shown=False),
)


def unforeseen_sheet(answer: Unforeseen, model: Model) -> Sheet:
    """As it is, with the edits known from the beginning, and with edits that nobody knew of."""
    edits, at = "; ".join(answer.edits), model.time(answer.moment)
    cases: List[Tuple[Optional[Outcome], str]] = [
        (answer.as_it_is, "as it is"),
        (answer.foreseen, f"{edits}, from moment {at}, known from the beginning"),
        (answer.unforeseen, f"{edits}, from moment {at}, and nobody knew"),
    ]
    rows = tuple(row(it, answer, model, what) for it, what in cases if it is not None)
    after = [f"Until then {answer.gone} of {answer.people} are out or on their last way. Another best plan may have sent others ahead by then."]
    if answer.trapped:
        after.append(f"{answer.trapped} can't be out by the horizon any more: where they went no way leads back.")
    return Sheet(answer, (), COLUMNS, rows, tuple(after))


def row(it: Outcome, answer: Unforeseen, model: Model, what: str) -> Tuple[object, ...]:
    out = f"{it.most} of {answer.people}"
    if it.cleared is None:
        return ("", "short", "", out, what, None)
    late = (it.cleared - (answer.as_it_is.cleared or 0)) * model.period
    change = "" if it is answer.as_it_is else f"{late:+} s" if late else "same"
    return (it.cleared, model.span(it.cleared), change, out, what, it.cleared)


def run(given: Namespace) -> int:
    """Asks about the edits of a comparison that happen at some seconds, and of which nobody knew."""
    edits = edits_of(given.edit)
    if not edits or given.others:
        raise WordsError("--unforeseen takes one building, and one --edit or more that are made at its seconds")
    given.edit = []
    asked = Asked(given)
    answer = unforeseen(asked.client, asked.model, edits, given.unforeseen // asked.model.period)
    return put(unforeseen_sheet(answer, asked.model), "unforeseen", given, asked.client)
