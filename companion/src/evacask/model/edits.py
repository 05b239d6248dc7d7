"""Edits of a building's text, refused by the rules of a session. A line that no edit changes stays as it is, comments and names with it.

A session refuses an edit after which not everybody could be out (22). Here several edits are one step, and only the last building is planned.
"""
from __future__ import annotations

from typing import Dict, Optional, Sequence

from evacask.errors import WordsError
from evacask.model.building import Model, model_of
from evacask.model.codes import Place, refusal
from evacask.model.draft import Draft, Fault, draft_of, make
from evacask.model.forms import plain
from evacask.model.lines import fields_of
from evacask.model.shares import shares_in


def edited(model: Model, edits: Sequence[str]) -> Model:
    """The building after some edits, made one after the other; `Refused` for the first that can't be made. Own names may stand for nodes.

    What is shut has rate 0 in the new text, so an edit of that one can't reopen it: give it a rate.
    """
    draft = draft_of(model)
    for edit in edits:
        try:
            make(draft, plain(model, edit))
        except Fault as fault:
            raise refusal(Place.SESSION, fault.code, 0, edit) from None
        except ValueError as fault:
            raise WordsError(f"{edit}: {fault}") from None
    return model_of(text_of(draft))


def text_of(draft: Draft) -> str:
    """The edited building: each changed line anew, and new windows above the line `end`."""
    model, changed = draft.model, {}
    for name, capacity in draft.capacities.items():
        node, start = model.nodes[name], draft.starts[name]
        if (shares_in(node.capacity or 0, model.shares), shares_in(node.start or 0, model.shares)) != (capacity, start):
            changed[node.line] = f"node {name} {capacity} {start}"
    for way, arc in model.arcs.items():
        people = 0 if way in draft.shut or arc.head in draft.shut_exits else draft.rates[way]
        if people != shares_in(arc.rate, model.shares):
            changed[arc.line] = f"arc {arc.tail} {arc.head} {arc.travel} {people}"
    return with_windows(draft, changed)


def with_windows(draft: Draft, changed: Dict[int, str]) -> str:
    """The text with its changed lines: windows that were taken away are left out, and new ones come above `end`, in version 2."""
    model = draft.model
    gone = {it.line for it in model.windows if (it.first, it.until) not in draft.windows[it.way]}
    old = {(it.way, it.first, it.until) for it in model.windows}
    new = [
        f"window {tail} {head} {first} {until}"
        for (tail, head), there in draft.windows.items()
        for first, until in there
        if ((tail, head), first, until) not in old
    ]
    lines = model.text.split("\n")
    if new:
        changed = {**changed, first_line(lines): "evacplan 2"}
    kept = [like(line, changed.get(number)) for number, line in enumerate(lines, 1) if number not in gone]
    at = model.end_line - 1 - len(gone)
    return "\n".join([*kept[:at], *(like(kept[at], line) for line in new), *kept[at:]])


def first_line(lines: Sequence[str]) -> int:
    """The number of the line that says the version: the first that is no blank and no comment."""
    return next(number for number, line in enumerate(lines, 1) if fields_of(line) and not fields_of(line)[0].startswith("#"))


def upgraded(model: Model) -> Model:
    """The building in version 2 of the language, with its comments and names."""
    lines = model.text.split("\n")
    at = first_line(lines) - 1
    lines[at] = like(lines[at], "evacplan 2")
    return model_of("\n".join(lines))


def like(old: str, new: Optional[str]) -> str:
    """A line in place of another, with the same end; the other one if there is none."""
    return old if new is None else new + "\r" if old.endswith("\r") else new
