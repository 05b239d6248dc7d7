"""What isn't foreseen: something happens at a moment, and nobody knew it before.

A plan of a building with a window knows the window from the beginning, and sends people round in time. Here the plan of the building as it is is
carried out up to the moment. Then the edits are made, and the best plan of those who are left goes on. The difference is what foresight is worth.
"""
from __future__ import annotations

from dataclasses import dataclass
from typing import List, Optional, Sequence

from evacask.client.asking import plan_or_short, replan
from evacask.client.blocks import Outcome, Plan
from evacask.client.dialogue import Replan
from evacask.client.reports import Gone
from evacask.client.talk import Client
from evacask.errors import NoAnswer, Refused, Shortfall, WordsError
from evacask.model.building import Model
from evacask.model.edits import edited
from evacask.model.ground import Ground
from evacask.model.lines import fields_of
from evacask.model.shares import Count

FOR_GOOD = 1201


@dataclass(frozen=True)
class Unforeseen:
    """If `edits` are made at `moment` (a period) and nobody knew: `unforeseen`, in all; `gone` are out then, or on their last way.

    `as_it_is` is without the edits, and `foreseen` with them if all is known from the beginning; None if no building says so, as of a rate that
    changes. Which best plan was carried out isn't fixed: another one may have sent others ahead.
    """

    moment: int
    edits: Sequence[str]
    people: Count
    gone: Count
    as_it_is: Outcome
    foreseen: Optional[Outcome]
    unforeseen: Outcome
    ground: Ground = Ground.PRINTED

    @property
    def trapped(self) -> Count:
        """How many can't be out by the horizon any more."""
        return self.people - self.unforeseen.most


def unforeseen(client: Client, model: Model, edits: Sequence[str], moment: int) -> Unforeseen:
    """What some edits cost that nobody knows of before a moment. `Refused` for an edit that can't be made then, as one that moves people."""
    if not edits or not 1 <= moment <= model.horizon:
        raise WordsError(f"an edit is made at a moment from 1 to the horizon, {model.horizon}: the moment is {moment}, with {len(edits)} edits")
    for order in orders(edits):
        with replan(client, model) as talk:
            opening = talk.plan
            gone = talk.advance(moment)
            left = made(talk, order)
        if left is not None:
            break
    else:
        raise NoAnswer(
            "not everybody can be out before the last of these edits is made, and a replan ends there: "
            "name those that open or widen ways first, or ask about fewer"
        )
    out = gone.out[-1]
    outcome = Outcome(last_out(gone, left), out + left.people) if isinstance(left, Plan) else Outcome(None, out + left.most)
    return Unforeseen(
        moment, tuple(edits), model.people, out, Outcome(opening.cleared, opening.people), foreseen(client, model, edits, moment), outcome
    )


def orders(edits: Sequence[str]) -> List[Sequence[str]]:
    """The edits as they are given. If all of them shut ways, their order doesn't matter, so each may be the last."""
    if not all(fields_of(it)[:1] in (["shut"], ["shutexit"]) for it in edits):
        return [edits]
    return [[*edits[at:], *edits[:at]] for at in range(len(edits))]


def made(talk: Replan, edits: Sequence[str]) -> "Plan | Shortfall | None":
    """The plan of those who are left after the edits, or why not all of them can be out; None if that is so before the last edit."""
    for number, edit in enumerate(edits, 1):
        try:
            plan = talk.edit(edit)
        except Shortfall as short:
            return short if number == len(edits) else None
    return plan


def last_out(gone: Gone, left: Plan) -> int:
    """When all are out: those who are left, and those who were on their last way."""
    last_gone = next(moment for moment, out in enumerate(gone.out) if out == gone.out[-1])
    return max(left.cleared, last_gone)


def foreseen(client: Client, model: Model, edits: Sequence[str], moment: int) -> Optional[Outcome]:
    """The same if it was known from the beginning: what is shut from the moment on has a window for good. None if no building says so."""
    windows: List[str] = []
    for edit in edits:
        word, *names = fields_of(edit)
        if word == "window" and names[2:3] and names[2].isdigit() and int(names[2]) >= moment:
            windows.append(edit)
        elif word == "shut":
            windows.append(f"window {' '.join(names)} {moment} {FOR_GOOD}")
        elif word == "shutexit" and len(names) == 1:
            head = model.node(names[0]).name
            windows += [f"window {arc.tail} {head} {moment} {FOR_GOOD}" for arc in model.arcs.values() if arc.head == head]
        else:
            return None
    try:
        answer = plan_or_short(client, edited(model, windows))
    except Refused:
        return None  # (the way has a window then already)
    return Outcome(answer.cleared, answer.people) if isinstance(answer, Plan) else Outcome(None, answer.most)
