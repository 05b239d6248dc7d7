"""Replies in a line or a few: what a conversation at a terminal prints in place of a block."""
from __future__ import annotations

from typing import List, Optional, Tuple

from evacask.client.blocks import Cut, Plan
from evacask.client.reports import Exit, Gone, Least
from evacask.errors import Refused, Shortfall
from evacask.faces.sheet import table_lines
from evacask.faces.why import COLUMNS, place_rows
from evacask.faces.sheet import Sheet
from evacask.model.building import Model
from evacask.model.draft import MOST_RATE
from evacask.model.shares import in_people
from evacask.questions.conversation import Said
from evacask.questions.why import places_of

# A report with more lines is cut off; `whole` prints it.
MANY_LINES = 40


class Briefly:
    """Shortens the replies of one conversation. It keeps the clearing moment of the plan printed last, to say what has changed."""

    def __init__(self, model: Model):
        self.model = model
        self.cleared: Optional[int] = None

    def lines(self, said: Said) -> List[str]:
        """What a reply says, in few lines."""
        if isinstance(said, Shortfall):
            return [f"refused 22: at most {said.most} of {said.people} can be out by the horizon, so nothing was changed"]
        if isinstance(said, Refused):
            return [f"refused {said.code}: {said.meaning} {said.remedy}"]
        if isinstance(said, Plan):
            return [self.plan(said)]
        if isinstance(said, Gone):
            return [self.gone(said), self.plan(said.plan)]
        if isinstance(said, Cut):
            return self.cut(said)
        if isinstance(said, Least):
            return [self.least(said)]
        return [self.exit(it) for it in said] if isinstance(said, tuple) else report(said.lines)

    def plan(self, plan: Plan) -> str:
        """A plan in one line: its number, its people, and when all are out."""
        before, self.cleared = self.cleared, plan.cleared
        change = ""
        if before is not None:
            seconds = self.model.seconds(abs(plan.cleared - before))
            change = f", {seconds} s {'later' if plan.cleared > before else 'sooner'} than before" if seconds else ", as before"
        return f"answer {plan.number}: {plan.people} people, cleared {self.model.time(plan.cleared)}{change}"

    def gone(self, gone: Gone) -> str:
        """What an advance says of those who are gone, in one line. Afterwards the clearing moment is of those who are left."""
        self.cleared = None
        last = len(gone.out) - 1
        return f"advance {gone.moment}: {gone.out[last]} people are out by moment {self.model.time(last)} by the moves made"

    def cut(self, cut: Cut) -> List[str]:
        """The cut, added up."""
        if not cut.items or self.cleared is not None and cut.period >= self.cleared:
            return [f"cut {cut.period}: it is empty, as {cut.people} people are out by then"]
        by = f"by moment {self.model.time(cut.period)}"
        head = f"At most {cut.people} can be out {by}. Each of them counts here:"
        if not cut.people:
            head = f"Nobody can be out {by}: no walk is so short, or the ways are closed."
        return [head, *table_lines(Sheet(cut, (), COLUMNS, place_rows(tuple(places_of(cut)), self.model)))]

    def exit(self, it: Exit) -> str:
        """What the loss of an exit comes to."""
        if it.cleared is None:
            return f"without {it.name}: at most {it.most} of {self.model.people} can be out by the horizon"
        return f"without {it.name}: cleared {self.model.time(it.cleared)}"

    def least(self, it: Least) -> str:
        """The least rate in one line."""
        by, arc = f"by moment {self.model.time(it.moment)}", f"least {it.tail} {it.head}:"
        if it.rate is None:
            most = in_people(MOST_RATE, self.model.shares)
            return f"{arc} no rate is enough {by}; with {most:,} at most {it.most} are out"
        if it.rate == 0:
            return f"{arc} it isn't needed {by}"
        return f"{arc} {it.rate} {by}; with {it.rate - in_people(1, self.model.shares)} at most {it.most} are out"


def report(lines: Tuple[str, ...]) -> List[str]:
    """A report as it is, or its beginning."""
    if len(lines) <= MANY_LINES:
        return list(lines)
    return [*lines[: MANY_LINES // 2], f".. {len(lines) - MANY_LINES // 2} lines more: whole prints them"]
