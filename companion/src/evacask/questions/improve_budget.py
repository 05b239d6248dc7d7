"""The earliest moment by which all can be out if the widenings may cost so much."""
from __future__ import annotations

from dataclasses import replace
from typing import Optional, Sequence

from evacask.client.asking import plan_or_short
from evacask.client.blocks import Plan
from evacask.client.talk import Client
from evacask.errors import WordsError
from evacask.model.building import Model
from evacask.questions.cover import cover
from evacask.questions.improve import WORK, Improvement, Solver, Widening, all_widenings, improve


def improve_within(
    client: Client, model: Model, budget: int, widenings: Optional[Sequence[Widening]] = None, work: int = WORK, solver: Solver = cover
) -> Improvement:
    """The cheapest purchase for the earliest moment that `budget` allows, found by halving: for more money all are never out later.

    If the work runs out for some moment, that moment counts as one that isn't reached. The horizon is the latest moment that is tried.
    """
    if budget < 0:
        raise WordsError(f"the budget is {budget}, and it can't be below 0")
    given = all_widenings(model) if widenings is None else widenings
    now = plan_or_short(client, model)
    high = now.cleared if isinstance(now, Plan) else model.horizon
    low = max((it.moment for it in model.entrants), default=0) - 1
    best, sooner = improve(client, model, high, given, work, solver), None
    if best.cost is None or best.cost > budget:
        return best
    while high - low > 1:
        middle = (low + high) // 2
        found = improve(client, model, middle, given, work, solver)
        if found.cost is not None and found.cost <= budget:
            best, high = found, min(middle, found.cleared or middle)
        else:
            sooner, low = found, middle
    return replace(best, sooner=sooner)
