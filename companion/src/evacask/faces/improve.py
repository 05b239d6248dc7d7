"""The command `improve` and its sheet."""
from __future__ import annotations

from argparse import Namespace
from typing import Optional, Tuple

from evacask.errors import WordsError
from evacask.faces.asked import Asked, put
from evacask.faces.ending import Status
from evacask.faces.files import read_bytes
from evacask.faces.given import EARLIER, EFFORT, moment_within
from evacask.faces.sheet import Column, Sheet
from evacask.faces.wording import some
from evacask.faces.words import BUILDING, SHARED, Command, argument, number
from evacask.model.building import Model
from evacask.questions.cover import cover
from evacask.questions.given import widenings_of
from evacask.questions.highs import highs
from evacask.questions.improve import WORK, Improvement, improve
from evacask.questions.improve_budget import improve_within

COLUMNS = (
    Column("cost", "cost", is_right=True),
    Column("times", "times", is_right=True, is_shown=False),
    Column("now", "now", is_right=True),
    Column("then", "then", is_right=True),
    Column("place", "place"),
    Column("", "name"),
)


def improve_sheet(answer: Improvement, model: Model, budget: Optional[int] = None, is_floating: bool = False) -> Sheet:
    """What to buy, and how sure it is that nothing cheaper is enough."""
    rows = tuple((it.cost, it.times, it.before, it.after, " ".join(it.place), model.named(*it.place)) for it in answer.purchases)
    return Sheet(answer, lines(answer, model, budget, is_floating), COLUMNS, rows)


def lines(answer: Improvement, model: Model, budget: Optional[int], is_floating: bool) -> Tuple[str, ...]:
    by = f"by moment {model.time(answer.moment)}"
    if answer.most is not None:
        return (f"No widening is enough: at most {answer.most} of {answer.people} can be out {by}, whatever is bought of these.",)
    if answer.cost is None or answer.cleared is None:
        return (f"Nothing was found until the work ran out. No purchase for less than {answer.at_least} has all out {by}: --effort 10 looks longer.",)
    if budget is not None and answer.cost > budget:
        return (f"Nothing for the budget of {budget} was found: for all to be out {by}, which is the horizon, it takes at least {answer.at_least}.",)
    out = f"all are out by moment {model.time(answer.cleared)}"
    first = f"For {answer.cost} {out}. {exactness(answer, is_floating)}" if answer.cost else f"A{out[1:]} as it is: nothing is needed."
    return (first,) if budget is None or answer.sooner is None else (first, sooner(answer.sooner, model, budget))


def sooner(answer: Improvement, model: Model, budget: int) -> str:
    """What is known of the moment before the earliest that a budget buys."""
    by = f"by moment {model.time(answer.moment)}"
    if answer.most is not None:
        return f"No budget is enough for all to be out {by}: at most {answer.most} of {answer.people} can be."
    if answer.at_least > budget:
        return f"For all to be out {by} it takes at least {answer.at_least}, more than the budget of {budget}."
    return f"Whether the budget of {budget} is enough for all to be out {by} isn't decided: the work ran out, and --effort 10 looks longer."


def exactness(answer: Improvement, is_floating: bool) -> str:
    ground = f"{some(answer.cuts, 'cut')} of the program {'shows' if answer.cuts == 1 else 'show'} it{' by HiGHS, in floating point' * is_floating}."
    if answer.cost == answer.at_least:
        return f"No cheaper purchase is enough: {ground}"
    return f"No purchase for less than {answer.at_least} is enough: {ground} Between the two the work ran out."


def run(given: Namespace) -> int:
    if (given.seconds is None) == (given.budget is None):
        raise WordsError("improve takes the seconds within which all are to be out, or --budget with what may be spent")
    asked = Asked(given)
    model, solver = asked.model, highs if given.highs else cover
    widenings = None if given.costs is None else widenings_of(read_bytes(given.costs), given.costs, model)
    if given.budget is not None:
        answer = improve_within(asked.client, model, given.budget, widenings, WORK * given.effort, solver)
    else:
        answer = improve(asked.client, model, moment_within(model, given.seconds, given.end), widenings, WORK * given.effort, solver)
    too_dear = given.budget is not None and answer.cost is not None and answer.cost > given.budget
    status = Status.REFUSED if answer.cost is None or too_dear else Status.ANSWERED
    return put(improve_sheet(answer, model, given.budget, given.highs), "improve", given, asked.client, status)


COMMAND = Command(
    "improve",
    run,
    "what to widen, and by how much, for the least cost",
    "Without --costs, each unit of an arc's rate costs 1, and so does each unit of a node's capacity if capacities can matter.\n"
    "The table of --costs has the columns from,to,step,cost,most: `step` more rate for `cost`, up to `most` times. A node has no `to`.",
    "examples/office.evac 100",
    (
        BUILDING,
        argument("seconds", type=number, nargs="?", metavar="SECONDS", help="everybody must be out within this time"),
        EARLIER,
        argument("--costs", metavar="FILE", default=None, help="a table of what can be bought"),
        argument("--budget", type=number, metavar="COST", default=None, help="find the earliest moment for at most this cost, instead of SECONDS"),
        argument("--highs", action="store_true", help="let the solver HiGHS choose, which is installed separately: for hard choices"),
        EFFORT,
        *SHARED,
    ),
)
