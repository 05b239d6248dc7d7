"""The command `summary` and its sheet."""
from __future__ import annotations

from argparse import Namespace
from typing import List, Optional, Tuple, Union

from evacask.faces.asked import Asked, put
from evacask.faces.ending import Status
from evacask.faces.sheet import Column, Sheet, aligned, table_lines
from evacask.faces.why import why_sheet
from evacask.faces.wording import OWN, some
from evacask.faces.words import BUILDING, SHARED, Command
from evacask.model.building import Model
from evacask.model.ground import Ground
from evacask.model.walks import Bound
from evacask.questions.bracket import Bracket
from evacask.questions.by_hand import ByHand
from evacask.questions.summary import Short, Summary, summary

FIGURES = (Column("", "figure", is_shown=False), Column("", "value", is_shown=False), Column("", "ground", is_shown=False))
SPANS = (Column("", "node"), Column("", "moments"), Column("", "name"))


def summary_sheet(answer: Summary, model: Model, name: str = "-") -> Sheet:
    """The figures, the cut that decides, the walking bound, and how many doubts there are."""
    lines = [answer.title] if answer.title else []
    lines += aligned(figures(answer, model), (False, False))
    if answer.cut:
        drawn = why_sheet(answer.cut, model)
        lines += [*drawn.before, *table_lines(drawn)]
    lines += [*hand_lines(answer.hand, model), *bracket_lines(answer.bracket), *bound_lines(answer.bound, model), *doubts_line(answer.doubts, name)]
    return Sheet(answer, tuple(lines), FIGURES, figure_rows(answer, model))


def hand_lines(hand: Optional[ByHand], model: Model) -> List[str]:
    """The calculation by hand: people over the flow of the way that decides, and the walk to it and on."""
    if hand is None:
        return []
    passing = f"{hand.people} people pass {' '.join(hand.way)} at {hand.flow:.2f} a second in {hand.passing:.0f} s"
    walk = f"they walk {hand.before} s to it, and {hand.after} s over it and out"
    return [f"By hand: {passing};", f"{walk}: {hand.seconds:.0f} s ({hand.ground})."]


def bracket_lines(bracket: Optional[Bracket]) -> List[str]:
    """Between which seconds all are out of the building as it is drawn in metres, or why nothing is claimed."""
    if bracket is None:
        return []
    if bracket.latest is None:
        return [f"As it is drawn in metres: {it}." for it in bracket.silent]
    earliest = f"not before {bracket.earliest} s, and " if bracket.earliest is not None else ""
    lines = [
        f"As it is drawn in metres all are out {earliest}before {bracket.latest} s, to whichever side its numbers are rounded ({bracket.ground})."
    ]
    return lines + [f"{it[0].upper()}{it[1:]}." for it in bracket.silent]


def figures(answer: Summary, model: Model) -> List[List[str]]:
    """The rows of figures, each with its name."""
    rows = [["people", f"{answer.people}"], ["cleared", f"{model.time(answer.cleared)}: no plan has them all out sooner"]]
    walk = f"{model.time(answer.uncongested)}: the longest walk of those inside at first, with nobody in the way"
    rows += [["uncongested", walk], ["congestion", price(answer, model)]]
    if answer.mean is not None:
        rows.append(["mean", f"{answer.mean:.1f} ({model.span(answer.mean)}): when a person is out, on average"])
    return rows


def price(answer: Summary, model: Model) -> str:
    """What congestion costs: the time between the longest walk and the last one out."""
    more = answer.cleared - answer.uncongested
    costs = f"costs {some(more, 'period')} ({model.seconds(more)} s)"
    if answer.uncongested and answer.cleared:
        costs += f": cleared is {answer.cleared / answer.uncongested:.1f} times the longest walk"
    return costs if model.is_steady else costs + "; windows and people who come later are in it too"


def figure_rows(answer: Summary, model: Model) -> Tuple[Tuple[object, ...], ...]:
    """The figures for a spreadsheet: a number each, moments in periods and seconds apart."""
    (first, last), proved = model.ends(answer.cleared), Ground.PROVED
    rows: List[Tuple[object, ...]] = [("people", answer.people, proved), ("cleared", answer.cleared, proved)]
    rows += [("cleared_from_s", first, proved), ("cleared_before_s", last, proved), ("uncongested", answer.uncongested, proved)]
    rows += [("mean", "" if answer.mean is None else round(answer.mean, 3), proved)]
    rows += [("walking_bound", answer.bound.moment if answer.bound else "", Ground.OWN), ("doubts", answer.doubts, Ground.OWN)]
    return tuple(rows)


def bound_lines(bound: "Bound | None", model: Model) -> List[str]:
    """The walking bound, if its premises hold."""
    if bound is None:
        return []
    walk = f"{some(bound.rate, 'person', 'people')} at once can walk out within {some(bound.periods, 'period')}"
    return [
        f"A check by hand: a best plan is over by {model.time(bound.moment)} at the latest, since from each room",
        f"{walk} (law: walking bound; {OWN}).",
    ]


def doubts_line(doubts: int, name: str) -> List[str]:
    return [f"{some(doubts, 'doubt')}: evacask review {name}"] if doubts else []


def short_sheet(answer: Short, model: Model, name: str = "-") -> Sheet:
    """How many can be out, what to do, and the cut that shows it."""
    head = f"Not everybody can be out by the horizon, {model.time(answer.horizon)}: at most {answer.most} of {answer.people} can."
    cut = "The cut that shows it has these nodes, at these moments:"
    rows = tuple((node, f"{first} to {last}", model.named(node)) for node, first, last in answer.cut)
    return Sheet(answer, (head, *remedies(answer), cut), SPANS, rows, tuple(doubts_line(answer.doubts, name)))


def remedies(answer: Short) -> List[str]:
    """What to do: a way that is missing, or a horizon that is enough."""
    if answer.caught:
        said = ", ".join(f"{name} ({some(people, 'person', 'people')})" for name, people in answer.caught)
        return [f"{OWN}: no way leads out from {said}. Add the arc that is missing, or turn one round."]
    if answer.enough is not None and answer.enough <= answer.greatest:
        return [f"{OWN}: a horizon of {answer.enough} is enough (law: walking bound)."]
    if answer.enough is not None:
        return [
            f"{OWN}: a horizon of {answer.enough} would be enough (law: walking bound), but {answer.greatest} is the greatest",
            "that can be written here. Choose a longer period, with rates and travels to match, and see whether a rate is too small.",
        ]
    if answer.horizon < answer.greatest:
        return ["Raise the horizon. If that doesn't help, see windows, and whether nodes can hold those who come in later."]
    return ["The horizon can't be raised. Choose a longer period, and see windows, and whether nodes can hold those who come in later."]


def sheet_of(answer: Union[Summary, Short], model: Model, name: str) -> Sheet:
    return short_sheet(answer, model, name) if isinstance(answer, Short) else summary_sheet(answer, model, name)


def run(given: Namespace) -> int:
    asked = Asked(given)
    answer = summary(asked.client, asked.model, asked.drawn)
    status = Status.REFUSED if isinstance(answer, Short) else Status.ANSWERED
    return put(sheet_of(answer, asked.model, asked.name), "summary", given, asked.client, status)


COMMAND = Command(
    "summary",
    run,
    "how soon can everybody be out, what does congestion cost, and what limits the time?",
    "",
    "examples/office.evac",
    (BUILDING, *SHARED),
)
