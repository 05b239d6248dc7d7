"""What each way costs and brings: when all are out without it, as it is, and with another rate.

Most of it needs no question, since the opening's plan and the cut of the period before its clearing moment answer it:

- a way that the plan doesn't enter can be lost: the plan is still one of the building, so all are out as soon as before;
- a rate that rises changes no value of a cut that the way isn't in: the cut still says that not all are out one period sooner;
- a rate that falls and stays above what the plan sends at a moment costs nothing;
- an exit with one arc into it is lost, or gets a rate, as that arc does.

What `spared` finds of the losses needs none either, or one for several.
"""
from __future__ import annotations

import sys
from dataclasses import dataclass
from typing import Callable, Dict, List, Optional, Tuple

from evacask.client.asking import session
from evacask.client.blocks import Outcome, Plan
from evacask.client.talk import Client
from evacask.errors import Broken
from evacask.model.building import Model, Way
from evacask.model.draft import MOST_RATE
from evacask.model.ground import Ground
from evacask.model.records import Records
from evacask.model.shares import Count, in_people, typed
from evacask.questions.spared import Names, harmless, only_ways_out, people_through
from evacask.questions.sweep import Answer, Scenario, sweep

Tell = Callable[[int, int], None]
# What is tried of some ways: "without" them, or "wide", with the rate.
Trial = Tuple[Names, str]


@dataclass(frozen=True)
class WayOutcome:
    """An arc by two names, or an exit, with all arcs into it, by one: what the building comes to without it, and with another rate."""

    names: Names
    without: Outcome
    wide: Outcome

    @property
    def order(self) -> Tuple[Count, int, int]:
        """The least for the way that costs most: whom it keeps inside first, then when all are out without it, then when with the rate."""
        inside = self.without.most if self.without.cleared is None else sys.maxsize
        return inside, -(self.without.cleared or 0), sys.maxsize if self.wide.cleared is None else self.wide.cleared


@dataclass(frozen=True)
class Sensitivity(Records):
    """All ways of a building, what costs most first, and when all are out as it is. `asked` counts the buildings that had to be planned."""

    cleared: int
    people: Count
    rate: Count
    ways: Tuple[WayOutcome, ...]
    asked: int
    ground: Ground = Ground.PROVED

    def records(self) -> List[Dict[str, object]]:
        """A dict for each way; moments are in periods, and None if not all can be out."""
        return [
            {
                "names": " ".join(it.names),
                "without": it.without.cleared,
                "without_out": it.without.most,
                "as_it_is": self.cleared,
                "widened": it.wide.cleared,
            }
            for it in self.ways
        ]


@dataclass
class Trials:
    """Plans scenarios of a building side by side, and counts them."""

    client: Client
    model: Model
    workers: int
    tell: Tell
    asked: int = 0

    def ask(self, scenarios: List[Scenario]) -> List[Outcome]:
        """The outcomes of some scenarios, in their order. Each is planned from its text: to undo a loss takes as long."""
        before = self.asked
        self.asked += len(scenarios)
        answers = sweep(self.client, self.model, scenarios, self.workers, lambda done, of: self.tell(before + done, before + of), steps=0)
        return [outcome(it) for it in answers]


def sensitivity(client: Client, model: Model, rate: Optional[Count] = None, workers: int = 4, tell: Tell = lambda done, of: None) -> Sensitivity:
    """Tries each way: without it, and with a rate, or with the greatest there is. `Shortfall` if the building can't be cleared as it is."""
    rate = in_people(MOST_RATE, model.shares) if rate is None else rate
    with session(client, model) as talk:
        opening, cut = talk.opening, talk.cut()
    crossed = {(it.names[0], it.names[1]) for it in cut.items if it.word == "arc"}
    as_arc = single_arcs(model)
    asked = {it: edits for it, edits in questions(model, rate, most_sent(opening), crossed).items() if it[0] not in as_arc}
    trials = Trials(client, model, workers, tell)
    found = spared(opening, [names for names, kind in asked if kind == "without"], trials)
    left = {it: edits for it, edits in asked.items() if it not in found}
    found.update(zip(left, trials.ask(list(left.values()))))
    same = Outcome(opening.cleared, opening.people)
    names: List[Names] = [*model.arcs, *((it.name,) for it in model.exits)]
    ways = [WayOutcome(it, *(found.get((as_arc.get(it, it), kind), same) for kind in ("without", "wide"))) for it in names]
    return Sensitivity(opening.cleared, opening.people, rate, tuple(sorted(ways, key=lambda it: it.order)), trials.asked)


def single_arcs(model: Model) -> Dict[Names, Way]:
    """The exits with one arc into them, and that arc."""
    into = {it.name: ways_into(model, it.name) for it in model.exits}
    return {(name,): ways[0] for name, ways in into.items() if len(ways) == 1}


def ways_into(model: Model, name: str) -> List[Way]:
    return [way for way in model.arcs if way[1] == name]


def spared(opening: Plan, losses: List[Names], trials: Trials) -> Dict[Trial, Outcome]:
    """The outcomes of the losses that need no plan of their own."""
    model, through = opening.model, people_through(opening)
    found = only_ways_out(opening, {names: ways_into(model, names[0]) if len(names) == 1 else [(names[0], names[1])] for names in losses})
    others = [(it[0], it[1]) for it in losses if len(it) == 2 and it not in found]
    lost = harmless(sorted(others, key=lambda it: (through[it], it)), opening.cleared, trials.ask)
    found.update((it, Outcome(opening.cleared, opening.people)) for it in lost)
    return {(names, "without"): it for names, it in found.items()}


def outcome(answer: Answer) -> Outcome:
    """The outcome of a trial, which the program doesn't refuse."""
    if answer.most is None:
        raise Broken(f"the program refused {answer.refused_edit or 'an edit'} of its own building with {answer.refused}")
    return Outcome(answer.cleared, answer.most)


def most_sent(plan: Plan) -> Dict[Way, Count]:
    """The most people whom a plan sends into each arc at a moment; arcs that nobody enters are left out."""
    sent: Dict[Way, Count] = {}
    for it in plan.moves:
        sent[it.tail, it.head] = max(it.people, sent.get((it.tail, it.head), 0))
    return sent


def questions(model: Model, rate: Count, sent: Dict[Way, Count], crossed: "set[Way]") -> Dict[Trial, List[str]]:
    """The edits of each question that has to be asked, by the way and what is tried."""

    def keeps(way: Way) -> bool:
        """Whether this rate needs no question."""
        return way not in crossed if rate >= model.arcs[way].rate else sent.get(way, 0) <= rate

    asked: Dict[Trial, List[str]] = {}
    for way in model.arcs:
        if way in sent:
            asked[way, "without"] = ["shut %s %s" % way]
        if not keeps(way):
            asked[way, "wide"] = [rate_edit(way, rate)]
    for name in (it.name for it in model.exits):
        into = ways_into(model, name)
        if any(way in sent for way in into):
            asked[(name,), "without"] = [f"shutexit {name}"]
        if not all(map(keeps, into)):
            asked[(name,), "wide"] = [rate_edit(way, rate) for way in into]
    return asked


def rate_edit(way: Way, rate: Count) -> str:
    """The edit that gives an arc another rate."""
    return f"rate {way[0]} {way[1]} {typed(rate)}"
