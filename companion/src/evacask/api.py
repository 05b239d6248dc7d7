"""A building, and what can be asked about it."""
from __future__ import annotations

import os
import pathlib
from concurrent.futures import Executor
from dataclasses import dataclass, field
from typing import Any, Callable, ContextManager, List, Mapping, Optional, Sequence, Union

from evacask.client import asking
from evacask.client.blocks import Plan
from evacask.client.dialogue import Replan, Session, Study
from evacask.client.program import found_program
from evacask.client.reports import Verdict
from evacask.client.talk import Client, Source
from evacask.errors import InputError, NotProved
from evacask.model.building import Model
from evacask.model.crossings import Place
from evacask.model.edits import edited
from evacask.model.lines import text_of
from evacask.model.seconds import End
from evacask.model.shares import Count
from evacask.questions import admit as of_admissions
from evacask.questions import assign as of_assignments
from evacask.questions import improve as of_improvements
from evacask.questions import improve_budget as of_budgets
from evacask.questions import losses as of_losses
from evacask.questions import observed as of_drills
from evacask.questions import ranges as of_ranges
from evacask.questions import rescue as of_rescues
from evacask.questions import compare as of_edits
from evacask.questions import review as of_doubts
from evacask.questions import sensitivity as of_ways
from evacask.questions import summary as of_building
from evacask.questions import sweep as of_scenarios
from evacask.questions import unforeseen as of_surprises
from evacask.questions import why as of_cuts
from evacask.questions.improve import Improvement, Widening
from evacask.questions import width as of_width

Tell = Callable[[int, int], None]


def quiet(done: int, of: int) -> None:
    """Says nothing of how far a long question is."""


@dataclass(frozen=True)
class Building:
    """A building that the program accepts, and who is asked about it. Two are equal if their texts are. Nothing is planned before it is asked for."""

    model: Model
    client: Client = field(compare=False, repr=False)

    @property
    def text(self) -> str:
        return self.model.text

    @property
    def source(self) -> Source:
        """What answers: the sum of the program, and the logic in which it is proved."""
        return self.client.source

    def edited(self, *edits: str) -> "Building":
        """The building after some edits, as `rate WP1.1 LO1.1 8`; `Refused` for the first that can't be made."""
        return Building(edited(self.model, edits), self.client)

    def solve(self, horizon: Optional[int] = None) -> Plan:
        """A plan that has the most people out by every period; `Shortfall` if not everybody can be out by the horizon."""
        return asking.solve(self.client, self.model, horizon)

    def check(self, block: bytes) -> Verdict:
        """Whether a block is a right answer about this building, whoever wrote it."""
        return asking.check(self.client, self.model, block)

    def session(self) -> ContextManager[Session]:
        """A session, in which each edit is answered with a plan, and undone by `undo`."""
        return asking.session(self.client, self.model)

    def study(self) -> ContextManager[Study]:
        """A study of exits and of least rates."""
        return asking.study(self.client, self.model)

    def replan(self) -> ContextManager[Replan]:
        """A session whose plan is carried out."""
        return asking.replan(self.client, self.model)

    def why(self, period: Optional[int] = None) -> of_cuts.Why:
        """The cut of a period, or of the one before all are out."""
        return of_cuts.why(self.client, self.model, period)

    def summary(self) -> Union[of_building.Summary, of_building.Short]:
        """How soon all can be out, what congestion costs, and what decides; or how many can be out by the horizon."""
        return of_building.summary(self.client, self.model)

    def review(self) -> of_doubts.Review:
        """What is often a mistake."""
        return of_doubts.review(self.client, self.model)

    def width(self, tail: str, head: str, seconds: int, end: End = End.LATER) -> of_width.Width:
        """The least rate of an arc at which all are out within some seconds, and the clear widths for it."""
        return of_width.width(self.client, self.model, tail, head, seconds, end)

    def compare(self, *groups: Sequence[str]) -> of_edits.Comparison:
        """The building, and the building after each group of edits, side by side."""
        return of_edits.compare(self.client, self.model, groups)

    def sensitivity(self, rate: Optional[Count] = None, workers: int = 4, tell: Tell = quiet) -> of_ways.Sensitivity:
        """What each way costs and brings."""
        return of_ways.sensitivity(self.client, self.model, rate, workers, tell)

    def sweep(
        self, scenarios: Sequence[of_scenarios.Scenario], workers: int = 4, tell: Tell = quiet, executor: Optional[Executor] = None
    ) -> List[of_scenarios.Answer]:
        """The answer to each scenario, which is some edits. `executor` may be any of concurrent.futures, as that of a cluster."""
        return of_scenarios.sweep(self.client, self.model, scenarios, workers, tell, executor)

    def assign(self, effort: int = 1, nearest: bool = False) -> of_assignments.Assignment:
        """One way for each room, certified by the program's check, and how near that is to the best."""
        return of_assignments.assign(self.client, self.model, effort, nearest)

    def improve(self, moment: int, widenings: Optional[Sequence[Widening]] = None) -> Improvement:
        """The cheapest widenings by which all are out by a moment, in periods; each unit of a rate costs 1 if none are given."""
        return of_improvements.improve(self.client, self.model, moment, widenings)

    def improve_within(self, budget: int, widenings: Optional[Sequence[Widening]] = None) -> Improvement:
        """The earliest moment for at most so much."""
        return of_budgets.improve_within(self.client, self.model, budget, widenings)

    def ranges(self, given: of_ranges.Ranges) -> of_ranges.Range:
        """When all are out at the earliest and at the latest, if rates, travels and starts are known as intervals."""
        return of_ranges.ranges(self.client, self.model, given)

    def losses(self, count: int = 2, places: Optional[Sequence[Place]] = None, top: int = 5, tell: Tell = quiet) -> of_losses.Losses:
        """The worst losses of so many arcs (two names each) or exits (one name) at once."""
        return of_losses.losses(self.client, self.model, count, places, top, tell)

    def admit(self, moment: int) -> of_admissions.Admission:
        """How many people all rooms may hold for all to be out by a moment."""
        return of_admissions.admit(self.client, self.model, moment)

    def admit_room(self, room: str, moment: int) -> of_admissions.RoomAdmission:
        """How many people one room may hold, with the others as they are."""
        return of_admissions.admit_room(self.client, self.model, room, moment)

    def rescue(self, moment: Optional[int] = None) -> of_rescues.Rescue:
        """The most people who can be out by a moment, or by the horizon, and a best plan for them."""
        return of_rescues.rescue(self.client, self.model, moment)

    def observed(self, counts: Mapping[str, Sequence[of_drills.Counted]], start: int = 0) -> of_drills.Observed:
        """A drill beside the best plan: of each exit the seconds and how many had come out in all up to then."""
        return of_drills.observed(self.client, self.model, counts, start)

    def unforeseen(self, edits: Sequence[str], moment: int) -> of_surprises.Unforeseen:
        """What edits cost that are made at a moment, and that nobody knew of before."""
        return of_surprises.unforeseen(self.client, self.model, edits, moment)


def reads(text: str, client: Optional[Client] = None, proved: bool = False) -> Building:
    """A building from its text; `Refused` if the program refuses it, and `NotProved` if a proved program is asked for and this one isn't."""
    asked: Any = client or found_program(proved=proved)
    if proved and not asked.source.is_proved:
        raise NotProved("the program isn't proved on this machine: ./build makes the proved program")
    return Building(asking.accepted(asked, text), asked)


def read(path: Union[str, "os.PathLike[str]"], client: Optional[Client] = None, proved: bool = False) -> Building:
    """A building from a file; `InputError` if it can't be read."""
    try:
        data = pathlib.Path(path).read_bytes()
    except (OSError, ValueError) as fault:
        raise InputError(f"{path} can't be read: {getattr(fault, 'strerror', None) or fault}") from None
    return reads(text_of(data), client, proved)
