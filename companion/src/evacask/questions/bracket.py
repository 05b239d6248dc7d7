"""Between which seconds a building clears as it is drawn in metres: its rates and travels rounded to the one side and to the other.

What is drawn lies between the two roundings, and each clearing moment stands for a whole period. So all are out at the earliest C d s, by the side with
rates up and travels down, and before (C + 1) d s, by the side with rates down and travels up. That holds by the laws of rounded travels, rounded rates
and shorter periods (docs/maintainers/laws.md): without windows, and if each node has room for all who ever come into it. Elsewhere nothing is claimed.
"""
from __future__ import annotations

from dataclasses import dataclass
from typing import List, Optional, Tuple

from evacask.client.asking import accepted, plan_or_short
from evacask.client.blocks import Plan
from evacask.client.talk import Client
from evacask.errors import Refused, Shortfall
from evacask.model.building import Model
from evacask.model.drawn import PlanFault, Rounding
from evacask.model.drawn_building import DrawnBuilding, Scale, Shares, best_shares, building_text, shares_for, too_short
from evacask.model.ground import Ground
from evacask.model.shares import Count

# A bracket is narrow if it is no wider than this part of its later end. Periods that are tried for one, in seconds.
NARROW = 0.02
PERIODS = (300, 120, 60, 30, 20, 15, 10, 5, 4, 3, 2, 1)


@dataclass(frozen=True)
class Bracket:
    """When all are out, in seconds: not before `earliest` and before `latest`, each None if nothing is claimed, as `silent` says.

    `most` of `people` are out by the horizon at most, if not all are by the later side. `refused` says why the plan can't have this period.
    """

    period: int
    shares: Optional[Shares] = None
    earliest: Optional[int] = None
    latest: Optional[int] = None
    people: Count = 0
    most: Optional[Count] = None
    silent: Tuple[str, ...] = ()
    refused: str = ""
    ground: Ground = Ground.OWN

    @property
    def width(self) -> Optional[float]:
        """The width of the bracket, as a part of its later end."""
        if self.earliest is None or not self.latest:
            return None
        return (self.latest - self.earliest) / self.latest


def bracket(client: Client, drawn: DrawnBuilding, period: int, shares: Optional[int] = None) -> Bracket:
    """The bracket for periods of so many seconds, in so many shares of a person; in as few as lose little without a number."""
    wanted = best_shares(drawn, period) if shares is None else shares_for(drawn, period, shares)
    try:
        later = accepted(client, building_text(drawn, Scale(period, wanted.number, Rounding.LATER)))
        earlier = accepted(client, building_text(drawn, Scale(period, wanted.number, Rounding.EARLIER)))
    except (PlanFault, Refused) as fault:
        return Bracket(period, wanted, refused=str(fault))
    slow, fast = plan_or_short(client, later), plan_or_short(client, earlier)
    silent = reasons(later)
    short = too_short(drawn, period)
    if short:
        silent += (f"{' '.join(short.way)} takes {short.seconds:.1f} s, less than a period, so no earlier end is claimed",)
    is_claimed = not reasons(later)
    return Bracket(
        period,
        wanted,
        fast.interval[0] if isinstance(fast, Plan) and is_claimed and not short else None,
        slow.interval[1] if isinstance(slow, Plan) and is_claimed else None,
        later.people,
        slow.most if isinstance(slow, Shortfall) else None,
        silent,
    )


def reasons(model: Model) -> Tuple[str, ...]:
    """Why the laws say nothing of a building."""
    if model.windows:
        return ("the building has a window, so nothing is claimed",)
    coming = {it.name: it.start or 0 for it in model.rooms}
    for it in model.entrants:
        coming[it.name] += it.people
    full = [it.name for it in model.rooms if coming[it.name] > (it.capacity or 0)]
    return (f"{full[0]} has no room for all who come into it, so nothing is claimed",) if full else ()


def brackets(client: Client, drawn: DrawnBuilding, periods: List[int], shares: Optional[int] = None) -> Tuple[Bracket, ...]:
    """The bracket of each period."""
    return tuple(bracket(client, drawn, period, shares) for period in periods or [drawn.period])


def narrow_period(client: Client, drawn: DrawnBuilding, below: int) -> Optional[int]:
    """The longest of some periods, shorter than `below` seconds, whose bracket is narrow; None if none is."""
    for period in (it for it in PERIODS if it < below):
        width = bracket(client, drawn, period).width
        if width is not None and width <= NARROW:
            return period
    return None
