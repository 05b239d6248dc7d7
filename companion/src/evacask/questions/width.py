"""How wide is wide enough: the least rate of a way at which all are out in a time, and back to clear widths."""
from __future__ import annotations

import math
from dataclasses import dataclass
from typing import Dict, List, Optional, Tuple

from evacask.client.asking import study
from evacask.client.talk import Client
from evacask.errors import Broken, Refused
from evacask.model.building import Model
from evacask.model.ground import Ground
from evacask.model.passages import DOOR, GREATEST_FLOWS, LEAF, LEVEL, SIDES, STAIRS
from evacask.model.records import Records
from evacask.model.shares import Count
from evacask.model.seconds import End, last_moment_within


@dataclass(frozen=True)
class Leaves:
    """Leaves that must be pushed open: how many, in how many doors (two to each), and all their clear widths together in metres."""

    leaves: int
    doors: int
    width: float


@dataclass(frozen=True)
class Widths:
    """The least clear widths in metres, rounded up to the centimetre, that let a rate through. This is own arithmetic, by docs/users/modelling.md."""

    door: float
    level: float
    stairs: Tuple[Tuple[str, float], ...]
    leaves: Leaves
    ground: Ground = Ground.OWN


@dataclass(frozen=True)
class Width(Records):
    """The least `rate` of an arc at which all are out within `seconds`, which is by `moment`; None if no rate up to 10,000 is enough.

    `most` is how many can be out by then with one less, or with 10,000 if no rate is enough; None of rate 0. `now` is the rate that the arc has.
    """

    tail: str
    head: str
    seconds: int
    moment: int
    now: Count
    people: Count
    rate: Optional[Count]
    most: Optional[Count]
    widths: Optional[Widths]
    ground: Ground = Ground.PROVED

    def records(self) -> List[Dict[str, object]]:
        """One dict."""
        return [{"from": self.tail, "to": self.head, "moment": self.moment, "now": self.now, "rate": self.rate, "most": self.most}]


def width(client: Client, model: Model, tail: str, head: str, seconds: int, end: End = End.LATER) -> Width:
    """The least rate of the arc between two nodes. `Refused` by 33 if the time is above the horizon, or ends before the first period."""
    arc, moment = model.arc(tail, head), asked_moment(model, seconds, end)
    with study(client, model) as talk:
        least = talk.least(arc.tail, arc.head, moment)
    if (least.tail, least.head, least.moment) != (arc.tail, arc.head, moment):
        raise Broken(f"the program answered of {least.tail} {least.head} {least.moment} in place of {arc.tail} {arc.head} {moment}")
    widths = widths_of(least.rate, model.period) if least.rate else None
    return Width(arc.tail, arc.head, seconds, moment, arc.rate, model.people, least.rate, least.most, widths)


def asked_moment(model: Model, seconds: int, end: End) -> int:
    """The last moment whose end is within some seconds."""
    moment, greatest = last_moment_within(seconds, model.period, end), model.seconds(model.horizon + 1)
    if moment > model.horizon:
        raise Refused(33, 0, f"{seconds} s", "Ask for at most that, or raise the horizon.", f"The plan looks {greatest} s ahead.")
    if moment < 0:
        raise Refused(33, 0, f"{seconds} s", "Ask for at least that.", f"The first period ends after {model.period} s.")
    return moment


def widths_of(rate: Count, period: int) -> Widths:
    """The clear widths for so many people in a period."""
    stairs = tuple((kind, clear_width(rate, period, kind, SIDES[kind])) for kind in STAIRS)
    return Widths(
        clear_width(rate, period, LEVEL, DOOR),
        clear_width(rate, period, LEVEL, SIDES[LEVEL]),
        stairs,
        leaves_for(rate, period),
    )


def leaves_for(rate: Count, period: int) -> Leaves:
    """The leaves that let so many people through, each of which must be pushed open."""
    leaves = math.ceil(float(rate) / period / LEAF - 1e-9)
    doors = math.ceil(leaves / 2)
    return Leaves(leaves, doors, clear_width(rate, period, LEVEL, doors * DOOR))


def clear_width(rate: Count, period: int, kind: str, sides: float) -> float:
    """The least clear width in metres, with so much for the sides, rounded up to the centimetre."""
    return math.ceil((float(rate) / period / GREATEST_FLOWS[kind] + sides) * 100 - 1e-6) / 100
