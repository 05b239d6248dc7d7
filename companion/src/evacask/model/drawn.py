"""Ways in metres, and the travel and the rate that follow from them by the figures of `passages`. This is evacask's own arithmetic, not proved.

A plan is a building in which lines `way FROM TO PART ..` stand in place of arcs. Lengths and widths are metres, flows people a second.
"""
from __future__ import annotations

import enum
import math
import re
from dataclasses import dataclass
from typing import Callable, Dict, Iterator, Optional, Sequence, Tuple

from evacask.errors import EvacaskError
from evacask.model.building import Way
from evacask.model.draft import MOST_RATE
from evacask.model.passages import DOOR, GREATEST_FLOWS, LEAF, LEVEL, SIDES, STAIRS, crowd_speed, free_speed, speed

LONGEST_TRAVEL = 600


class PlanFault(EvacaskError):
    """What is wrong about a line of a plan, by its number from 1."""

    def __init__(self, name: str, line: int, what: str):
        super().__init__(f"{name}, line {line}: {what}")
        self.name, self.line, self.what = name, line, what


class Wrong(ValueError):
    """What is wrong about the words of a way."""


class Rounding(enum.Enum):
    """To which side numbers are rounded."""

    LATER = "rates down, travels up"
    EARLIER = "rates up, travels down"


@dataclass(frozen=True)
class Part:
    """A part of a way: its kind, its length, its effective width, and the people a second that it lets through or to which it is held.

    `held` bounds the flow and with it the speed, `comes` only the speed. `pace` is a speed of its own, in metres a second.
    """

    kind: str
    length: float = 0.0
    width: Optional[float] = None
    most: float = math.inf
    held: float = math.inf
    comes: float = math.inf
    pace: Optional[float] = None

    def seconds(self, flow: float) -> float:
        """The time on it if so many people a second walk there."""
        if not self.length:
            return 0.0
        if self.pace is not None:
            return self.length / self.pace
        return self.length / (speed(self.kind, flow / self.width) if self.width else free_speed(self.kind))


@dataclass(frozen=True)
class DrawnWay:
    """A way as it is drawn: its line, the seconds that it takes, and the people a second whom it lets in."""

    way: Way
    line: int
    seconds: float
    flow: float

    def travel(self, period: int, rounding: Rounding) -> int:
        """Its periods of so many seconds; at least 1, since the language has no shorter travel."""
        exact = round(self.seconds / period, 9)
        return max(1, math.ceil(exact) if rounding is Rounding.LATER else math.floor(exact))

    def rate(self, period: int, shares: int, rounding: Rounding) -> int:
        """Its shares of people a period."""
        exact = round(self.flow * period * shares, 9)
        return math.floor(exact) if rounding is Rounding.LATER else math.ceil(exact)

    def loss(self, period: int, shares: int) -> float:
        """The part of its flow that a rate rounded down loses."""
        exact = round(self.flow * period * shares, 9)
        return (exact - math.floor(exact)) / exact


class Words:
    """The words that are left of a way."""

    def __init__(self, words: Sequence[str]):
        self.words = iter(words)

    def number(self) -> float:
        """The next word as a number of metres or people, above 0."""
        word = next(self.words, None)
        if word is None:
            raise Wrong("a number is missing at its end")
        if not re.fullmatch(r"[0-9]{1,4}(\.[0-9]{1,9})?", word):
            raise Wrong(f"{word} is no number up to 9999, with a point if it has a fraction")
        if not float(word):
            raise Wrong(f"{word} is out of its range")
        return float(word)

    def count(self) -> float:
        """The next word as a whole number."""
        number = self.number()
        if number != int(number):
            raise Wrong(f"{number} is no whole number")
        return number

    def stair(self) -> Part:
        """A stair, by the next three words."""
        length, width, kind = self.number(), self.number(), next(self.words, "")
        if kind not in STAIRS:
            raise Wrong(f"a stair needs its riser/tread, one of {', '.join(STAIRS)}")
        return passage(kind, length, width)

    def doors(self, count: float) -> Part:
        """Doors that are held open, alike, by their clear width."""
        return Part(LEVEL, most=GREATEST_FLOWS[LEVEL] * count * wide_enough(self.number() - DOOR))

    def crowd(self) -> Part:
        """A walk in a crowd of so many people on a square metre."""
        length, density = self.number(), self.number()
        pace = crowd_speed(density)
        if pace <= 0:
            raise Wrong(f"at {density} people on a square metre nobody moves")
        return Part(LEVEL, length, pace=pace)


PART_OF: Dict[str, Callable[[Words], Part]] = {
    "free": lambda words: Part(LEVEL, words.number()),
    "crowd": Words.crowd,
    "level": lambda words: passage(LEVEL, words.number(), words.number()),
    "stair": Words.stair,
    "escalator": lambda words: Part(LEVEL, words.number(), pace=words.number(), most=words.number()),
    "door": lambda words: words.doors(1),
    "doors": lambda words: words.doors(words.count()),
    "leaves": lambda words: Part(LEVEL, most=LEAF * words.count()),
    "people": lambda words: Part(LEVEL, held=words.number()),
    "comes": lambda words: Part(LEVEL, comes=words.number()),
}


def passage(kind: str, length: float, clear: float) -> Part:
    """A corridor or a stair of a length and a clear width."""
    width = wide_enough(clear - SIDES[kind])
    return Part(kind, length, width, GREATEST_FLOWS[kind] * width)


def wide_enough(effective: float) -> float:
    if effective <= 0:
        raise Wrong("a width is no wider than its boundary layers")
    return effective


def parts_of(words: Sequence[str]) -> Iterator[Part]:
    """The parts that the words of a way name."""
    rest = Words(words)
    for word in rest.words:
        if word not in PART_OF:
            raise Wrong(f"{word} is no part of a way: they are {', '.join(PART_OF)}")
        yield PART_OF[word](rest)


def drawn_way(fields: Sequence[str], line: int) -> DrawnWay:
    """The way of a line `way FROM TO PART ..`; `Wrong` if it is none."""
    if len(fields) < 3:
        raise Wrong("a way needs the node from which it leads, and the one to which it leads")
    parts = list(parts_of(fields[3:]))
    most = min((part.most for part in parts), default=math.inf)
    if math.isinf(most):
        raise Wrong("nothing says how many it lets through: a door, a width or leaves")
    flow = min(most, *(part.held for part in parts))
    walked = min(flow, *(part.comes for part in parts))
    return DrawnWay((fields[1], fields[2]), line, sum(part.seconds(walked) for part in parts), flow)


def arc_numbers(drawn: DrawnWay, period: int, shares: int, rounding: Rounding) -> Tuple[int, int]:
    """Travel and rate of a way; `Wrong` if the language has no such numbers."""
    travel, rate = drawn.travel(period, rounding), drawn.rate(period, shares, rounding)
    if travel > LONGEST_TRAVEL:
        raise Wrong(f"it takes {travel} periods of {period} s, and the most is {LONGEST_TRAVEL}")
    if rate > MOST_RATE:
        raise Wrong(f"its rate would be {rate}, in {shares} shares of a person, and the most is {MOST_RATE}")
    return travel, rate
