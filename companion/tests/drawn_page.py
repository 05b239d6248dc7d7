"""What a page about a plan in metres should say besides, worked out from the plan by the figures of docs/FIGURES.md. Nothing of evacask is used."""
import math
from dataclasses import dataclass
from typing import Dict, Iterator, List, Tuple

from companion.tests.planned_page import Building

# The figures of "Flows and speeds": k in metres a second, the greatest flow in people a second and metre, and both boundary layers in metres.
FIGURES: Dict[str, Tuple[float, float, float]] = {
    "level": (1.40, 1.30, 0.40),
    "191/254": (1.00, 0.94, 0.30),
    "178/279": (1.08, 1.01, 0.30),
    "165/305": (1.16, 1.09, 0.30),
    "165/330": (1.23, 1.16, 0.30),
}
DOORS, LEAF, SLOWING, FREE_DENSITY, FREE_SHARE = 0.30, 50 / 60, 0.266, 0.54, 0.85
# How many words come after the name of each part of a way.
WORDS = {"free": 1, "crowd": 2, "level": 2, "stair": 3, "escalator": 3, "door": 1, "doors": 2, "leaves": 1, "people": 1, "comes": 1}


def speed(kind: str, flow: float) -> float:
    """Metres a second if so many people a second and metre come: a queue has the speed of the greatest flow."""
    pace, greatest, _ = FIGURES[kind]
    free = FREE_SHARE * pace
    if flow <= FREE_DENSITY * free:
        return free
    if flow >= greatest - 1e-9:
        return pace / 2
    low, high = FREE_DENSITY, 1 / (2 * SLOWING)
    for _ in range(60):
        middle = (low + high) / 2
        low, high = (middle, high) if middle * pace * (1 - SLOWING * middle) < flow else (low, middle)
    return min(free, pace * (1 - SLOWING * low))


@dataclass(frozen=True)
class Drawn:
    """A way in metres: its two nodes, the seconds that it takes, and the people a second whom it lets in."""

    tail: str
    head: str
    seconds: float
    flow: float

    def arc(self, period: int, shares: int, later: bool) -> str:
        """The arc whose numbers are rounded to the later side, or to the earlier one."""
        travel, rate = round(self.seconds / period, 9), round(self.flow * period * shares, 9)
        if later:
            return f"arc {self.tail} {self.head} {max(1, math.ceil(travel))} {math.floor(rate)}"
        return f"arc {self.tail} {self.head} {max(1, math.floor(travel))} {math.ceil(rate)}"


def parts(words: List[str]) -> Iterator[Tuple[str, List[str]]]:
    """The parts of a way, with their words."""
    while words:
        count = WORDS[words[0]] + 1
        yield words[0], words[1:count]
        words = words[count:]


def drawn(line: List[str]) -> Drawn:
    """The way of a line `way FROM TO PART ..`."""
    most: List[float] = []
    held: List[float] = []
    comes: List[float] = []
    walks: List[Tuple[str, float, float]] = []  # (kind, length, and effective width, or 0 if nobody is in the way)
    seconds = 0.0
    for part, words in parts(line[3:]):
        numbers = [float(it) for it in words if "/" not in it]
        if part in ("level", "stair"):
            kind = words[2] if part == "stair" else part
            width = numbers[1] - FIGURES[kind][2]
            walks.append((kind, numbers[0], width))
            most.append(FIGURES[kind][1] * width)
        elif part == "free":
            walks.append(("level", numbers[0], 0.0))
        elif part == "crowd":
            free = FREE_SHARE * 1.40
            seconds += numbers[0] / (free if numbers[1] <= FREE_DENSITY else 1.40 * (1 - SLOWING * numbers[1]))
        elif part == "escalator":
            seconds += numbers[0] / numbers[1]
            most.append(numbers[2])
        elif part in ("door", "doors"):
            most.append(1.30 * math.prod(numbers[:-1]) * (numbers[-1] - DOORS))
        elif part == "leaves":
            most.append(LEAF * numbers[0])
        else:
            (held if part == "people" else comes).append(numbers[0])
    flow = min(most + held)
    for kind, length, width in walks:
        seconds += length / speed(kind, min([flow, *comes]) / width if width else 0.0)
    return Drawn(line[1], line[2], seconds, flow)


class Plan:
    """A plan in metres, in the shares of a person that its page counts in."""

    def __init__(self, text: bytes, listing: str) -> None:
        self.lines = [it.split() for it in text.decode().splitlines()]
        self.shares = next((int(it.split()[1]) for it in listing.splitlines() if it.startswith("#shares ")), 1)
        self.period = next(int(it[1]) for it in self.lines if it[:1] == ["period"])
        self.ways = {tuple(it[1:3]): drawn(it) for it in self.lines if it[:1] == ["way"]}

    def arcs(self, later: bool) -> List[str]:
        return [it.arc(self.period, self.shares, later) for it in self.ways.values()]

    def faults(self, listing: str) -> List[str]:
        """What of a page's listing isn't the plan rounded to the later side."""
        own = [it for it in listing.splitlines() if it.startswith("arc ")]
        return [f"listing {it}" for it in {*own} ^ {*self.arcs(True)}]

    def bracket(self, program: str, listing: str) -> str:
        """The sentence between which seconds all can be out: the later side is that of the listing, and the earlier one has other arcs."""
        rounded = dict(zip(self.arcs(True), self.arcs(False)))
        earlier = "\n".join(rounded.get(it, it) for it in listing.splitlines()) + "\n"
        first, last = (self.cleared(program, it) for it in (earlier, listing))
        begin = "" if any(round(it.seconds / self.period, 9) < 1 for it in self.ways.values()) else f"not before {first * self.period:,} s and "
        return f"Whichever way the numbers of the drawing in metres are rounded, all can be out {begin}before {(last + 1) * self.period:,} s."

    def cleared(self, program: str, text: str) -> int:
        """The period by which all are out of a building."""
        data = text.encode()
        found = next(it for it in Building(program, data).ask(["solve"], data).splitlines() if it.startswith("cleared "))
        return int(found.split(" ")[1])
