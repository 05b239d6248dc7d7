"""The picture of people out by time: the curve of the building, and below it the exits of the printed plan."""
from __future__ import annotations

from dataclasses import dataclass
from typing import List, Sequence, Tuple

from evacask.faces.page.markup import Markup, empty, joined, tag
from evacask.faces.page.picture import fitted, picture, ticks
from evacask.model.shares import Count

COLOURS = ("#1f5a99", "#a34400", "#1b6e3c", "#7a2d8c", "#8a1538", "#4b5320", "#00606b", "#5c4033")
WIDTH, HEIGHT, LEFT, TOP, RIGHT, BOTTOM = 790, 300, 64, 12, 190, 36
# At most so many points of a curve are drawn.
MOST_POINTS = 400


@dataclass(frozen=True)
class Curve:
    """How many are out by each moment, under a name; a moment lasts `period` seconds."""

    name: str
    arrivals: Tuple[Count, ...]
    period: int

    @property
    def last(self) -> int:
        """The seconds of its last moment."""
        return (len(self.arrivals) - 1) * self.period


@dataclass(frozen=True)
class Scale:
    """Where seconds and people are in the picture."""

    last: int
    most: Count

    def x(self, seconds: float) -> float:
        return LEFT + (WIDTH - LEFT - RIGHT) * seconds / max(1, self.last)

    def y(self, people: Count) -> float:
        return TOP + (HEIGHT - TOP - BOTTOM) * (1 - float(people) / max(1, float(self.most)))

    def points(self, curve: Curve, moments: Sequence[int]) -> str:
        return " ".join(f"{self.x(it * curve.period):.1f},{self.y(curve.arrivals[it]):.1f}" for it in moments)


def moments_of(curve: Curve) -> List[int]:
    """The moments of a curve that are drawn."""
    last = len(curve.arrivals) - 1
    return sorted({*range(0, last + 1, -(-last // MOST_POINTS) or 1), last})


def curve_picture(whole: Curve, exits: Sequence[Curve], others: Sequence[Curve] = ()) -> Markup:
    """The curve with areas for the exits, which add up to it; `others` are curves of other buildings, dashed."""
    scale = Scale(max(it.last for it in (whole, *others)), max(it.arrivals[-1] for it in (whole, *others)))
    drawn = [*grid(scale), *areas(scale, exits)]
    drawn.append(empty("polyline", points=scale.points(whole, moments_of(whole)), fill="none", stroke="#1a1a1a", stroke_width=2))
    for at, it in enumerate(others, len(exits)):
        drawn.append(empty("polyline", points=scale.points(it, moments_of(it)), **dashed(at)))
    title = f"People out by time: {whole.arrivals[-1]:,} after {whole.last:,} seconds. The table below has the numbers."
    return picture("curve", WIDTH, HEIGHT, title, joined([*drawn, *legend(exits, others)]))


def dashed(at: int) -> "dict[str, str]":
    """How the line of another building is drawn."""
    return {"fill": "none", "stroke": COLOURS[at % len(COLOURS)], "stroke_width": "2", "stroke_dasharray": "6 4"}


def areas(scale: Scale, exits: Sequence[Curve]) -> List[Markup]:
    """An area for each exit, on top of those before it."""
    below: Tuple[Count, ...] = ()
    found = []
    for at, it in enumerate(exits):
        below = below or (0,) * len(it.arrivals)
        above = tuple(low + own for low, own in zip(below, it.arrivals))
        moments, colour = moments_of(it), COLOURS[at % len(COLOURS)]
        points = f"{scale.points(Curve('', above, it.period), moments)} {scale.points(Curve('', below, it.period), moments[::-1])}"
        found.append(empty("polygon", points=points, fill=colour, fill_opacity=0.35, stroke=colour, stroke_width=0.7))
        below = above
    return found


def grid(scale: Scale) -> List[Markup]:
    """Lines and numbers of both axes."""
    found = []
    for people in ticks(scale.most, 5):
        y = f"{scale.y(people):.1f}"
        found.append(empty("line", x1=LEFT, x2=f"{scale.x(scale.last):.1f}", y1=y, y2=y, stroke="#c4c4c4"))
        found.append(tag("text", f"{people:,}", x=LEFT - 6, y=f"{scale.y(people) + 4:.1f}", text_anchor="end"))
    for seconds in ticks(scale.last, 8):
        found.append(tag("text", f"{seconds:,} s", x=f"{scale.x(seconds):.1f}", y=HEIGHT - 14, text_anchor="middle"))
    return found


def legend(exits: Sequence[Curve], others: Sequence[Curve]) -> List[Markup]:
    """The names of the curves with their last counts, at the right."""
    found, x = [], WIDTH - RIGHT + 20
    for at, it in enumerate([*exits, *others]):
        y = TOP + 20 * at
        if at < len(exits):
            found.append(empty("rect", x=x, y=y, width=12, height=12, fill=COLOURS[at % len(COLOURS)], fill_opacity=0.5))
        else:
            found.append(empty("line", x1=x, x2=x + 14, y1=y + 6, y2=y + 6, **dashed(at)))
        found.append(tag("text", fitted(f"{it.arrivals[-1]:,} {it.name}", 150), x=x + 18, y=y + 11))
    return found
