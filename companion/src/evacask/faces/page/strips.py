"""The picture of storeys over time: a strip for each, darker while more stay there."""
from __future__ import annotations

from typing import List, Sequence, Tuple

from evacask.faces.page.markup import Markup, empty, joined, tag
from evacask.faces.page.picture import fitted, picture, ticks
from evacask.model.shares import Count
from evacask.questions.report import Storey

WIDTH, ROW, LEFT, RIGHT = 760, 18, 130, 40
MOST_BINS, MOST_STOREYS = 120, 40
# The red, green and blue of a part in which most stay; with fewer it is nearer to white.
DARKEST = (11, 79, 138)


def strips_picture(storeys: Sequence[Storey], period: int) -> Markup:
    """The strips of some storeys, the highest on top."""
    last = len(storeys[0].stay) - 1
    most = max([*(it.most for it in storeys), 1])
    drawn: List[Markup] = []
    for at, it in enumerate(storeys):
        drawn.append(tag("text", fitted(it.name or f"{it.number}", LEFT - 14), x=4, y=at * ROW + 13))
        drawn += [cell(at, place, float(people) / float(most)) for place, people in bins(it.stay) if people]
    y = ROW * len(storeys) + 16
    drawn += [
        tag("text", f"{seconds:,} s", x=f"{x_of(seconds / period / (last + 1)):.0f}", y=y, text_anchor="middle")
        for seconds in ticks(last * period, 8)
    ]
    title = "People who stay on each storey over time; darker is more. The table below has the greatest numbers."
    return picture("strips", WIDTH, y + 8, title, joined(drawn))


def x_of(share: float) -> float:
    """Where a share of the time is."""
    return LEFT + (WIDTH - LEFT - RIGHT) * share


def bins(stay: Sequence[Count]) -> List[Tuple[Tuple[float, float], Count]]:
    """The greatest counts within parts of the time, with the part's begin and end as shares of it."""
    number = min(len(stay), MOST_BINS)
    bounds = [len(stay) * it // number for it in range(number + 1)]
    return [((first / len(stay), end / len(stay)), max(stay[first:end])) for first, end in zip(bounds, bounds[1:])]


def cell(row: int, place: Tuple[float, float], share: float) -> Markup:
    """A part of a strip."""
    x, end = x_of(place[0]), x_of(place[1])
    colour = "#" + "".join(f"{round(255 - (255 - it) * (0.12 + 0.88 * share)):02x}" for it in DARKEST)
    return empty("rect", x=f"{x:.1f}", y=row * ROW + 1, width=f"{end - x + 0.3:.1f}", height=ROW - 2, fill=colour)
