"""A lower bound of a covering problem: the least cost of any x, whole or not, with A x >= b and low <= x <= high.

It is found by the dual problem, max b y - u w with A' y - w <= c. There y = w = 0 is feasible at once, since no cost is negative, so one phase of the
simplex method is enough. The method runs in floating point. Its y is then rounded and scaled until it is feasible, so the bound is exact
whatever was rounded.
"""
from __future__ import annotations

from dataclasses import dataclass
from fractions import Fraction
from typing import Dict, List, Optional, Sequence, Tuple

TINY = 1e-9
MOST_PIVOTS, STEEPEST_PIVOTS = 5_000, 300
# A price of the dual is rounded to so many parts of 1. Before and after the pivots about so much is done for each row and column.
PARTS, OVERHEAD = 10**9, 40
Rows = Sequence[Tuple[Dict[int, int], int]]


@dataclass(frozen=True)
class Relaxed:
    """No x in the bounds costs less than `bound`, exact. `x` is about the cheapest, and `work` the numbers of the tableau that were changed."""

    bound: Fraction
    x: List[float]
    work: int


@dataclass
class Tableau:
    """The dual problem: a line for each column of the primal one, the goal below them, and which variable each line stands for."""

    lines: List[List[float]]
    goal: List[float]
    basis: List[int]
    work: int = 0

    def solve(self) -> None:
        """Pivots until the goal can't rise, or for so many steps: any basis gives a bound."""
        for step in range(MOST_PIVOTS):
            enter = self.entering(step)
            if enter < 0:
                return
            at = self.leaving(enter)
            if at < 0:
                return
            self.pivot(at, enter)

    def entering(self, step: int) -> int:
        """The variable that enters: the steepest at first, and later the first, by which no pivot comes twice. -1 at the end."""
        variables = range(len(self.goal) - 1)
        if step < STEEPEST_PIVOTS:
            at = min(variables, key=self.goal.__getitem__, default=-1)
            return at if at >= 0 and self.goal[at] < -TINY else -1
        return next((it for it in variables if self.goal[it] < -TINY), -1)

    def leaving(self, enter: int) -> int:
        """The line that allows the least rise, -1 if all allow any."""
        allowed = [(line[-1] / line[enter], self.basis[at], at) for at, line in enumerate(self.lines) if line[enter] > TINY]
        return min(allowed)[2] if allowed else -1

    def pivot(self, at: int, enter: int) -> None:
        by = self.lines[at][enter]
        line = self.lines[at] = [value / by for value in self.lines[at]]
        source = [(column, value) for column, value in enumerate(line) if value]
        for other in (*self.lines, self.goal):
            factor = other[enter]
            if factor and other is not line:
                self.work += len(source)
                for column, value in source:
                    other[column] -= factor * value
        self.work += len(line)
        self.basis[at] = enter


def relaxed(rows: Rows, costs: Sequence[int], low: Sequence[int], high: Sequence[Optional[int]]) -> Optional[Relaxed]:
    """The bound and about the x that has it; None if no x within `low` and `high` keeps all rows."""
    needs = [need - sum(amount * low[at] for at, amount in row.items()) for row, need in rows]
    room = [None if most is None else most - least for least, most in zip(low, high)]
    if any(is_short(row, need, room) for (row, _), need in zip(rows, needs)):
        return None
    bounded = [at for at, most in enumerate(room) if most is not None]
    tableau = tableau_of(rows, costs, needs, room, bounded)
    tableau.solve()
    dual = [0] * len(rows)
    for variable, line in zip(tableau.basis, tableau.lines):
        if variable < len(rows) and line[-1] > TINY:
            dual[variable] = round(line[-1] * PARTS)
    first = len(rows) + len(bounded)
    x = [least + max(0.0, tableau.goal[first + at]) for at, least in enumerate(low)]
    base = sum(cost * least for cost, least in zip(costs, low))
    work = tableau.work + OVERHEAD * (len(rows) + len(costs))
    return Relaxed(base + exact_bound(rows, costs, needs, room, dual), x, work)


def is_short(row: Dict[int, int], need: int, room: Sequence[Optional[int]]) -> bool:
    """Whether a row can't be kept, whatever is bought."""
    if need <= 0 or any(room[at] is None for at in row):
        return False
    return sum(amount * (room[at] or 0) for at, amount in row.items()) < need


def tableau_of(rows: Rows, costs: Sequence[int], needs: List[int], room: Sequence[Optional[int]], bounded: List[int]) -> Tableau:
    """The tableau of the dual: a variable for each row, for each bounded column, and for each line what is left."""
    size = len(costs)
    width = len(rows) + len(bounded) + size + 1
    lines = [[0.0] * width for _ in range(size)]
    for variable, (row, _) in enumerate(rows):
        for at, amount in row.items():
            lines[at][variable] = float(amount)
    for variable, at in enumerate(bounded, len(rows)):
        lines[at][variable] = -1.0
    first = len(rows) + len(bounded)
    for at, cost in enumerate(costs):
        lines[at][first + at], lines[at][-1] = 1.0, float(cost)
    goal = [-float(it) for it in needs] + [float(room[at] or 0) for at in bounded] + [0.0] * (size + 1)
    return Tableau(lines, goal, [first + at for at in range(size)])


def exact_bound(rows: Rows, costs: Sequence[int], needs: List[int], room: Sequence[Optional[int]], dual: List[int]) -> Fraction:
    """What a dual solution, in parts of 1, shows. First it is scaled so that no unbounded column is paid more than it costs."""
    load = [0] * len(costs)
    for (row, _), price in zip(rows, dual):
        if price:
            for at, amount in row.items():
                load[at] += amount * price
    scale = Fraction(1, PARTS)
    for at, paid in enumerate(load):
        if room[at] is None and paid * scale > costs[at]:
            scale = Fraction(costs[at], paid)
    bound = scale * sum(price * need for price, need in zip(dual, needs))
    for at, most in enumerate(room):
        if most is not None and scale * load[at] > costs[at]:
            bound -= (scale * load[at] - costs[at]) * most
    return max(Fraction(0), bound)
