"""Whole numbers x of least cost with A x >= b and 0 <= x <= u. All numbers are whole, and none in A and the costs is negative.

Branch and bound over linear programs (see `relaxed`). Each bound is exact. The work is counted and not timed, so the same input has the same answer.
"""
from __future__ import annotations

import math
from dataclasses import dataclass, field
from fractions import Fraction
from typing import Dict, List, Optional, Sequence, Tuple

from evacask.questions.relaxed import relaxed

Row = Dict[int, int]


@dataclass
class Work:
    """How much may still be done, counted in numbers of tableaus that change; some millions are a second."""

    left: int

    @property
    def is_done(self) -> bool:
        return self.left <= 0


@dataclass(frozen=True)
class Cover:
    """No x costs less than `at_least`, and `x` costs `cost`: the two are equal unless the work ran out. No `x`: none was found until then."""

    at_least: int
    cost: Optional[int]
    x: Optional[Tuple[int, ...]]


@dataclass
class Problem:
    """Rows of a need each, costs, and the most of each column (None: as much as any row can need). `columns` are the rows and amounts of each."""

    rows: List[Tuple[Row, int]]
    costs: List[int]
    most: List[Optional[int]]
    columns: List[List[Tuple[int, int]]]


@dataclass
class Branch:
    """The part of a problem with low <= x <= high, in which no x costs less than `bound`."""

    bound: Fraction
    low: List[int]
    high: List[Optional[int]]


@dataclass
class Best:
    """The cheapest x so far, and the bounds of the branches that were given up when the work ran out."""

    cost: Optional[int] = None
    x: Optional[List[int]] = None
    given_up: List[Fraction] = field(default_factory=list)

    def beats(self, bound: Fraction) -> bool:
        """Whether nothing at or above a bound can be cheaper: costs are whole numbers."""
        return self.cost is not None and bound > self.cost - 1

    def take(self, x: Optional[List[int]], costs: Sequence[int]) -> None:
        if x is not None:
            cost = sum(price * count for price, count in zip(costs, x))
            if self.cost is None or cost < self.cost:
                self.cost, self.x = cost, x


def cover(rows: Sequence[Tuple[Row, int]], costs: Sequence[int], most: Sequence[int], work: Work) -> Optional[Cover]:
    """The cheapest x, or what is known of it when the work runs out and some x was found; None if there is none."""
    needed = [(row, need) for row, need in rows if need > 0]
    columns, problem = reduced(needed, costs, most)
    best = Best()
    stack = [Branch(Fraction(0), [0] * len(columns), problem.most)]
    while stack:
        branch = stack.pop()
        if best.beats(branch.bound):
            continue
        if work.is_done and best.cost is not None:
            best.given_up.append(branch.bound)
            continue
        stack.extend(halves(problem, branch, best, work))
    if best.cost is None and not best.given_up:
        return None
    at_least = min([math.ceil(it) for it in best.given_up] + ([] if best.cost is None else [best.cost]))
    if best.x is None:
        return Cover(at_least, None, None)
    x = [0] * len(costs)
    for column, count in zip(columns, best.x):
        x[column] = count
    return Cover(at_least, best.cost, tuple(x))


def reduced(rows: List[Tuple[Row, int]], costs: Sequence[int], most: Sequence[int]) -> Tuple[List[int], Problem]:
    """The columns that can matter, and the problem of them alone.

    A column isn't needed beside another that is no dearer, helps as much in each row, and has no limit below what any row can need.
    """
    whole = max((need for _, need in rows), default=0)
    helps: Dict[int, List[int]] = {}
    for at, (row, _) in enumerate(rows):
        for column, amount in row.items():
            helps.setdefault(column, [0] * len(rows))[at] = amount
    kept: List[int] = []
    for column in sorted(helps, key=lambda it: (costs[it], [-amount for amount in helps[it]], it)):
        free = (it for it in kept if most[it] >= whole)
        if not any(all(a >= b for a, b in zip(helps[it], helps[column])) for it in free):
            kept.append(column)
    place = {column: at for at, column in enumerate(kept)}
    fewer = [({place[column]: amount for column, amount in row.items() if column in place}, need) for row, need in rows]
    columns = [[(at, amount) for at, amount in enumerate(helps[it]) if amount] for it in kept]
    return kept, Problem(fewer, [costs[it] for it in kept], [None if most[it] >= whole else most[it] for it in kept], columns)


def halves(problem: Problem, branch: Branch, best: Best, work: Work) -> List[Branch]:
    """The two branches below one, the better last; none if it has no x, or none that is cheaper than the best."""
    found = relaxed(problem.rows, problem.costs, branch.low, branch.high)
    if found is None:
        return []
    work.left -= found.work
    bound = max(branch.bound, found.bound)
    best.take(rounded_up(problem, branch, found.x), problem.costs)
    open_columns = [at for at, high in enumerate(branch.high) if high is None or high > branch.low[at]]
    if best.beats(bound) or not open_columns:
        return []
    x = found.x
    at = min(open_columns, key=lambda it: (is_whole(x[it]), abs(x[it] % 1 - 0.5), -problem.costs[it]))
    high = branch.high[at]
    split = math.floor(x[at] + 1e-9) if high is None else min(math.floor(x[at] + 1e-9), high - 1)
    split = max(split, branch.low[at])
    less = Branch(bound, branch.low, [split if it == at else value for it, value in enumerate(branch.high)])
    more = Branch(bound, [split + 1 if it == at else value for it, value in enumerate(branch.low)], branch.high)
    return [less, more]


def is_whole(value: float) -> bool:
    return abs(value % 1 - 0.5) > 0.499999


def rounded_up(problem: Problem, branch: Branch, x: Sequence[float]) -> Optional[List[int]]:
    """Whole numbers near x that are enough: rounded up, and then each made smaller as far as that goes, the dearest first. None if that isn't enough."""
    up = [math.ceil(value - 1e-6) for value in x]
    if any(high is not None and value > high for value, high in zip(up, branch.high)):
        return None
    spare = [-need for _, need in problem.rows]
    for at, count in enumerate(up):
        for row, amount in problem.columns[at] if count else ():
            spare[row] += amount * count
    if min(spare, default=0) < 0:
        return None
    bought = [at for at, count in enumerate(up) if count > branch.low[at]]
    for at in sorted(bought, key=lambda it: -problem.costs[it]):
        less = min([up[at] - branch.low[at], *(spare[row] // amount for row, amount in problem.columns[at])])
        up[at] -= less
        for row, amount in problem.columns[at] if less else ():
            spare[row] -= less * amount
    return up
