"""The covering problem by HiGHS, an optional extra (`pip install evacask[highs]`, or Debian's python3-scipy): it proves hard ones that `cover` can't.

HiGHS works in floating point, so what it says of the least cost is trusted and not exact. What it buys is put to the program like any other purchase.
"""
from __future__ import annotations

import importlib
import math
from typing import Optional, Sequence, Tuple

from evacask.errors import NoAnswer
from evacask.questions.cover import Cover, Row, Work

# Seconds, and how far from a whole number a bound may be and still count as it.
PATIENCE, TINY = 60, 1e-6


def highs(rows: Sequence[Tuple[Row, int]], costs: Sequence[int], most: Sequence[int], work: Work) -> Optional[Cover]:
    """The cheapest x, or what is known of it after a minute; None if there is none. `NoAnswer` if the extra isn't installed."""
    try:
        numpy, optimize = importlib.import_module("numpy"), importlib.import_module("scipy.optimize")
    except ImportError:
        raise NoAnswer("HiGHS isn't installed: pip install evacask[highs], or Debian's python3-scipy") from None
    matrix = numpy.zeros((len(rows), len(costs)))
    for at, (row, _) in enumerate(rows):
        for column, amount in row.items():
            matrix[at, column] = amount
    found = optimize.milp(
        costs,
        constraints=optimize.LinearConstraint(matrix, [need for _, need in rows], numpy.inf),
        integrality=numpy.ones(len(costs)),
        bounds=optimize.Bounds(0, most),
        options={"time_limit": PATIENCE},
    )
    if found.x is None:
        return None if found.status == 2 else Cover(0, None, None)
    x = tuple(int(round(value)) for value in found.x)
    cost = sum(price * count for price, count in zip(costs, x))
    return Cover(min(cost, math.ceil(found.mip_dual_bound - TINY)), cost, x)
