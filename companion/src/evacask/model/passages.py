"""The figures of docs/users/modelling.md for people on foot, by kind of way. Lengths are metres, times seconds, flows people a second and metre."""
from __future__ import annotations

import math

LEVEL = "level"
# The pace k of a way, of which a speed is k - a k D at a density of D people on a square metre.
PACES = {LEVEL: 1.40, "191/254": 1.00, "178/279": 1.08, "165/305": 1.16, "165/330": 1.23}
A = 0.266
GREATEST_FLOWS = {LEVEL: 1.30, "191/254": 0.94, "178/279": 1.01, "165/305": 1.09, "165/330": 1.16}
STAIRS = [kind for kind in PACES if kind != LEVEL]
# Both boundary layers of a way, and of a door.
SIDES = {kind: 0.40 if kind == LEVEL else 0.30 for kind in PACES}
DOOR = 0.30
# A planner's own choice: people a second through a leaf that isn't held open.
LEAF = 50 / 60
FREE_SHARE, FREE_DENSITY = 0.85, 0.54


def free_speed(kind: str) -> float:
    """The speed of a walk with nobody in the way."""
    return FREE_SHARE * PACES[kind]


def crowd_speed(density: float) -> float:
    """The speed on the level in a crowd of so many people on a square metre; 0 or less if nobody moves."""
    return free_speed(LEVEL) if density <= FREE_DENSITY else PACES[LEVEL] * (1 - A * density)


def speed(kind: str, flow: float) -> float:
    """The speed of people who pass with a flow, where nobody is held up; at the greatest flow that of a queue."""
    pace, free = PACES[kind], free_speed(kind)
    if flow <= FREE_DENSITY * free:
        return free
    if flow >= GREATEST_FLOWS[kind] - 1e-9:
        return pace / 2
    density = (1 - math.sqrt(max(0.0, 1 - 4 * A * flow / pace))) / (2 * A)
    return min(free, pace * (1 - A * density))
