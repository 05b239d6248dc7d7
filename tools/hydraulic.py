"""The hydraulic model of people on foot: its figures as published, and the speed and the flow that follow from them.

docs/users/modelling.md names the sources.
"""
import math
from fractions import Fraction

# As published: people on a square metre slow one another down by this share each.
A = Fraction("0.266")
FREE_DENSITY = Fraction("0.54")
FREE_SHARE = Fraction("0.85")
WAYS = {
    "corridor, aisle, ramp, doorway": (Fraction("1.40"), Fraction("1.3")),
    "stair 191/254": (Fraction("1.00"), Fraction("0.94")),
    "stair 178/279": (Fraction("1.08"), Fraction("1.01")),
    "stair 165/305": (Fraction("1.16"), Fraction("1.09")),
    "stair 165/330": (Fraction("1.23"), Fraction("1.16")),
}
LEVEL, STAIR = "corridor, aisle, ramp, doorway", "stair 178/279"
WALL, DOOR, TREAD = Fraction("0.20"), Fraction("0.15"), Fraction("0.15")
# A planner's own choice: people a second through a leaf that isn't held open.
LEAF = Fraction(50, 60)
WAITING = Fraction("1.9")


def frac(text):
    return Fraction(text)


def free_speed(way):
    return FREE_SHARE * WAYS[way][0]


def density_of(flow, way):
    """The density at which a way has this flow for each metre, where nobody is held up: the smaller of two."""
    k, greatest = WAYS[way]
    if flow >= greatest:
        return 1 / (2 * A)
    free = flow / free_speed(way)
    return free if free <= FREE_DENSITY else (1 - math.sqrt(1 - 4 * A * flow / k)) / float(2 * A)


def speed_of(flow, way):
    """The speed at which people walk on a way that has this flow for each metre."""
    k = WAYS[way][0]
    return min(float(free_speed(way)), float(k) * (1 - float(A) * float(density_of(flow, way))))


def rate_of(flow, seconds):
    return math.floor(flow * seconds)
