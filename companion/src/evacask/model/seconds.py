"""What a moment means in seconds: the one place that turns periods into seconds, for every face.

A building counts in periods of d seconds, as if all who enter an arc in a period did so at its first instant. So a moment C stands for a time from
C d s on and before (C + 1) d s. A requirement is tested against the later end.
"""
from __future__ import annotations

import enum
from typing import Tuple


class End(enum.Enum):
    """Which end of a moment's period is asked for, where all are to be out within some seconds."""

    LATER = "later"
    EARLIER = "earlier"


def interval(moment: int, period: int) -> Tuple[int, int]:
    """The seconds from which on, and before which, a moment may be."""
    return moment * period, (moment + 1) * period


def seconds_text(moment: float, period: int, has_later_end: bool = True) -> str:
    """The seconds of a moment, or of a mean of moments, alone: 140 to 145 s, or from 140 s if no later end is claimed."""
    return f"{moment * period:.0f} to {(moment + 1) * period:.0f} s" if has_later_end else f"from {moment * period:.0f} s"


def last_moment_within(seconds: int, period: int, end: End = End.LATER) -> int:
    """The last moment whose end is within some seconds, the later one if a requirement is tested; -1 if there is none."""
    return seconds // period - (1 if end is End.LATER else 0)
