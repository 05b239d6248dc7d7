"""Moments and people as the page writes them: with commas, and in seconds as they are meant."""
from __future__ import annotations

from typing import Sequence

from evacask.faces.sheet import runs_of
from evacask.model.building import Model

MOST_SPANS = 6


def seconds(model: Model, moment: int) -> str:
    """The seconds at which what is so by a moment comes about: 1,140 to 1,145, or from 1,140 if no later end is claimed."""
    first, last = model.ends(moment)
    return f"from {first:,}" if last is None else f"{first:,} to {last:,}"


def when(model: Model, moment: int) -> str:
    """The same as the end of a sentence: after 1,140 to 1,145 s, or from 1,140 s on."""
    return f"after {seconds(model, moment)} s" if model.has_later_end else f"{seconds(model, moment)} s on"


def by(model: Model, moment: int) -> str:
    """A moment with its seconds: by moment 228 (1,140 to 1,145 s)."""
    return f"by moment {moment:,} ({seconds(model, moment)} s)"


def spans(model: Model, moments: Sequence[int]) -> str:
    """The seconds of the periods of some moments, the first few spans of them: 10 to 120, 150 to 155."""
    found = [f"{it.start * model.period:,} to {it.stop * model.period:,}" for it in runs_of(moments)]
    more = len(found) - MOST_SPANS
    return ", ".join(found[:MOST_SPANS]) + (f" and {more:,} more spans" if more > 0 else "")
