"""Arguments that several commands take: seconds within which all are to be out, percents, and how much work a search may do."""
from __future__ import annotations

import re
from argparse import ArgumentTypeError
from typing import Tuple

from evacask.errors import WordsError
from evacask.faces.words import argument, number
from evacask.model.building import Model
from evacask.model.seconds import End, last_moment_within

SECONDS = argument("seconds", type=number, metavar="SECONDS", help="everybody must be out within this time")
MOST_EFFORT = 1000


EARLIER = argument(
    "--earlier",
    dest="end",
    action="store_const",
    const=End.EARLIER,
    default=End.LATER,
    help="ask for the earlier end of the last period, not the later",
)


def moment_within(model: Model, seconds: int, end: End) -> int:
    """The last moment whose end is within some seconds. `WordsError` if none is, or if it lies behind the horizon."""
    moment = last_moment_within(seconds, model.period, end)
    if moment < 0:
        raise WordsError(f"{seconds} s is less than the period of {model.period} s")
    if moment > model.horizon:
        raise WordsError(f"{seconds} s is behind the horizon, {model.time(model.horizon)}: raise the horizon")
    return moment


def effort(text: str) -> int:
    """How long a search looks, as a multiple of what it does without a word."""
    if not 1 <= number(text) <= MOST_EFFORT:
        raise ArgumentTypeError(f"{text} is no effort: 1 to {MOST_EFFORT:,} times the usual work")
    return int(text)


EFFORT = argument(
    "--effort", type=effort, default=1, metavar="N", help="search N times as long (work is counted, not time, so the answer is always the same)"
)


def percents(text: str) -> Tuple[int, int]:
    """20, for 20 of a hundred less or more; or 10:15, for 10 less and 15 more."""
    match = re.fullmatch(r"([0-9]{1,3})(?::([0-9]{1,4}))?", text)
    low, high = (int(match[1]), int(match[2] or match[1])) if match else (-1, -1)
    if not (0 <= low <= 100 and 0 <= high <= 1000):
        raise ArgumentTypeError(f"{text}: write 20, for 20 of a hundred less or more, or 10:15, for 10 less and 15 more")
    return low, high
