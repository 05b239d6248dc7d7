"""What all pictures share: a frame with a title, and texts that fit their place."""
from __future__ import annotations

import unicodedata
from typing import List

from evacask.faces.page.markup import Markup, plain, tag
from evacask.model.shares import Count


def picture(name: str, width: float, height: float, title: str, content: Markup) -> Markup:
    """An SVG picture with a title for those who don't see it."""
    head = tag("title", title, id=f"{name}-title")
    return tag("svg", head, content, viewBox=f"0 0 {width:.0f} {height:.0f}", role="img", aria_labelledby=f"{name}-title")


def ticks(last: Count, most: int) -> List[int]:
    """Round numbers from 0 on, up to the last one, so many steps of 1, 2 or 5 times a power of ten at most."""
    step = next(it * 10**power for power in range(10) for it in (1, 2, 5) if it * 10**power * most >= last)
    return list(range(0, int(last) + 1, step))


def fitted(text: str, width: int) -> str:
    """A text if it is about so wide at most, in pixels of letters of 12; else its begin and a sign that more was there."""
    used, shown = 0, plain(text)
    for at, letter in enumerate(shown):
        used += letter_width(letter)
        if used > width:
            return f"{shown[: max(0, at - 1)]}…"
    return shown


def letter_width(letter: str) -> int:
    """The pixels of a letter: more of a capital, and of a letter that is as wide as high or has a form of its own."""
    if ord(letter) > 0x2E7F or unicodedata.category(letter) == "So":
        return 24
    return 12 if letter.isupper() or letter in "mw%@—…" else 8
