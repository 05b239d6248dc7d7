"""Words that several faces print: numbers with their nouns, long lines, and whose arithmetic something is."""
from __future__ import annotations

import textwrap
from typing import List

from evacask.faces.words import WIDTH
from evacask.model.shares import Count

OWN = "evacask's own arithmetic, not proved"


def some(number: Count, one: str, more: str = "") -> str:
    """A number with its word: 1 period, 2 periods."""
    return f"{number:,} {one if number == 1 else more or one + 's'}"


def indented(text: str) -> List[str]:
    """A text as lines that are indented and not too long."""
    return textwrap.wrap(text, WIDTH, initial_indent="    ", subsequent_indent="    ", break_long_words=False, break_on_hyphens=False)
