"""A line on standard error about work that takes more than a second. It is shown at a terminal alone, and erased afterwards."""
from __future__ import annotations

import contextlib
import sys
import threading
import time
from typing import Callable, Iterator

# Seconds before the first count, and between two lines.
AFTER, BETWEEN = 1.0, 0.2


class ProgressLine:
    """The line at the terminal. Threads may share it: one at a time writes."""

    def __init__(self) -> None:
        self.last, self.is_shown, self.is_counting = 0.0, False, False
        self.turn = threading.Lock()

    def say(self, text: str) -> None:
        """Shows a text, unless one was shown just now or nobody sees it."""
        with self.turn:
            now = time.monotonic()
            if now - self.last <= BETWEEN:
                return
            self.last = now
            if sys.stderr is not None and sys.stderr.isatty():
                self.is_shown = True
                sys.stderr.write(f"\r\033[Kevacask: {text}")
                sys.stderr.flush()

    def erase(self) -> None:
        """Takes the line away. Whatever prints calls it first."""
        with self.turn:
            if self.is_shown and sys.stderr is not None:
                sys.stderr.write("\r\033[K")
                sys.stderr.flush()
            self.is_shown = False


LINE = ProgressLine()


def waiting(seconds: int) -> None:
    """Says how long the program has been at work, unless pieces of work are being counted."""
    if not LINE.is_counting:
        LINE.say(f"the program has been at work for {seconds} s")


@contextlib.contextmanager
def progress(what: str) -> Iterator[Callable[[int, int], None]]:
    """Counts pieces of work; gives the `tell(done, of)` of a long question: evacask: 12 of 300 ways."""
    began, LINE.is_counting = time.monotonic(), True

    def tell(done: int, of: int) -> None:
        if time.monotonic() - began > AFTER:
            LINE.say(f"{done:,} of {of:,} {what}")

    try:
        yield tell
    finally:
        LINE.is_counting = False
        LINE.erase()
