"""What can go wrong, as exceptions. A face turns each into one line and a status."""
from __future__ import annotations

from typing import Any, Sequence, Tuple

# A node of a cut, with the first and the last moment of a run at which it is in the cut.
Span = Tuple[str, int, int]


class EvacaskError(Exception):
    """The root of all errors of this package."""


class Refused(EvacaskError):
    """A line of a building, an edit or a command is refused.

    `code` is that of docs/users/formats.md, `line` the number of a building's line from 1, or 0 for an edit or a command; `text` is that line itself.
    `meaning` says what is wrong, and `remedy` what to do.
    """

    def __init__(self, code: int, line: int, text: str = "", remedy: str = "", meaning: str = ""):
        self.code, self.line, self.text, self.remedy, self.meaning = code, line, text, remedy, meaning
        place = f"line {line}: " if line else f"{text}: " if text else ""
        said = " ".join(filter(None, (meaning, remedy)))
        super().__init__(f"{place}refused {code}{': ' if said else ''}{said}")


class UnknownName(EvacaskError):
    """A node, an arc or an own name that isn't in the building."""


class MarkError(EvacaskError):
    """A comment that evacask reads, and the program reads past, isn't of its form. `line` is its number, from 1."""

    def __init__(self, line: int, what: str):
        super().__init__(f"line {line}: {what}")
        self.line, self.what = line, what


class Shortfall(EvacaskError):
    """Not everybody can be out by the horizon: at most `most` of `people` can. `cut` shows it, by nodes and runs of moments."""

    def __init__(self, most: Any, people: Any, cut: Sequence[Span] = ()):
        super().__init__(f"at most {most} of {people} can be out by the horizon")
        self.most, self.people, self.cut = most, people, tuple(cut)


class NotProved(EvacaskError):
    """The program isn't proved on this machine, and a proved one was asked for."""


class NoProgram(EvacaskError):
    """There is no program to ask."""


class NoMemory(EvacaskError):
    """The program found no memory, its status 5, or there was none to start it or a thread."""


class Broken(EvacaskError):
    """The program answered what evacplan never does, or ended. Nothing that it said before is to be relied on."""


class InputError(EvacaskError):
    """A file or a stream can't be read."""


class OutputError(EvacaskError):
    """A file that was named for the output can't be written."""


class TableError(EvacaskError):
    """A fault in a table of the user's. `row` is the number of the line in its file, from 1, and `column` the head of the column."""

    def __init__(self, table: str, row: int, column: str, what: str):
        super().__init__(f"{table}, row {row}{f', column {column}' if column else ''}: {what}")
        self.table, self.row, self.column, self.what = table, row, column, what


class WordsError(EvacaskError):
    """The words of a command, or the arguments of a call, are wrong."""


class NoAnswer(EvacaskError):
    """A question has no answer that could be found: the building is right, and what is asked isn't there."""
