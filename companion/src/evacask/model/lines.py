"""Lines and fields of a text, as the program reads them."""
from __future__ import annotations

import difflib
from typing import Iterable, List

# A comment that begins so, right above a node or an arc, is the user's own name for it.
NAME_MARK = "#:"


def lines_of(text: str) -> List[str]:
    """The lines of a text, without their ends; a last line may have none."""
    lines = text.split("\n")
    if not lines[-1]:
        lines.pop()
    return [line[:-1] if line.endswith("\r") else line for line in lines]


def fields_of(line: str) -> List[str]:
    """The fields of a line: blanks are spaces and tabs alone."""
    return [it for it in line.replace("\t", " ").split(" ") if it]


def is_number(word: str) -> bool:
    """Whether a word is a number of the language: digits alone, nine at most."""
    return word.isascii() and word.isdigit() and len(word) <= 9


def number_of(word: str) -> int:
    """The number that a word is; `ValueError` if it is none."""
    if not is_number(word):
        raise ValueError(f"{word!r} is no number")
    return int(word)


def text_of(data: bytes) -> str:
    """Bytes as a text, in which a byte that is no letter stays itself."""
    return data.decode("utf-8", "surrogateescape")


def bytes_of(text: str) -> bytes:
    """The bytes that a text was read from."""
    return text.encode("utf-8", "surrogateescape")


def printable(text: str) -> str:
    """A text without letters that a terminal would obey."""
    return text if text.isprintable() else "".join(it for it in text if it.isprintable())


def own_name_of(line: str) -> str:
    """The own name that a line states for the line below, or nothing."""
    line = line.strip(" \t")
    return printable(line[len(NAME_MARK) :]).strip() if line.startswith(NAME_MARK) else ""


def near(name: str, names: Iterable[str]) -> str:
    """Words that name what is written nearly so, or nothing."""
    found = difflib.get_close_matches(name, list(dict.fromkeys(names)), n=3)
    return f"; near it: {', '.join(found)}" if found else ""
