"""Shares: a model may count each person as several shares, so that a rate can be a fraction of a person. A comment line says how many:

    #shares 40

The program reads past it. What it counts in shares is turned into people where it is read (`in_people`), and what somebody types in people into
shares where it is sent (`in_shares`). So questions and faces know people only.
"""
from __future__ import annotations

import re
from fractions import Fraction
from typing import Any, Iterable, Union

from evacask.errors import MarkError
from evacask.model.lines import fields_of, is_number

MARK, MOST = "#shares", 100


class People(Fraction):
    """A number of people that isn't whole. It is written with one decimal, and reckoned with exactly."""

    def __str__(self) -> str:
        return f"{self}"

    def __format__(self, form: str) -> str:
        return format(round(float(self), 1), form or ".1f") if form in ("", ",") else format(float(self), form)

    def __add__(self, other: Any) -> Any:
        return whole_or_people(Fraction.__add__(self, other))

    def __radd__(self, other: Any) -> Any:
        return whole_or_people(Fraction.__radd__(self, other))

    def __sub__(self, other: Any) -> Any:
        return whole_or_people(Fraction.__sub__(self, other))

    def __rsub__(self, other: Any) -> Any:
        return whole_or_people(Fraction.__rsub__(self, other))

    def __neg__(self) -> Any:
        return whole_or_people(Fraction.__neg__(self))

    def __mul__(self, other: Any) -> Any:
        return whole_or_people(Fraction.__mul__(self, other))

    def __rmul__(self, other: Any) -> Any:
        return whole_or_people(Fraction.__rmul__(self, other))


# People as they are counted: whole ones, or a fraction in a model in shares.
Count = Union[int, People]


def whole_or_people(number: Any) -> Any:
    """A fraction as people, and a whole one as an int; what is no fraction stays."""
    if not isinstance(number, Fraction):
        return number
    return int(number) if number.denominator == 1 else People(number)


def in_people(count: int, shares: int) -> Count:
    """So many shares as people."""
    whole, rest = divmod(count, shares)
    return People(count, shares) if rest else whole


def shares_in(people: Count, shares: int) -> int:
    """So many people as shares."""
    return int(people * shares)


def exact_shares(people: Count, shares: int) -> int:
    """So many people as shares; `ValueError` if that is no whole number."""
    count = Fraction(people) * shares
    if count.denominator != 1:
        raise ValueError(f"{float(people):g} people are {float(count):g} shares: give a multiple of 1/{shares} of a person")
    return int(count)


def typed(count: Count) -> str:
    """A number of people as an edit has it, exactly: 157/40 if it is no whole number."""
    return str(count) if isinstance(count, int) else f"{count.numerator}/{count.denominator}"


def in_shares(word: str, shares: int) -> str:
    """A typed number of people as shares; `ValueError` if it is no whole number of them. A word that is no number stays as it is."""
    if shares == 1 or not re.fullmatch(r"[0-9]{1,9}(\.[0-9]{1,9}|/[1-9][0-9]{0,2})?", word):
        return word
    count = Fraction(word) * shares
    if count.denominator != 1:
        raise ValueError(f"{word} people are {float(count):g} shares: type a multiple of 1/{shares} of a person")
    return f"{count}"


def shares_of(lines: Iterable[str]) -> int:
    """The shares of a person that the mark states; 1 without it. `MarkError` if there are two marks, or if what follows isn't 1 to 100."""
    marks = [(number, fields) for number, fields in enumerate(map(fields_of, lines), 1) if fields[:1] == [MARK]]
    for number, fields in marks[1:]:
        raise MarkError(number, f"there is a line {MARK} above already, at line {marks[0][0]}")
    for number, fields in marks:
        if len(fields) != 2 or not is_number(fields[1]) or not 1 <= int(fields[1]) <= MOST:
            raise MarkError(number, f"after {MARK} comes a whole number from 1 to {MOST}")
        return int(fields[1])
    return 1
