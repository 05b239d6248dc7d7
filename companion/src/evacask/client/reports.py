"""Replies of a session, a study, a replan and a check that are no blocks, read strictly."""
from __future__ import annotations

from dataclasses import dataclass
from typing import List, Optional, Tuple

from evacask.client.blocks import Move, Plan, lines_of_reply, spans_of, strictly
from evacask.errors import Span
from evacask.model.lines import number_of
from evacask.model.shares import Count, in_people


@dataclass(frozen=True)
class Report:
    """A report of a session: its word, the number of the answer that it is of, and the fields of its lines, which count people in shares."""

    raw: bytes
    word: str
    answer: int
    lines: Tuple[Tuple[str, ...], ...]
    shares: int = 1

    def number(self, word: str) -> int:
        """The number on the line with a word, as `personperiods` of a summary."""
        found = [line for line in self.lines if line[0] == word]
        return strictly(lambda: number_of(found[0][1]), f"a {self.word} without {word}")

    def people(self, word: str) -> Count:
        """The people, or the sum over people, on the line with a word."""
        return in_people(self.number(word), self.shares)


@dataclass(frozen=True)
class Exit:
    """A building without an exit: when all are out, or None with the most people who can be and the cut that shows it."""

    name: str
    cleared: Optional[int]
    most: Optional[Count]
    cut: Tuple[Span, ...]


@dataclass(frozen=True)
class Least:
    """The least rate of an arc at which all are out by `moment`; None if no rate up to 10,000 is enough.

    `moves` show that the rate is enough, and `cut`, worth `most` at period `cut_period`, that one less isn't (None of rate 0).
    """

    tail: str
    head: str
    moment: int
    rate: Optional[Count]
    moves: Tuple[Move, ...]
    cut_period: Optional[int]
    most: Optional[Count]
    cut: Tuple[Span, ...]


@dataclass(frozen=True)
class Gone:
    """What an advance says: by each moment from 0 how many are out by the moves made so far; and the plan of those who are left."""

    moment: int
    out: Tuple[Count, ...]
    plan: Plan


@dataclass(frozen=True)
class Verdict:
    """What a check of a block says: no code if it is right, else the code of the first part that fails and its place."""

    code: Optional[int]
    place: Tuple[str, ...] = ()

    @property
    def is_right(self) -> bool:
        return self.code is None


def report_of(raw: bytes, word: str, shares: int = 1) -> Report:
    def read() -> Report:
        (first, answer), *rest = lines_of_reply(raw)
        if first != word:
            raise ValueError(first)
        return Report(raw, word, number_of(answer), tuple(tuple(line) for line in rest), shares)

    return strictly(read, f"a report {word}")


def exits_of(raw: bytes, shares: int = 1) -> Tuple[Exit, ...]:
    def read() -> Tuple[Exit, ...]:
        (word, count), *rest = lines_of_reply(raw)
        starts = [at for at, line in enumerate(rest) if line[0] == "exit"]
        found = tuple(exit_of(rest[at:end], shares) for at, end in zip(starts, [*starts[1:], len(rest)]))
        if word != "exits" or len(found) != number_of(count) or (starts[:1] or [0]) != [0] or (rest and not starts):
            raise ValueError(" ".join((word, count)))
        return found

    return strictly(read, "an answer to exits")


def exit_of(lines: List[List[str]], shares: int) -> Exit:
    (_, name, *rest), *spans = lines
    if rest[0] == "short":
        _, most = rest
        return Exit(name, None, in_people(number_of(most), shares), spans_of(spans))
    (cleared,) = rest
    if spans:
        raise ValueError(" ".join(spans[0]))
    return Exit(name, number_of(cleared), None, ())


def least_of(raw: bytes, shares: int = 1) -> Least:
    def read() -> Least:
        (word, tail, head, moment, rate), *rest = lines_of_reply(raw)
        if word != "least":
            raise ValueError(word)
        at = next((at for at, line in enumerate(rest) if line[0] == "cut"), len(rest))
        moves = tuple(Move(number_of(t), a, b, in_people(number_of(n), shares)) for _, t, a, b, n in rest[:at])
        least = None if rate == "never" else in_people(number_of(rate), shares)
        if (least == 0) != (at == len(rest)):
            raise ValueError("a cut is missing, or there is one of rate 0")
        if least == 0:
            return Least(tail, head, number_of(moment), 0, moves, None, None, ())
        (_, period, most), *spans = rest[at:]
        return Least(tail, head, number_of(moment), least, moves, number_of(period), in_people(number_of(most), shares), spans_of(spans))

    return strictly(read, "an answer to least")


def gone_of(raw: bytes, shares: int = 1) -> Tuple[int, Tuple[Count, ...]]:
    """The first part of the reply to `advance`: its moment, and how many are gone by each moment from 0."""

    def read() -> Tuple[int, Tuple[Count, ...]]:
        (word, moment), *rest = lines_of_reply(raw)
        rows = [(number_of(k), number_of(out)) for _, k, out in rest]
        if word != "advance" or [k for k, _ in rows] != list(range(len(rows))) or not rows:
            raise ValueError(word)
        return number_of(moment), tuple(in_people(out, shares) for _, out in rows)

    return strictly(read, "an advance")


def verdict_of(raw: bytes) -> Verdict:
    """`yes`, or `no` with a code from 52 to 57 and its place."""
    if raw == b"yes\n":
        return Verdict(None)

    def read() -> Verdict:
        word, code, *place = raw.decode("ascii").rstrip("\n").split(" ")
        if word != "no" or not 52 <= number_of(code) <= 57:
            raise ValueError(word)
        return Verdict(number_of(code), tuple(place))

    return strictly(read, "a verdict")


def work_of(raw: bytes) -> Tuple[int, int]:
    """The reply to `work`: people taken back, and how often people were sent."""

    def read() -> Tuple[int, int]:
        word, taken, sent = raw.decode("ascii").rstrip("\n").split(" ")
        if word != "work":
            raise ValueError(word)
        return number_of(taken), number_of(sent)

    return strictly(read, "an answer to work")
