"""What the program prints, read strictly: whatever isn't of the documented form is `Broken`, and never a wrong number."""
from __future__ import annotations

import re
from dataclasses import dataclass, field
from functools import cached_property
from typing import Callable, Iterator, List, Optional, Tuple, TypeVar

from evacask.client.names import check_known, check_names
from evacask.errors import Broken, Refused, Shortfall, Span
from evacask.model.building import Model
from evacask.model.lines import number_of
from evacask.model.records import Record, Records
from evacask.model.seconds import interval
from evacask.model.shares import Count, in_people

T = TypeVar("T")
# The code of a shortfall, which comes with its block.
SHORT_CODE = 22
NOT_UNDERSTOOD = "is it evacplan, and not another one?"
HEAD = re.compile(rb"answer (\d{1,9})\npeople (\d{1,9})\ncleared (\d{1,9})\n")
SHORT = re.compile(rb"refused 22 (\d{1,9})\npeople (\d{1,9})\nmost (\d{1,9})\n")
ONE_LINE = re.compile(rb"refused (\d{1,3}) (\d{1,9})\n\Z")


def strictly(read: Callable[[], T], what: str) -> T:
    """What some reading gives; a line of another form is `Broken`."""
    try:
        return read()
    except (ValueError, IndexError, KeyError, TypeError) as fault:
        raise Broken(f"the program printed {what} that evacplan never prints ({fault})") from None


def lines_of_reply(raw: bytes) -> List[List[str]]:
    """The fields of the lines of a reply, without its line `end`."""
    if not raw.endswith(b"\nend\n"):
        raise ValueError("it doesn't end with the line end")
    return [line.split(" ") for line in raw[: -len(b"end\n") - 1].decode("utf-8", "surrogateescape").split("\n")]


@dataclass(frozen=True)
class Move:
    """`people` enter the arc from `tail` to `head` at `moment`."""

    moment: int
    tail: str
    head: str
    people: Count


@dataclass(frozen=True)
class Label:
    """From `moment` on the node has the label `value`."""

    name: str
    moment: int
    value: int


@dataclass(frozen=True)
class Item:
    """One line of a cut: its word (entry, hold or arc), its names, its moment (None of an entry) and its people."""

    word: str
    names: Tuple[str, ...]
    moment: Optional[int]
    people: Count


@dataclass(frozen=True)
class Cut:
    """The cut of `period`: at most `people` are out by then, the sum of its items."""

    period: int
    people: Count
    items: Tuple[Item, ...]


@dataclass(frozen=True)
class Outcome:
    """When all are out, in periods; or None, and the most people who can be out by the horizon."""

    cleared: Optional[int]
    most: Count


@dataclass(frozen=True)
class Plan(Records):
    """An answer block about `model`. Lists are read when they are asked for, so that a plan of a megabyte costs nothing before.

    `cleared` is in periods; `arrivals[k]` counts who is out by period k, from 0 to `cleared`. The block itself, `raw`, counts in the model's shares.
    """

    raw: bytes = field(repr=False)
    number: int
    people: Count
    cleared: int
    model: Model = field(compare=False, repr=False)

    @property
    def period(self) -> int:
        """The seconds of a period."""
        return self.model.period

    @property
    def interval(self) -> Tuple[int, int]:
        """The seconds from which on, and before which, all are out."""
        return interval(self.cleared, self.period)

    @property
    def seconds(self) -> int:
        """The seconds from which on all may be out: the earlier end of the interval."""
        return self.interval[0]

    def records(self) -> List[Record]:
        """A dict for each move of the printed plan: another best plan may have others."""
        return [{"moment": it.moment, "from": it.tail, "to": it.head, "people": it.people} for it in self.moves]

    def rows(self, word: str) -> Iterator[List[str]]:
        """The fields after the word of each line that begins with it."""
        return (line[1:] for line in self.lines if line[0] == word)

    def count(self, field: str) -> Count:
        """A field as people."""
        return in_people(number_of(field), self.model.shares)

    @cached_property
    def lines(self) -> List[List[str]]:
        return strictly(lambda: lines_of_reply(self.raw), "a block")

    @cached_property
    def arrivals(self) -> Tuple[Count, ...]:
        def read() -> Tuple[Count, ...]:
            found = [(number_of(k), self.count(out)) for k, out in self.rows("out")]
            if [k for k, _ in found] != list(range(self.cleared + 1)) or found[-1][1] != self.people:
                raise ValueError("the arrivals don't end with all people at the clearing moment")
            return tuple(out for _, out in found)

        return strictly(read, "an arrival")

    @cached_property
    def moves(self) -> Tuple[Move, ...]:
        """Who enters which arc when, by moment."""

        def read() -> Tuple[Move, ...]:
            found = tuple(Move(number_of(t), tail, head, self.count(people)) for t, tail, head, people in self.rows("move"))
            check_known({(it.tail, it.head) for it in found}, self.model.arcs)
            return found

        return strictly(read, "a move")

    @cached_property
    def labels(self) -> Tuple[Label, ...]:
        def read() -> Tuple[Label, ...]:
            found = tuple(Label(name, number_of(t), number_of(value)) for name, t, value in self.rows("label"))
            check_known({it.name for it in found}, self.model.nodes)
            return found

        return strictly(read, "a label")


def plan_of(raw: bytes, model: Model) -> Plan:
    """A block about a model, or `Shortfall`. A clearing moment above its horizon is `Broken`."""
    head = HEAD.match(raw)
    if head and raw.endswith(b"\nend\n"):
        number, people, cleared = (int(it) for it in head.groups())
        if cleared > model.horizon:
            raise Broken(f"the program printed the clearing moment {cleared}, above the horizon {model.horizon}")
        return Plan(raw, number, in_people(people, model.shares), cleared, model)
    short = SHORT.match(raw)
    if short and raw.endswith(b"\nend\n"):
        check_names(raw, model)
        most, all_people = (in_people(int(it), model.shares) for it in (short[3], short[2]))
        raise Shortfall(most, all_people, strictly(lambda: spans_of(lines_of_reply(raw)[3:]), "a shortfall"))
    raise Broken(f"the program printed {raw[:40]!r} in place of a block: {NOT_UNDERSTOOD}")


def opening_of(raw: bytes, model: Model) -> Plan:
    """The block of a building as it is, whose people are the building's; or `Shortfall`."""
    plan = plan_of(raw, model)
    if plan.people != model.people:
        raise Broken(f"the program planned for {plan.people} people in place of {model.people}")
    return plan


def outcome_of(raw: bytes, model: Model) -> Outcome:
    """When all are out by a block or a shortfall block."""
    try:
        plan = plan_of(raw, model)
    except Shortfall as short:
        return Outcome(None, short.most)
    return Outcome(plan.cleared, plan.people)


def understood(refused: Refused) -> Refused:
    """A refusal of one line that evacplan gives; `Broken` for one with another code, or for a shortfall without its block."""
    if not refused.meaning or refused.code == SHORT_CODE:
        raise Broken(f"the program printed refused {refused.code}, which it never does there: {NOT_UNDERSTOOD}")
    return refused


def spans_of(lines: List[List[str]]) -> Tuple[Span, ...]:
    """The lines `in NAME p q` of a cut that is worth fewer than all people, so there are some."""
    found: List[Span] = []
    for word, name, first, last in lines:
        if word != "in":
            raise ValueError(word)
        found.append((name, number_of(first), number_of(last)))
    if not found:
        raise ValueError("an empty cut")
    return tuple(found)


def cut_of(raw: bytes, model: Model) -> Cut:
    """The reply to `cut k`. Its items must add up to its value, and be of the model."""

    def read() -> Cut:
        (word, period, people), *rest = lines_of_reply(raw)
        cut = Cut(number_of(period), in_people(number_of(people), model.shares), tuple(item_of(line, model.shares) for line in rest))
        if word != "cut" or sum(it.people for it in cut.items) != cut.people:
            raise ValueError("the items don't add up")
        check_known({it.names for it in cut.items if it.word == "arc"}, model.arcs)
        check_known({it.names[0] for it in cut.items if it.word != "arc"}, model.nodes)
        return cut

    return strictly(read, "a cut")


def item_of(line: List[str], shares: int) -> Item:
    word, *rest = line
    people = in_people(number_of(rest[-1]), shares)
    if word == "entry":
        name, _ = rest
        return Item(word, (name,), None, people)
    if word == "hold":
        name, moment, _ = rest
        return Item(word, (name,), number_of(moment), people)
    if word == "arc":
        moment, tail, head, _ = rest
        return Item(word, (tail, head), number_of(moment), people)
    raise ValueError(" ".join(line))
