"""Edits while they are made: what a building comes to after some, and by which code one that can't be made is refused."""
from __future__ import annotations

import re
from dataclasses import dataclass, field
from typing import Callable, Dict, List, Set, Tuple, Union

from evacask.errors import EvacaskError
from evacask.model.building import Model, Way
from evacask.model.forms import EDITS
from evacask.model.lines import fields_of, is_number, number_of
from evacask.model.shares import shares_in

MOST_RATE, MOST_PEOPLE, MOST_WINDOWS, LAST_MOMENT = 10_000, 100_000, 8, 1_200
NAME = re.compile(r"(?:WP|HA|SW|LO|DS)[1-9][0-9]{0,3}\.(?:0|[1-9][0-9]{0,2})")


class Fault(EvacaskError):
    """The code by which an edit is refused."""

    def __init__(self, code: int):
        super().__init__(f"refused {code}")
        self.code = code


def refuse(is_refused: bool, code: int) -> None:
    """Refuses an edit by a code, if something holds."""
    if is_refused:
        raise Fault(code)


@dataclass
class Draft:
    """What edits change of a building: rates, capacities, starts and windows, and what is shut. People are counted in the model's shares."""

    model: Model
    rates: Dict[Way, int]
    capacities: Dict[str, int]
    starts: Dict[str, int]
    windows: Dict[Way, List[Tuple[int, int]]]
    shut: Set[Way] = field(default_factory=set)
    shut_exits: Set[str] = field(default_factory=set)

    def way(self, tail: str, head: str) -> Way:
        """An arc that is there."""
        for name in (tail, head):
            refuse(name not in self.model.nodes, 13)
        refuse((tail, head) not in self.rates, 32)
        return tail, head

    def room(self, name: str) -> str:
        """A node that is no exit."""
        refuse(name not in self.model.nodes, 13)
        refuse(name not in self.capacities, 37)
        return name

    def exit(self, name: str) -> str:
        """A node that is an exit."""
        refuse(name not in self.model.nodes, 13)
        refuse(name in self.capacities, 36)
        return name

    def move_out(self, name: str, people: int) -> None:
        """Has fewer start in a room."""
        refuse(people > self.starts[name], 38)
        self.starts[name] -= people

    def move_in(self, name: str, people: int) -> None:
        """Has more start in a room."""
        refuse(self.starts[name] + people > self.capacities[name], 12)
        self.starts[name] += people

    @property
    def people(self) -> int:
        return sum(self.starts.values()) + sum(shares_in(it.people, self.model.shares) for it in self.model.entrants)


def draft_of(model: Model) -> Draft:
    windows: Dict[Way, List[Tuple[int, int]]] = {way: [] for way in model.arcs}
    for it in model.windows:
        windows[it.way].append((it.first, it.until))
    rates = {way: shares_in(arc.rate, model.shares) for way, arc in model.arcs.items()}
    capacities = {it.name: shares_in(it.capacity or 0, model.shares) for it in model.rooms}
    starts = {it.name: shares_in(it.start or 0, model.shares) for it in model.rooms}
    return Draft(model, rates, capacities, starts, windows)


def shut(draft: Draft, tail: str, head: str) -> None:
    way = draft.way(tail, head)
    refuse(way in draft.shut, 34)
    draft.shut.add(way)


def reopen(draft: Draft, tail: str, head: str) -> None:
    way = draft.way(tail, head)
    refuse(way not in draft.shut, 35)
    draft.shut.remove(way)


def shutexit(draft: Draft, name: str) -> None:
    refuse(draft.exit(name) in draft.shut_exits, 34)
    draft.shut_exits.add(name)


def openexit(draft: Draft, name: str) -> None:
    refuse(draft.exit(name) not in draft.shut_exits, 35)
    draft.shut_exits.remove(name)


def rate(draft: Draft, tail: str, head: str, people: int) -> None:
    way = draft.way(tail, head)
    refuse(people > MOST_RATE, 7)
    draft.rates[way] = people


def room(draft: Draft, name: str, capacity: int) -> None:
    draft.room(name)
    refuse(capacity > MOST_PEOPLE, 7)
    refuse(capacity < draft.starts[name], 12)
    draft.capacities[name] = capacity


def enter(draft: Draft, name: str, people: int) -> None:
    draft.room(name)
    refuse(not 0 < people <= MOST_PEOPLE, 7)
    refuse(draft.people + people > MOST_PEOPLE, 17)
    draft.move_in(name, people)


def leave(draft: Draft, name: str, people: int) -> None:
    draft.room(name)
    refuse(not 0 < people <= MOST_PEOPLE, 7)
    draft.move_out(name, people)


def shift(draft: Draft, tail: str, head: str, people: int) -> None:
    for name in (tail, head):
        refuse(name not in draft.model.nodes, 13)
    refuse(tail == head, 14)
    draft.room(tail)
    draft.room(head)
    refuse(not 0 < people <= MOST_PEOPLE, 7)
    draft.move_out(tail, people)
    draft.move_in(head, people)


def window(draft: Draft, tail: str, head: str, first: int, until: int) -> None:
    there = draft.windows[draft.way(tail, head)]
    refuse(first > LAST_MOMENT or not 1 <= until <= LAST_MOMENT + 1, 7)
    refuse(first >= until, 24)
    refuse(any(first < end and begin < until for begin, end in there), 25)
    refuse(len(there) == MOST_WINDOWS, 26)
    there.append((first, until))


def unwindow(draft: Draft, tail: str, head: str, first: int, until: int) -> None:
    there = draft.windows[draft.way(tail, head)]
    refuse((first, until) not in there, 27)
    there.remove((first, until))


MADE_BY: Dict[str, Callable[..., None]] = {
    "shut": shut,
    "reopen": reopen,
    "shutexit": shutexit,
    "openexit": openexit,
    "rate": rate,
    "room": room,
    "shift": shift,
    "enter": enter,
    "leave": leave,
    "window": window,
    "unwindow": unwindow,
}


def value_of(form: str, word: str) -> Union[str, int]:
    """A field of an edit: a name where its form is a capital, else a number."""
    if form.isupper():
        refuse(not NAME.fullmatch(word), 8)
        return word
    refuse(not is_number(word), 6)
    return number_of(word)


def make(draft: Draft, edit: str) -> None:
    """Makes one edit, or raises the fault that the program would name."""
    word, *words = fields_of(edit) or [""]
    refuse(word not in EDITS, 31)
    forms = EDITS[word].split()
    refuse(len(words) != len(forms), 5)
    MADE_BY[word](draft, *(value_of(form, given) for form, given in zip(forms, words)))
