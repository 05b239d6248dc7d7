"""A building as data: the statements of a text that the program accepts, with the numbers of their lines and the user's own names."""
from __future__ import annotations

from dataclasses import dataclass, field
from types import MappingProxyType
from typing import Dict, List, Mapping, Optional, Tuple

from evacask.errors import UnknownName
from evacask.model.lines import bytes_of, fields_of, lines_of, near, number_of, own_name_of, printable
from evacask.model.seconds import interval, seconds_text
from evacask.model.shares import Count, in_people, shares_of

Way = Tuple[str, str]


@dataclass(frozen=True)
class Node:
    """A node: its capacity and its start in people (both None of an exit), its line, and the user's own name for it."""

    name: str
    capacity: Optional[Count]
    start: Optional[Count]
    line: int
    own_name: str = ""

    @property
    def is_exit(self) -> bool:
        return self.capacity is None

    @property
    def kind(self) -> str:
        """The two letters before its number."""
        return self.name[:2]

    @property
    def floor(self) -> int:
        return number_of(self.name.partition(".")[2])


@dataclass(frozen=True)
class Arc:
    """An arc: its travel in periods, and its rate in people a period."""

    tail: str
    head: str
    travel: int
    rate: Count
    line: int
    own_name: str = ""

    @property
    def way(self) -> Way:
        return self.tail, self.head


@dataclass(frozen=True)
class Window:
    """The moments from `first` on and before `until`, at which nobody enters an arc."""

    way: Way
    first: int
    until: int
    line: int


@dataclass(frozen=True)
class Entrant:
    """People who come into a node at a moment."""

    name: str
    moment: int
    people: Count
    line: int


@dataclass(frozen=True)
class Model:
    """A building. `period` is in seconds, `horizon` in periods; nodes and arcs are in the order of the text. Two are equal if their texts are."""

    text: str
    title: str = field(default="", compare=False)
    period: int = field(default=1, compare=False)
    horizon: int = field(default=0, compare=False)
    nodes: Mapping[str, Node] = field(default_factory=dict, compare=False, repr=False)
    arcs: Mapping[Way, Arc] = field(default_factory=dict, compare=False, repr=False)
    windows: Tuple[Window, ...] = field(default=(), compare=False, repr=False)
    entrants: Tuple[Entrant, ...] = field(default=(), compare=False, repr=False)
    floors: Mapping[int, str] = field(default_factory=dict, compare=False, repr=False)
    shares: int = field(default=1, compare=False)
    end_line: int = field(default=0, compare=False, repr=False)

    @property
    def bytes(self) -> bytes:
        """The text as the program is given it."""
        return bytes_of(self.text)

    @property
    def exits(self) -> List[Node]:
        return [node for node in self.nodes.values() if node.is_exit]

    @property
    def rooms(self) -> List[Node]:
        """The nodes that are no exits."""
        return [node for node in self.nodes.values() if not node.is_exit]

    @property
    def people(self) -> Count:
        """All people, those who come later included."""
        return sum(node.start or 0 for node in self.nodes.values()) + sum(it.people for it in self.entrants)

    @property
    def is_steady(self) -> bool:
        """Whether no rate changes with time and nobody comes later."""
        return not self.windows and not self.entrants

    def seconds(self, moment: int) -> int:
        """The seconds from which on a moment may be: the earlier end of its interval."""
        return moment * self.period

    @property
    def has_later_end(self) -> bool:
        """Whether all that a moment says holds by the end of its period, in shorter periods too: a law if nobody comes later or each node holds all."""
        return not self.entrants or all((it.capacity or 0) >= self.people for it in self.rooms)

    def time(self, moment: int) -> str:
        """A moment with its seconds: 28 (140 to 145 s), or 28 (from 140 s) if no later end is claimed."""
        return f"{moment} ({self.span(moment)})"

    def span(self, moment: float) -> str:
        """The seconds of a moment, or of a mean of moments: 140 to 145 s, or from 140 s."""
        return seconds_text(moment, self.period, self.has_later_end)

    def ends(self, moment: int) -> Tuple[int, Optional[int]]:
        """The seconds from which on a moment is, and those before which it is; None if no later end is claimed."""
        first, last = interval(moment, self.period)
        return first, last if self.has_later_end else None

    def node(self, name: str) -> Node:
        """The node of a name, or of an own name that no other node has; `UnknownName` with names that are near it."""
        if name in self.nodes:
            return self.nodes[name]
        owners = [it for it in self.nodes.values() if it.own_name == name] if name else []
        if len(owners) == 1:
            return owners[0]
        if owners:
            raise UnknownName(f"{name} is the own name of {len(owners)} nodes: {', '.join(it.name for it in owners)}")
        owns = [it.own_name for it in self.nodes.values() if it.own_name]
        raise UnknownName(f"there is no node {name} in the building{near(name, [*self.nodes, *owns])}")

    def arc(self, tail: str, head: str) -> Arc:
        """The arc between two nodes; `UnknownName` with what there is in its place."""
        way = tail, head = self.node(tail).name, self.node(head).name
        if way in self.arcs:
            return self.arcs[way]
        if (head, tail) in self.arcs:
            raise UnknownName(f"there is no arc from {tail} to {head}; there is one from {head} to {tail}")
        heads = [to for start, to in self.arcs if start == tail]
        hint = f"from {tail} there are arcs to {', '.join(heads)}" if heads else f"no arc leaves {tail}"
        raise UnknownName(f"there is no arc from {tail} to {head}; {hint}")

    def named(self, *names: str) -> str:
        """The user's own names of some nodes or of an arc, for the end of a line; nothing if none of them has one."""
        arc = self.arcs.get((names[0], names[1])) if len(names) == 2 else None
        if arc and arc.own_name:
            return arc.own_name
        known = [self.nodes[name] for name in names if name in self.nodes]
        return " to ".join(it.own_name or it.name for it in known) if any(it.own_name for it in known) else ""


@dataclass
class Statements:
    """The statements of a text so far, which counts each person as so many shares."""

    shares: int = 1
    title: str = ""
    period: int = 1
    horizon: int = 0
    nodes: Dict[str, Node] = field(default_factory=dict)
    arcs: Dict[Way, Arc] = field(default_factory=dict)
    windows: List[Window] = field(default_factory=list)
    entrants: List[Entrant] = field(default_factory=list)
    floors: Dict[int, str] = field(default_factory=dict)

    def take(self, fields: List[str], line: str, number: int, own_name: str) -> None:
        """Adds a statement."""
        word, *rest = fields
        if word == "title":
            self.title = printable(line.strip(" \t")[len(word) :].strip(" \t"))
        elif word == "floor":
            self.floors[number_of(rest[0])] = printable(line.strip(" \t")[len(word) :].strip(" \t")[len(rest[0]) :].strip(" \t"))
        elif word == "period":
            (self.period,) = map(number_of, rest)
        elif word == "horizon":
            (self.horizon,) = map(number_of, rest)
        elif word == "node":
            capacity, start = map(self.people_of, rest[1:]) if rest[1:] else (None, None)
            self.nodes[rest[0]] = Node(rest[0], capacity, start, number, own_name)
        else:
            self.take_numbers(word, rest, number, own_name)

    def people_of(self, word: str) -> Count:
        """A number of people."""
        return in_people(number_of(word), self.shares)

    def take_numbers(self, word: str, rest: List[str], line: int, own_name: str) -> None:
        """Adds a statement of names and two numbers."""
        *names, first, second = rest
        if word == "entrant":
            (name,) = names
            self.entrants.append(Entrant(name, number_of(first), self.people_of(second), line))
            return
        tail, head = names
        if word == "arc":
            self.arcs[tail, head] = Arc(tail, head, number_of(first), self.people_of(second), line, own_name)
        elif word == "window":
            self.windows.append(Window((tail, head), number_of(first), number_of(second), line))
        else:
            raise ValueError(f"{word} is no statement")


def model_of(text: str) -> Model:
    """The model of a text that the program accepts; `ValueError` for some that it doesn't."""
    lines = lines_of(text)
    last = next((number for number, line in enumerate(lines) if fields_of(line)[:1] == ["end"]), len(lines))
    said, mark, end = Statements(shares_of(lines[:last])), "", 0
    for number, line in enumerate(lines, 1):
        fields = fields_of(line)
        if fields[:1] == ["end"]:
            end = number
            break
        if fields and not fields[0].startswith("#") and fields[0] != "evacplan":
            said.take(fields, line, number, mark)
        mark = own_name_of(line)
    if not end:
        raise ValueError("the text ends before the line end")
    return Model(
        text,
        said.title,
        said.period,
        said.horizon,
        MappingProxyType(said.nodes),
        MappingProxyType(said.arcs),
        tuple(said.windows),
        tuple(said.entrants),
        MappingProxyType(said.floors),
        said.shares,
        end,
    )
