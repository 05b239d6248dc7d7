"""An evacuation planner of a few lines, for tests without the program: augmenting paths over the time-expanded network, one period after the other.

It shares no code with the program. Where several plans or cuts are best, it may choose another. It answers `upgrade`, `solve`, `check`, sessions
and studies, for small buildings, and trusts that the building is one.
"""
import contextlib
from collections import deque
from typing import Dict, Iterator, List, Optional, Sequence, Set, Tuple

from evacask.client.talk import Source
from evacask.errors import Refused
from evacask.model.building import Model, model_of
from evacask.model.edits import edited
from evacask.model.lines import text_of
from evacask.model.shares import shares_in
from evacask.model.walks import walks

Place = Tuple[str, int]  # a node at a moment
START, OUT = ("", 0), ("", 1)


class Planned:
    """A best plan of a building: people out by each period, what enters which arc when, and a cut for each period."""

    def __init__(self, model: Model):
        self.model = model
        self.room: Dict[Place, Dict[Place, int]] = {START: {}, OUT: {}}
        self.people = self.total = 0
        self.enter_people()
        self.ways = list(self.open_ways())
        for tail, head, _, rate in self.ways:
            self.add(tail, head, rate)
        self.before = {a: dict(to) for a, to in self.room.items()}
        self.out: List[int] = []
        self.cuts: List[Set[Place]] = []
        while len(self.out) <= model.horizon and (not self.out or self.out[-1] < self.people):
            self.plan_period(len(self.out))

    def add(self, tail: Place, head: Place, amount: int) -> None:
        self.room.setdefault(tail, {})[head] = self.room.get(tail, {}).get(head, 0) + amount
        self.room.setdefault(head, {}).setdefault(tail, 0)

    def enter_people(self) -> None:
        """Who starts and who comes in later; and who stays in a node from one moment to the next."""
        shares = self.model.shares
        for node in self.model.rooms:
            self.add(START, (node.name, 0), shares_in(node.start or 0, shares))
            for moment in range(self.model.horizon):
                self.add((node.name, moment), (node.name, moment + 1), shares_in(node.capacity or 0, shares))
        for it in self.model.entrants:
            self.add(START, (it.name, it.moment), shares_in(it.people, shares))
        self.people = sum(self.room[START].values())

    def open_ways(self) -> Iterator[Tuple[Place, Place, Tuple[str, str], int]]:
        """Each arc at each moment at which whoever enters it arrives by the horizon, with its rate then."""
        closed = {(it.way, moment) for it in self.model.windows for moment in range(it.first, it.until)}
        for moment in range(self.model.horizon + 1):
            for way, arc in self.model.arcs.items():
                if moment + arc.travel <= self.model.horizon:
                    rate = 0 if (way, moment) in closed else shares_in(arc.rate, self.model.shares)
                    yield (arc.tail, moment), (arc.head, moment + arc.travel), way, rate

    def plan_period(self, period: int) -> None:
        """Has as many out by a period as can be, and keeps the places that whoever is still inside can reach."""
        for node in self.model.exits:
            if (node.name, period) in self.room:
                self.add((node.name, period), OUT, self.people)
        while True:
            came = self.reached()
            if OUT not in came:
                break
            self.augment(came)
        self.out.append(self.total)
        self.cuts.append({it for it in came if it[0] and it[1] <= period} if self.total < self.people else set())

    def reached(self) -> Dict[Place, Place]:
        """The places that can be reached from the start over what is left of each way, each with the one before it."""
        came, waiting = {START: START}, deque([START])
        while waiting and OUT not in came:
            place = waiting.popleft()
            for head, amount in self.room[place].items():
                if amount and head not in came:
                    came[head] = place
                    waiting.append(head)
        return came

    def augment(self, came: Dict[Place, Place]) -> None:
        path, place = [], OUT
        while place != START:
            path.append((came[place], place))
            place = came[place]
        amount = min(self.room[a][b] for a, b in path)
        for a, b in path:
            self.room[a][b] -= amount
            self.room[b][a] += amount
        self.total += amount

    @property
    def is_whole(self) -> bool:
        return self.total == self.people

    @property
    def cleared(self) -> int:
        return len(self.out) - 1

    def moves(self) -> List[Tuple[int, str, str, int]]:
        """Moment, arc and people, by moment and then in the order of the arcs."""
        found = ((tail[1], way[0], way[1], self.before[tail][head] - self.room[tail][head]) for tail, head, way, _ in self.ways)
        return [it for it in found if it[3] > 0]

    def held(self, name: str) -> int:
        """The last moment at which somebody is in a node or leaves it; -1 where nobody ever is."""
        stays = [t + 1 for t in range(self.model.horizon) if self.before[name, t][name, t + 1] > self.room[name, t][name, t + 1]]
        starts = [0] if (name, 0) in self.room[START] and self.before[START][name, 0] else []
        return max([-1, *starts, *stays, *(t for t, tail, _, _ in self.moves() if tail == name)])

    def items(self, period: int) -> List[str]:
        """The lines of the cut of a period."""
        inside = self.cuts[period] if period < len(self.cuts) else set()
        lines = [
            f"entry {name} {people}"
            for (name, moment), people in self.before[START].items()
            if people and moment <= period and (name, moment) not in inside
        ]
        for name, moment in sorted(inside):
            if moment < period and (name, moment + 1) not in inside:
                lines.append(f"hold {name} {moment} {self.before[name, moment][name, moment + 1]}")
        for tail, head, way, rate in self.ways:
            if tail in inside and head[1] <= period and head not in inside:
                lines.append(f"arc {tail[1]} {way[0]} {way[1]} {rate}")
        return lines

    def spans(self, inside: Set[Place]) -> List[str]:
        """The lines `in NAME p q` of a cut."""
        lines = []
        for node in self.model.rooms:
            moments = sorted(t for name, t in inside if name == node.name)
            firsts = [t for t in moments if t - 1 not in moments]
            lines += [f"in {node.name} {t} {next(u for u in moments if u >= t and u + 1 not in moments)}" for t in firsts]
        return lines

    def block(self, number: int, line: int) -> List[str]:
        """The answer block, or the shortfall block at a line."""
        if not self.is_whole:
            return [f"refused 22 {line}", f"people {self.people}", f"most {self.total}", *self.spans(self.cuts[-1]), "end"]
        lines = [f"answer {number}", f"people {self.people}", f"cleared {self.cleared}", *(f"out {k} {n}" for k, n in enumerate(self.out))]
        for node in self.model.rooms:
            labels = [next(k for k in range(t, len(self.cuts)) if (node.name, t) not in self.cuts[k]) for t in range(self.cleared)]
            lines += [f"label {node.name} {t} {value}" for t, value in enumerate(labels) if not t or labels[t - 1] != value]
        return [*lines, *("move {} {} {} {}".format(*it) for it in self.moves()), "end"]


class Talk:
    """A session or a study with the planner."""

    def __init__(self, mode: str, text: bytes):
        self.model, self.mode, self.edits, self.number, self.line = (
            model_of(text_of(text)),
            mode,
            [],
            0,
            text.count(b"\n"),
        )  # type: Model, str, List[str], int, int
        self.planned = Planned(self.model)
        self.replies: List[List[str]] = [] if mode == "study" and self.planned.is_whole else [self.planned.block(0, self.model.end_line)]

    def send(self, lines: bytes) -> None:
        for line in text_of(lines).splitlines():
            self.line += 1
            self.replies.append(self.answer(line.split()))

    def reply(self) -> bytes:
        return "".join(f"{it}\n" for it in self.replies.pop(0)).encode()

    def answer(self, words: List[str]) -> List[str]:
        if self.mode == "study":
            return self.exits() if words == ["exits"] else self.least(*words[1:])
        if words[0] == "cut":
            period = int(words[1])
            items = self.planned.items(period)
            worth = sum(int(it.rsplit(" ", 1)[1]) for it in items)
            return [f"refused 33 {self.line}"] if period > self.model.horizon else [f"cut {period} {worth}", *items, "end"]
        if words[0] in ("summary", "clearing", "bottlenecks", "routes"):
            return [f"{words[0]} {self.number}", *getattr(self, words[0])(), "end"]
        return [f"work 0 {self.planned.people}"] if words == ["work"] else self.edit(" ".join(words))

    def edit(self, line: str) -> List[str]:
        if line == "undo" and not self.edits:
            return [f"refused 39 {self.line}"]
        edits = self.edits[:-1] if line == "undo" else [*self.edits, line]
        try:
            planned = Planned(edited(self.model, edits))
        except Refused as refused:
            return [f"refused {refused.code} {self.line}"]
        if planned.is_whole:
            self.planned, self.edits, self.number = planned, edits, self.number + 1
        return planned.block(self.number, self.line)

    def summary(self) -> List[str]:
        now = self.planned
        starts = [it.name for it in now.model.rooms if it.start]
        walk = max((it.periods for name, it in walks(now.model).items() if name in starts), default=0)
        moments = sum(k * (n - (now.out[k - 1] if k else 0)) for k, n in enumerate(now.out))
        title = [f"title {now.model.title}"] if now.model.title else []
        numbers = (
            ("people", now.people),
            ("cleared", now.cleared),
            ("seconds", now.cleared * now.model.period),
            ("uncongested", walk),
            ("personperiods", moments),
        )
        return [*title, *(f"{word} {number}" for word, number in numbers)]

    def clearing(self) -> List[str]:
        last = {it.name: self.planned.held(it.name) for it in self.model.rooms}
        floors = {floor: max([-1, *(last[it.name] for it in self.model.rooms if it.floor == floor)]) for floor in self.model.floors}
        shown = [*(("node", name, k) for name, k in last.items()), *(("floor", str(floor), k) for floor, k in floors.items())]
        return [f"{word} {name} {'none' if k < 0 else k}" for word, name, k in shown]

    def bottlenecks(self) -> List[str]:
        """In how many periods each arc and node is an item of the cut."""
        counts: Dict[str, int] = {}
        for period in range(self.planned.cleared):
            for key in {
                " ".join([it.split()[0], *it.split()[2 if it.startswith("arc") else 1 :][: 2 if it.startswith("arc") else 1]])
                for it in self.planned.items(period)
            }:
                counts[key] = counts.get(key, 0) + 1
        return [f"{key} {count}" for key, count in sorted(counts.items()) if not key.startswith("entry")]

    def routes(self) -> List[str]:
        """The plan taken apart, path by path."""
        now, lines = self.planned, []
        flow = {
            a: {b: now.before.get(a, {}).get(b, 0) - left for b, left in to.items() if now.before.get(a, {}).get(b, 0) > left}
            for a, to in now.room.items()
        }
        for first in list(flow[START]):
            while flow[START][first]:
                path = [first]
                while now.model.nodes[path[-1][0]].capacity is not None:
                    path.append(next(b for b, n in flow[path[-1]].items() if n))
                steps = list(zip([START, *path], path))
                amount = min(flow[a][b] for a, b in steps)
                for a, b in steps:
                    flow[a][b] -= amount
                lines.append(f"route {amount} {first[0]}" + (f" {first[1]}" if first[1] else ""))
                lines += [f"step {a[1]} {a[0]} {b[0]}" for a, b in steps[1:] if a[0] != b[0]]
        return lines

    def exits(self) -> List[str]:
        lines = [f"exits {len(self.model.exits)}"]
        for node in self.model.exits:
            planned = Planned(edited(self.model, [f"shutexit {node.name}"]))
            lines += (
                [f"exit {node.name} {planned.cleared}"]
                if planned.is_whole
                else [f"exit {node.name} short {planned.total}", *planned.spans(planned.cuts[-1])]
            )
        return [*lines, "end"]

    def least(self, tail: str, head: str, moment: str) -> List[str]:
        """The least rate by trying each from 0, in shares; the greatest stands for 10,000."""
        by, cut = int(moment), []  # type: int, List[str]
        if by > self.model.horizon:
            return [f"refused 33 {self.line}"]
        for rate in (*range(50), 10_000):
            planned = Planned(with_rate(self.model, (tail, head), rate))
            if planned.is_whole and planned.cleared <= by:
                return [
                    f"least {tail} {head} {moment} {rate}",
                    *("move {} {} {} {}".format(*it) for it in planned.moves()),
                    *(cut if rate else []),
                    "end",
                ]
            at = min(by, planned.cleared)
            cut = [f"cut {by} {planned.out[at]}", *planned.spans(planned.cuts[at])]
        return [f"least {tail} {head} {moment} never", *cut, "end"]


def with_rate(model: Model, way: Tuple[str, str], rate: int) -> Model:
    """The model with another rate of an arc, in its shares."""
    lines = model.text.split("\n")
    fields = lines[model.arcs[way].line - 1].split()
    lines[model.arcs[way].line - 1] = " ".join([*fields[:4], str(rate)])
    return model_of("\n".join(lines))


class Planner:
    """A client that is no program."""

    source = Source("0" * 64, None)

    def run(self, words: Sequence[str], text: bytes) -> bytes:
        if words[0] == "check":
            return b"yes\n"
        model = model_of(text_of(text))
        lines: Optional[List[str]] = ["evacplan 2", "end"] if words[0] == "upgrade" else Planned(model).block(0, model.end_line)
        return "".join(f"{it}\n" for it in lines or []).encode()

    @contextlib.contextmanager
    def talk(self, mode: str, text: bytes) -> Iterator[Talk]:
        yield Talk(mode, text)
