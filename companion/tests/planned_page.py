"""What a page should say, worked out from the program's own lines. Nothing of evacask is used."""
import hashlib
import subprocess
from collections import Counter
from fractions import Fraction
from typing import Dict, Iterable, Iterator, List, Sequence, Set, Tuple

Names = Tuple[str, ...]
Row = Tuple[str, ...]


class Building:
    """A text with the program, its statements, and the replies that the program gives."""

    def __init__(self, program: str, text: bytes) -> None:
        self.program, self.text = program, text
        self.lines = [it.split() for it in text.decode("utf-8", "replace").splitlines()]
        self.lines = self.lines[: next(at for at, it in enumerate(self.lines) if it[:1] == ["end"])]
        self.shares = next((int(it[1]) for it in self.lines if it[:1] == ["#shares"]), 1)
        self.nodes = {it[1]: [int(n) for n in it[2:]] for it in self.statements("node")}
        self.arcs = {(it[1], it[2]): (int(it[3]), int(it[4])) for it in self.statements("arc")}
        self.period = next((int(it[1]) for it in self.statements("period")), 1)
        self.horizon = int(next(self.statements("horizon"))[1])
        self.entrants = [(it[1], int(it[2]), int(it[3])) for it in self.statements("entrant")]
        self.people = sum(it[1] for it in self.nodes.values() if it) + sum(it[2] for it in self.entrants)
        self.has_end = not self.entrants or all(it[0] >= self.people for it in self.nodes.values() if it)
        self.owns = {
            self.lines[at + 1][1]: " ".join(it[1:])
            for at, it in enumerate(self.lines[:-1])
            if it[:1] == ["#:"] and self.lines[at + 1][:1] == ["node"]
        }

    def statements(self, word: str) -> Iterator[List[str]]:
        return (it for it in self.lines if it[:1] == [word])

    def ask(self, words: Sequence[str], data: bytes) -> str:
        return subprocess.run([self.program, *words], input=data, capture_output=True, timeout=300).stdout.decode("utf-8", "surrogateescape")

    def replies(self, *commands: str) -> List[List[List[str]]]:
        """The opening and the reply to each command, as fields of lines."""
        said = self.ask(["session"], self.text + "".join(f"{it}\n" for it in commands).encode())
        return [[line.split(" ") for line in it.splitlines()] for it in said.split("\nend\n") if it]

    def count(self, shares: int) -> str:
        """People as a page writes them."""
        whole = Fraction(shares, self.shares)
        return f"{int(whole):,}" if whole.denominator == 1 else f"{round(float(whole), 1):,}"

    def seconds(self, moment: int) -> str:
        return f"{moment * self.period:,} to {(moment + 1) * self.period:,}" if self.has_end else f"from {moment * self.period:,}"

    def when(self, moment: int) -> str:
        return f"after {self.seconds(moment)} s" if self.has_end else f"{self.seconds(moment)} s on"

    def spans(self, moments: Iterable[int]) -> str:
        """The seconds of some periods, six spans at most."""
        some, found = sorted(moments), []  # type: List[int], List[str]
        for at in range(len(some)):
            if at == 0 or some[at] != some[at - 1] + 1:
                end = next(it for it in range(at, len(some)) if it + 1 == len(some) or some[it + 1] != some[it] + 1)
                found.append(f"{some[at] * self.period:,} to {(some[end] + 1) * self.period:,}")
        return ", ".join(found[:6]) + (f" and {len(found) - 6:,} more spans" if len(found) > 6 else "")

    def named(self, names: Names) -> str:
        """Names with the user's own, if there are some."""
        own = " to ".join(self.owns.get(it, it) for it in names) if any(it in self.owns for it in names) else ""
        return " to ".join(names) + (f" ({own})" if own else "")


class Planned:
    """What the program prints of a building that can be cleared, by its parts."""

    def __init__(self, of: Building) -> None:
        self.of, self.block = of, of.ask(["solve"], of.text)
        lines = [it.split(" ") for it in self.block.splitlines()]
        self.cleared = int(lines[2][1])
        self.out = [int(it[2]) for it in lines if it[0] == "out"]
        self.moves = [(int(it[1]), it[2], it[3], int(it[4])) for it in lines if it[0] == "move"]
        _, summary, routes, *cuts = of.replies("summary", "routes", *(f"cut {k}" for k in range(self.cleared)))
        self.walk = next(int(it[1]) for it in summary if it[0] == "uncongested")
        self.routes, self.cuts = routes[1:], cuts
        self.through = Counter[Tuple[str, str]]()
        for _, tail, head, people in self.moves:
            self.through[tail, head] += people

    def is_right(self) -> bool:
        return self.of.ask(["check"], self.of.text + self.block.encode()) == "yes\n"

    def moment(self, percent: int) -> int:
        return next(k for k, out in enumerate(self.out) if out * 100 >= percent * self.of.people)

    def exits(self) -> "Dict[str, List[int]]":
        """How many are out by each exit by each moment."""
        found = {name: [0] * (self.cleared + 1) for name, it in self.of.nodes.items() if not it}
        for t, tail, head, people in self.moves:
            for k in range(t + self.of.arcs[tail, head][0], self.cleared + 1):
                if head in found:
                    found[head][k] += people
        return {name: it for name, it in found.items() if it[-1]}

    def stays(self) -> Dict[int, List[int]]:
        """How many stay on each storey at each moment."""
        change: Dict[int, Counter[int]] = {int(name.split(".")[1]): Counter() for name, it in self.of.nodes.items() if it}
        for name, it in self.of.nodes.items():
            if it:
                change[int(name.split(".")[1])][0] += it[1]
        for name, moment, people in self.of.entrants:
            change[int(name.split(".")[1])][moment] += people
        for t, tail, head, people in self.moves:
            change[int(tail.split(".")[1])][t] -= people
            if self.of.nodes[head]:
                change[int(head.split(".")[1])][t + self.of.arcs[tail, head][0]] += people
        return {floor: [sum(n for t, n in it.items() if t <= k) for k in range(self.cleared + 1)] for floor, it in change.items()}

    def places(self, period: int) -> List[Tuple[Names, int, List[int]]]:
        """The arcs and waitings in the cut of a period that count: their names, their people, their moments."""
        people, moments = Counter[Names](), {}  # type: Counter[Names], Dict[Names, List[int]]
        for line in self.cuts[period][1:]:
            names = () if line[0] == "entry" else tuple(line[2:4]) if line[0] == "arc" else (line[1],)
            people[names] += int(line[-1])
            if line[0] != "entry" and int(line[-1]):
                moments.setdefault(names, []).append(int(line[1] if line[0] == "arc" else line[2]))
        return [(names, count, moments.get(names, [])) for names, count in people.items() if count]

    def full(self) -> Dict[Names, Set[int]]:
        """What counts in some cut, and when: so every best plan fills it."""
        found: Dict[Names, Set[int]] = {}
        for period in range(self.cleared):
            for names, _, moments in self.places(period):
                if names:
                    found.setdefault(names, set()).update(moments)
        return found

    def rooms(self) -> "Counter[Tuple[Names, int, int, int]]":
        """The ways of rooms: nodes, people, and the first and the last moment of setting out."""
        found: Dict[Names, List[Tuple[int, int]]] = {}
        starts = [at for at, line in enumerate(self.routes) if line[0] == "route"]
        for begin, end in zip(starts, [*starts[1:], len(self.routes)]):
            (_, people, room, *_), *steps = self.routes[begin:end]
            found.setdefault((room, *(it[3] for it in steps)), []).append((int(people), int(steps[0][1])))
        return Counter((nodes, sum(n for n, _ in it), min(t for _, t in it), max(t for _, t in it)) for nodes, it in found.items())

    def outcome(self, *edits: str) -> str:
        """When all are out after some edits, or how many can be, as the page writes it."""
        last = self.of.replies(*edits)[-1]
        if last[0][0] == "refused":
            return f"at most {self.of.count(int(next(it[1] for it in last if it[0] == 'most')))} out"
        return self.of.seconds(int(last[2][1]))


def digest(path_or_bytes: "str | bytes") -> str:
    if isinstance(path_or_bytes, str):
        with open(path_or_bytes, "rb") as file:
            path_or_bytes = file.read()
    return hashlib.sha256(path_or_bytes).hexdigest()
