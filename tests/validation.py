#!/usr/bin/env python3
"""Tries the field's tests of evacuation models that fit a flow model on the built program, or on the one that EVACPLAN names.

    tests/validation.py              compares each answer with its time by hand, and the table of docs/users/validation.md with what was found
    tests/validation.py --write      writes that table

A case has two buildings if a figure had to be rounded: one to the earlier side and one to the later. Between their clearing times the time by hand
must lie. The clearing moments were worked out by the sums shown, and the program must print just these. The status is 1 if anything differs.
"""
import os
import pathlib
import re
import subprocess
import sys
from dataclasses import dataclass
from fractions import Fraction
from typing import Callable, Dict, Iterator, List, Sequence, Tuple

TOP = pathlib.Path(__file__).resolve().parent.parent
PROGRAM = os.environ.get("EVACPLAN", str(TOP / "crates/evacplan/out/evacplan"))
PAGE = TOP / "docs/users/validation.md"
TABLE = re.compile(r"(?<=<!-- validation: tests -->\n\n)(?:\|.*\n)*")
# People a second through a metre of an exit: the most that IMO's test of the flow allows.
FLOW = Fraction(133, 100)
# The patience with one run, in seconds.
PATIENCE = 60

Lines = List[List[str]]


def asked(mode: str, text: str, *typed: str) -> Lines:
    """What the program prints of a building and of lines that follow it: the fields of each line."""
    given = "".join(line + "\n" for line in (text, *typed))
    ran = subprocess.run([PROGRAM, *mode.split()], input=given, capture_output=True, text=True, timeout=PATIENCE)
    return [line.split() for line in ran.stdout.splitlines()]


def building(period: int, *lines: str) -> str:
    """The text of a building with a horizon of 300 periods."""
    return "\n".join(["evacplan 2", f"period {period}", "horizon 300", "floor 1 Ground", *lines, "end"])


def last_cleared(said: Lines) -> int:
    """The clearing moment of the last block."""
    return [int(line[1]) for line in said if line[0] == "cleared"][-1]


def entered(said: Lines, tail: str, head: str) -> Dict[int, int]:
    """How many enter an arc, by moment."""
    return {int(line[1]): int(line[4]) for line in said if line[0] == "move" and line[2:4] == [tail, head]}


def nothing_else(said: Lines) -> bool:
    """Holds of every answer."""
    return True


@dataclass(frozen=True)
class Case:
    """One test: its numbers in three guidelines, what it asks for, its time by hand in seconds, and the buildings with their clearing moments.

    `also` must hold of the answer about the later building; `typed` are the lines of a replan.
    """

    name: str
    numbers: Tuple[str, str, str]
    asks: str
    hand: Fraction
    period: int
    buildings: Sequence[str]
    moments: Sequence[int]
    sums: str
    also: Callable[[Lines], bool] = nothing_else
    typed: Sequence[str] = ()

    def answers(self) -> List[Lines]:
        """What the program prints of each building."""
        mode = "replan" if self.typed else "solve --reports"
        return [asked(mode, text, *self.typed) for text in self.buildings]

    def row(self, moments: Sequence[int]) -> str:
        """The line of the table for some clearing moments."""
        first, last = min(moments), max(moments)
        moment = str(first) if first == last else f"{first} and {last}"
        seconds = f"{first * self.period} to {(last + 1) * self.period} s"
        numbers = " | ".join(self.numbers)
        return f"| {self.name} | {numbers} | {self.asks} | {seconds_of(self.hand)} | {self.sums} | {moment} ({seconds}) |"

    def faults(self, answers: List[Lines]) -> Iterator[str]:
        """What differs from the sums, and whether the time by hand lies outside of the clearing times."""
        found = [last_cleared(said) for said in answers]
        if found != list(self.moments):
            yield f"{self.name}: the program clears at {found}, and by hand it is {list(self.moments)}"
        if not min(found) * self.period <= self.hand <= (max(found) + 1) * self.period:
            yield f"{self.name}: {seconds_of(self.hand)} by hand aren't within what the program answers"
        if not self.also(answers[-1]):
            yield f"{self.name}: who goes where isn't as the test wants it"


def seconds_of(time: Fraction) -> str:
    """Seconds with one decimal, if there is one to show."""
    return f"{float(time):.1f}".replace(".0", "") + " s"


# The buildings.


def way(travel: int, rate: int, people: int = 1) -> str:
    """One room and one way out, in periods of a second."""
    return building(1, f"node WP1.1 {people} {people}", "node DS1.1", f"arc WP1.1 DS1.1 {travel} {rate}")


def hall(doors: int) -> str:
    """1,000 people in a hall of four doors of 1 m, some of them open, in hundredths of a person; 18 s to a door."""
    rate = int(100 * FLOW * 3)
    open_doors = [f"arc WP1.1 DS{at}.1 6 {rate}" for at in range(1, doors + 1)]
    return building(3, "#shares 100", "node WP1.1 100000 100000", *(f"node DS{at}.1" for at in range(1, doors + 1)), *open_doors)


def door_of_a_room() -> str:
    """100 people before one door of 1 m, in hundredths of a person; 3 s to the door."""
    return building(3, "#shares 100", "node WP1.1 10000 10000", "node DS1.1", f"arc WP1.1 DS1.1 1 {int(100 * FLOW * 3)}")


def getting_ready() -> str:
    """Ten people who are ready after 10, 20, .. 100 s."""
    return building(10, "node WP1.1 10 0", "node DS1.1", "arc WP1.1 DS1.1 1 10", *(f"entrant WP1.1 {moment} 1" for moment in range(1, 11)))


def cabins() -> str:
    """Two groups of 15 and 8 people, each with a way to its own exit alone."""
    return building(5, "node WP1.1 20 15", "node WP2.1 20 8", "node DS1.1", "node DS2.1", "arc WP1.1 DS1.1 3 2", "arc WP2.1 DS2.1 3 2")


def stair() -> str:
    """150 people in a room, a corridor, and a stair that takes fewer than the corridor."""
    nodes = ["node WP1.1 150 150", "node HA1.1 60 0", "node SW1.1 20 0", "node DS1.1"]
    return building(3, *nodes, "arc WP1.1 HA1.1 2 3", "arc HA1.1 SW1.1 4 6", "arc SW1.1 DS1.1 5 2")


def two_exits(*more: str) -> str:
    """A person 10 s from a near exit, whose door is behind a hall, and 30 s from a far one."""
    nodes = ["node WP1.1 1 1", "node HA1.1 1 0", "node DS1.1", "node DS2.1"]
    return building(1, *nodes, "arc WP1.1 HA1.1 9 1", "arc HA1.1 WP1.1 9 1", "arc HA1.1 DS1.1 1 1", "arc WP1.1 DS2.1 30 1", *more)


def near_and_far() -> str:
    """60 people, a near narrow exit and a far wide one."""
    return building(5, "node WP1.1 60 60", "node DS1.1", "node DS2.1", "arc WP1.1 DS1.1 1 1", "arc WP1.1 DS2.1 3 5")


def in_line(room: int) -> str:
    """100 people and two equally narrow ways one behind the other, with so much room between them."""
    return building(1, "node WP1.1 100 100", f"node HA1.1 {room} 0", "node DS1.1", "arc WP1.1 HA1.1 5 1", "arc HA1.1 DS1.1 5 1")


def at_most_the_flow(said: Lines) -> bool:
    """Whether in no period more pass the door than 1.33 people a second."""
    return max(entered(said, "WP1.1", "DS1.1").values()) <= 100 * FLOW * 3


def each_when_ready(said: Lines) -> bool:
    return entered(said, "WP1.1", "DS1.1") == {moment: 1 for moment in range(1, 11)}


def by_their_own_exit(said: Lines) -> bool:
    return [sum(entered(said, f"WP{at}.1", f"DS{at}.1").values()) for at in (1, 2)] == [15, 8]


def only_the_stair_is_full(said: Lines) -> bool:
    return [line for line in said if line[0] == "arc"] == [["arc", "SW1.1", "DS1.1", "74"]]


def by_the_far_exit(said: Lines) -> bool:
    return sum(entered(said, "WP1.1", "DS2.1").values()) == 1


CASES = (
    Case(
        "Walk along a corridor of 40 m",
        ("1", "1", "2.1"),
        "40 s at 1 m/s",
        Fraction(40),
        1,
        [way(40, 1)],
        [40],
        "40",
    ),
    Case(
        "Walk on a stair of 10 m",
        ("2, 3", "2, 3", "2.2"),
        "length over speed, at 0.7 m/s",
        10 / Fraction(7, 10),
        1,
        [way(14, 1), way(15, 1)],
        [14, 15],
        "14.3, rounded to either side",
    ),
    Case(
        "Flow through an exit of 1 m",
        ("4", "", "5.2"),
        "100 people, at most 1.33 a second",
        3 + 100 / FLOW,
        3,
        [door_of_a_room()],
        [26],
        "1 + ⌈10000 / 399⌉ − 1, in hundredths of a person",
        at_most_the_flow,
    ),
    Case(
        "Pre-evacuation times",
        ("5", "5", "1.1"),
        "ten people set out after 10, 20, .. 100 s",
        Fraction(110),
        10,
        [getting_ready()],
        [11],
        "10 + 1",
        each_when_ready,
    ),
    Case(
        "A crowd of 1,000 with four exits of 1 m",
        ("9", "9", ""),
        "18 s of walking, 1,000 / (4 × 1.33) s of flow",
        18 + 1000 / (4 * FLOW),
        3,
        [hall(4)],
        [68],
        "6 + ⌈100000 / 1596⌉ − 1",
    ),
    Case(
        "The same with two exits open",
        ("9", "9", ""),
        "the flow takes twice as long",
        18 + 1000 / (2 * FLOW),
        3,
        [hall(2)],
        [131],
        "6 + ⌈100000 / 798⌉ − 1",
    ),
    Case(
        "Two groups with separate exits",
        ("10", "10", "3.1"),
        "15 and 8 people, each group by its own exit",
        15 + Fraction(15 * 5, 2),
        5,
        [cabins()],
        [10],
        "3 + ⌈15 / 2⌉ − 1",
        by_their_own_exit,
    ),
    Case(
        "Congestion before a stair",
        ("11", "13", "5.1"),
        "the stair decides: 33 s of walking, 150 people at 2 in 3 s",
        33 + Fraction(150 * 3, 2),
        3,
        [stair()],
        [85],
        "2 + 4 + 5 + 150 / 2 − 1; only the stair is full, in 74 periods",
        only_the_stair_is_full,
    ),
    Case(
        "A foreseen closure of an exit after 1 s",
        ("", "", "4.1"),
        "the other exit, 30 s away",
        Fraction(30),
        1,
        [two_exits("window HA1.1 DS1.1 1 301")],
        [30],
        "30",
        by_the_far_exit,
    ),
    Case(
        "The same, unforeseen",
        ("", "", "4.1"),
        "back from the hall: 9 + 9 + 30 s",
        Fraction(48),
        1,
        [two_exits()],
        [48],
        "9 + 9 + 30",
        typed=["advance 1", "shut HA1.1 DS1.1"],
    ),
    Case(
        "A near narrow exit and a far wide one",
        ("", "11, 14", ""),
        "some people take the far exit, so that (t − 5) / 5 + (t − 15) = 60",
        Fraction(380, 6),
        5,
        [near_and_far()],
        [12],
        "the least k with k + 5 (k − 2) ≥ 60",
    ),
    Case(
        "Two equal bottlenecks in line",
        ("", "12", ""),
        "no queue before the second one, 10 + 100 s",
        Fraction(110),
        1,
        [in_line(50), in_line(0)],
        [109, 109],
        "5 + 5 + 100 − 1, even without room between them",
    ),
    Case(
        "A door for 1 person a second",
        ("", "8", ""),
        "2 s of walking, 60 people",
        Fraction(62),
        1,
        [way(2, 1, 60)],
        [61],
        "2 + 60 − 1",
    ),
    Case(
        "The same for 6 a second",
        ("", "8", ""),
        "a wider door is faster",
        Fraction(12),
        1,
        [way(2, 6, 60)],
        [11],
        "2 + 60 / 6 − 1",
    ),
)


def table(found: Sequence[Sequence[int]]) -> str:
    """The table of the page, of the clearing moments of each case."""
    head = "| Test | IMO | RiMEA | NIST | Asks for | By hand | In periods, by hand | evacplan |\n|---|---|---|---|---|--:|---|---|\n"
    return head + "".join(case.row(moments) + "\n" for case, moments in zip(CASES, found))


def main(words: List[str]) -> int:
    if words not in ([], ["--write"]):
        print(__doc__)
        return 2
    if not pathlib.Path(PROGRAM).is_file():
        print(f"the field's tests weren't tried: there is no program {PROGRAM}; ./build makes it, and EVACPLAN may name another")
        return 1
    faults: List[str] = []
    found: List[List[int]] = []
    for case in CASES:
        answers = case.answers()
        faults += case.faults(answers)
        found.append([last_cleared(said) for said in answers])
    page, made = PAGE.read_text(), table(found)
    if words:
        PAGE.write_text(TABLE.sub(lambda _: made, page))
    elif TABLE.findall(page) != [made]:
        faults.append("docs/users/validation.md: its table isn't what the program answers: tests/validation.py --write")
    print("\n".join(faults) or f"the {len(CASES)} tests of docs/users/validation.md hold")
    return 1 if faults else 0


if __name__ == "__main__":
    sys.exit(main(sys.argv[1:]))
