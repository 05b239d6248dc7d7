"""The questions that engineers ask: each is one command, which answers about each of four examples in little time.

The table is the source of the list in the guide. `QUESTION_SECONDS=1` holds each command, with the program that it asks, to a second of a processor,
which a busy machine doesn't lengthen; without it the limit is generous. `python3 -m companion.tests.test_questions` prints how long each took by the
clock.
"""
import os
import pathlib
import resource
import shlex
import shutil
import sys
import tempfile
import time
import unittest
from typing import Dict, Iterator, List, NamedTuple, Tuple

from companion.tests.asking import METRO, OFFICE, SCHOOL, TOP, TOWER, Ended, run
from evacask import read

LIMIT = float(os.environ.get("QUESTION_SECONDS", "30"))
# Of the tower's 121 ways each is tried, by several processors at once, and pairs of them are more than a second's work.
LONGER = {("Which way costs or brings most?", "tower"): 4.0, ("Which two ways must not be lost together?", "tower"): 15.0}


class Question(NamedTuple):
    """A question, the words of its command, and what stands in its answer. Words in capitals are the example's."""

    question: str
    words: str
    says: str
    statuses: Tuple[int, ...] = (0,)
    lines: str = ""


QUESTIONS = (
    Question("How soon can all be out?", "summary BUILDING", "no plan has them all out sooner"),
    Question("Why not sooner?", "why BUILDING", "Each of them counts here"),
    Question("Which way costs or brings most?", "sensitivity BUILDING", "DS1."),
    Question("How wide must this way be?", "width BUILDING TAIL HEAD CLEARED", "rate"),
    Question("What if a stair is closed for a time?", "compare BUILDING --edit 'window TAIL HEAD 2 5'", "window"),
    Question("Which of two designs is better?", "compare BUILDING OTHER", "cleared"),
    Question("Who goes which way?", "tables routes BUILDING", "from,name,people,exit"),
    Question("Who comes out where, and when?", "tables exits BUILDING", "moment,seconds,out"),
    Question("Is it the building that I meant?", "review BUILDING", "", (0, 10)),
    Question("What do drawings in metres come to?", "convert PLAN", "evacplan 1"),
    Question("Can it come from a spreadsheet?", "sheet NODES WAYS --horizon 400", "arc TAIL HEAD"),
    Question("What is best from here on?", "session --replan BUILDING", "answer 1", lines="advance 4\n"),
    Question("Which way for which room?", "assign BUILDING", "The program's check takes the plan"),
    Question("What to widen, for the least cost?", "improve BUILDING SOONER", "No cheaper purchase is enough"),
    Question("How sure is it?", "range BUILDING --rate 20", "Certain for every building within these ranges"),
    Question("And for all these scenarios?", "sweep BUILDING SCENARIOS", "narrow,rate TAIL HEAD 1"),
    Question("Which two ways must not be lost together?", "losses BUILDING", "losses were planned"),
    Question("How many may this room hold?", "admit BUILDING CLEARED --room ROOM", "ROOM may hold"),
    Question("How many may the building hold?", "admit BUILDING CLEARED", "Shared out as is best"),
    Question("Who can be saved, if not all can?", "rescue BUILDING --seconds SOONER", "and no more", (1,)),
    Question("Where did the drill lose its time?", "observed BUILDING COUNTS", "behind"),
    Question("What if nobody knew that it would close?", "compare BUILDING --edit 'shut TAIL HEAD' --unforeseen 10", "nobody knew"),
)
EXAMPLES = {"office": (OFFICE, "corridor"), "school": (SCHOOL, "school"), "metro": (METRO, "metro"), "tower": (TOWER, "tower")}


class Example:
    """An example with what the commands name of it: a way into a hall, a room with people, times around the best one, and tables."""

    def __init__(self, name: str, folder: pathlib.Path):
        building, plan = EXAMPLES[name]
        model, cleared = read(building).model, read(building).solve().cleared
        room = next(it.name for it in model.rooms if it.start)
        tail, head = next(way for way in model.arcs if way[0] == room)
        files = {it: folder / f"{name}_{it.lower()}.csv" for it in ("NODES", "WAYS", "SCENARIOS", "COUNTS")}
        files["SCENARIOS"].write_text(f"name,edits\nnarrow,rate {tail} {head} 1\nas it is,\n")
        files["COUNTS"].write_text(f"seconds,{model.exits[0].name}\n{(cleared + 9) * model.period},1\n")
        run("sheet", files["NODES"], files["WAYS"], "--back", building)
        self.words: Dict[str, str] = {
            "BUILDING": str(building),
            "OTHER": str(TOP / "examples/hall.evac"),
            "PLAN": str(TOP / f"examples/{plan}.plan"),
            "ROOM": room,
            "TAIL": tail,
            "HEAD": head,
            "CLEARED": str((cleared + 1) * model.period),
            "SOONER": str((cleared * 9 // 10 + 1) * model.period),
            **{it: str(path) for it, path in files.items()},
        }

    def put(self, text: str) -> str:
        """A text with the example's words in place of those in capitals."""
        for word, what in self.words.items():
            text = text.replace(word, what)
        return text


class Took(NamedTuple):
    """The seconds of a command by the clock, and those of processors, with all that it started."""

    clock: float
    processor: float


def processor_seconds() -> float:
    """The seconds of processors of all processes that this one started and that have ended, with those that they started."""
    used = resource.getrusage(resource.RUSAGE_CHILDREN)
    return used.ru_utime + used.ru_stime


def asked(folder: pathlib.Path) -> Iterator[Tuple[str, Question, Ended, str, Took]]:
    """Each question about each example: how its command ended, what it has to say, and its seconds."""
    for name in EXAMPLES:
        example = Example(name, folder)
        for it in QUESTIONS:
            began, used = time.monotonic(), processor_seconds()
            ended = run(*shlex.split(example.put(it.words)), text=it.lines.encode())
            yield name, it, ended, example.put(it.says), Took(time.monotonic() - began, processor_seconds() - used)


class Questions(unittest.TestCase):
    def test_each_is_one_command(self) -> None:
        self.assertEqual(len(QUESTIONS), 22)
        folder = pathlib.Path(tempfile.mkdtemp())
        self.addCleanup(shutil.rmtree, folder)
        for name, it, ended, says, took in asked(folder):
            with self.subTest(f"{it.question} {name}"):
                self.assertIn(ended.status, it.statuses, ended.err)
                self.assertIn(says, ended.out)
                self.assertLess(took.processor, max(LIMIT, LONGER.get((it.question, name), 0)))


def main() -> int:
    """The seconds of each command on each example, by the clock."""
    with tempfile.TemporaryDirectory() as folder:
        found: Dict[str, List[float]] = {}
        for _, it, _, _, took in asked(pathlib.Path(folder)):
            found.setdefault(it.question, []).append(took.clock)
    print(f"{'question':45}", *(f"{name:>7}" for name in EXAMPLES))
    for question, times in found.items():
        print(f"{question:45}", *(f"{seconds:7.2f}" for seconds in times))
    return 0


if __name__ == "__main__":
    sys.exit(main())
