"""The commands assign, improve, range, sweep, losses, admit, rescue, observed, sheet and compare --unforeseen, with numbers worked out by hand.

The one room: 3 people, a door for 2 a period, a walk of 1 period of 5 s, a horizon of 20. So 2 are out by moment 1, and all by 2. Two exits: 8 people, an
exit for 1 a period at 1 period, and one for 5 a period at 3.
"""
import csv
import io
import json
import os
import pathlib
import shlex
import shutil
import subprocess
import tempfile
import unittest
from typing import Dict, List

from companion.tests.asking import TOP, Ended, run
from evacask import Ground, percents, read, reads
from evacask.questions.improve import improve

ROOM, EXITS, OFFICE = (TOP / f"examples/{name}.evac" for name in ("one_room", "two_exits", "office"))
TABLES = {
    "costs.csv": "from,to,step,cost,most\nWP1.1,DS1.1,1,7,5\n",
    "dear.csv": "from,to,step,cost,most\nWP1.1,DS1.1,1,7,0\n",
    "drill.csv": "seconds,DS1.1\n9,1\n30,3\n",
    "fast.csv": "seconds,DS1.1\n4,1\n",
    "scenarios.csv": "name,edits\nnarrow,rate WP1.1 DS1.1 1\nshut,shut WP1.1 DS1.1\nnone,\n",
    "intervals.csv": "from,to,rate low,rate high\nWP1.1,DS1.1,1,3\n",
    "halves.csv": "from,to,step,cost,most\nWP1.1,DS1.1,0.5,7,5\n",
    "halves_scenarios.csv": "name,edits\nnarrow,rate WP1.1 DS1.1 0.5\n",
}
# The words of a command, its status, and what stands in its lines.
ANSWERS = (
    (
        "assign ROOM",
        0,
        [
            "all are out by moment 2 (10 to 15 s): as soon as by the best plan.",
            "No such plan is better.",
            "WP1.1       3  DS1.1  10 to 15 s  WP1.1 DS1.1",
        ],
    ),
    ("assign EXITS", 0, ["by moment 4 (20 to 25 s): 1 period later than by the best plan, 3 (15 to 20 s).", "No such plan is better.", "DS2.1"]),
    ("assign EXITS --nearest", 0, ["by moment 8 (40 to 45 s): 5 periods later than by the best plan"]),
    (
        "improve ROOM 10",
        0,
        ["For 1 all are out by moment 1 (5 to 10 s). No cheaper purchase is enough: 1 cut of the program shows it.", "   1    2     3  WP1.1 DS1.1"],
    ),
    ("improve ROOM 10 --costs costs.csv", 0, ["For 7 all are out by moment 1 (5 to 10 s)."]),
    (
        "improve ROOM 10 --costs dear.csv",
        1,
        ["No widening is enough: at most 2 of 3 can be out by moment 1 (5 to 10 s), whatever is bought of these."],
    ),
    ("improve ROOM 15", 0, ["All are out by moment 2 (10 to 15 s) as it is: nothing is needed."]),
    (
        "improve ROOM --budget 6 --costs costs.csv",
        0,
        [
            "All are out by moment 2 (10 to 15 s) as it is: nothing is needed.",
            "For all to be out by moment 1 (5 to 10 s) it takes at least 7, more than the budget of 6.",
        ],
    ),
    (
        "improve ROOM --budget 7 --costs costs.csv",
        0,
        ["For 7 all are out by moment 1 (5 to 10 s).", "No budget is enough for all to be out by moment 0 (0 to 5 s): at most 0 of 3 can be."],
    ),
    ("range ROOM --rate 50", 0, ["5 to 10 s  10 to 15 s  15 to 20 s  rate", "Certain for every building within these ranges"]),
    ("range ROOM --table intervals.csv", 0, ["5 to 10 s  10 to 15 s  15 to 20 s  rate"]),
    ("range ROOM --people 34", 0, ["5 to 10 s  10 to 15 s  15 to 20 s  people"]),
    ("losses ROOM -k 1", 0, ["0 of 3  WP1.1 DS1.1", "Of the 1 place, each that isn't listed"]),
    ("losses EXITS -k 1 --exits", 0, ["40 to 45 s  8 of 8  DS2.1", "20 to 25 s  8 of 8  DS1.1"]),
    ("losses EXITS -k 2 --exits", 0, ["0 of 8  DS1.1, DS2.1"]),
    ("admit ROOM 15 --room WP1.1", 0, ["WP1.1 may hold 4 people at the start", "Now it is 3.", "With one more at most 4 of 5 are out by then."]),
    (
        "admit ROOM 10",
        0,
        ["99.9 % of the people now, in each room alike, can be out by moment 1 (5 to 10 s): 2. Now it is 3.", "may hold 2 of the 10"],
    ),
    ("rescue ROOM --seconds 10", 1, ["2 of 3 can be out by moment 1 (5 to 10 s), and no more.", "   1   3  WP1.1"]),
    ("rescue ROOM", 0, ["All 3 can be out by moment 20 (100 to 105 s)."]),
    (
        "observed ROOM drill.csv",
        0,
        ["9    1     2               from 5 s     4 s", "30    3     3              from 10 s    20 s", "DS1.1         3"],
    ),
    ("observed ROOM fast.csv", 10, ["At 4 s 1 were out, and no plan has more than 0 out"]),
    (
        "compare EXITS --edit 'shutexit DS1.1' --unforeseen 5",
        0,
        [
            "3  15 to 20 s          8 of 8  as it is",
            "4  20 to 25 s   +5 s  8 of 8  shutexit DS1.1, from moment 1 (5 to 10 s), known",
            "and nobody knew",
        ],
    ),
)
# Words about the room in tenths of a person, with a door for 1.5 people a period: out are 0, 1.5, 3.
IN_SHARES = (
    ("summary ROOM", ["cleared      2 (10 to 15 s)"]),
    ("assign ROOM", ["all are out by moment 2 (10 to 15 s)", "WP1.1       3  DS1.1"]),
    ("improve ROOM 10", ["For 2 all are out by moment 1 (5 to 10 s).", "   2  1.5   3.5  WP1.1 DS1.1"]),
    ("improve ROOM 10 --costs halves.csv", ["For 21 all are out by moment 1 (5 to 10 s).", "  21  1.5     3  WP1.1 DS1.1"]),
    ("range ROOM --rate 50", ["10 to 15 s  10 to 15 s  25 to 30 s  rate"]),
    ("range ROOM --table intervals.csv", ["5 to 10 s  10 to 15 s  15 to 20 s  rate"]),
    ("losses ROOM -k 1", ["0 of 3  WP1.1 DS1.1"]),
    ("admit ROOM 10 --room WP1.1", ["WP1.1 may hold 1 person at the start", "With one more at most 1.5 of 2 are out by then."]),
    ("admit ROOM 15", ["may hold 3 of the 10 who fit"]),
    ("rescue ROOM --seconds 10", ["1.5 of 3 can be out by moment 1 (5 to 10 s)", " 1.5   3  WP1.1"]),
    ("observed ROOM drill.csv", ["9    1   1.5"]),
    ("sweep ROOM halves_scenarios.csv", ["narrow,rate WP1.1 DS1.1 0.5,3,6,"]),
)
# Words and rooms that aren't there.
MISTAKES = (
    ("assign ROOM --effort 0", 2, "0 is no effort: 1 to 1,000 times the usual work"),
    ("improve ROOM", 2, "improve takes the seconds within which all are to be out, or --budget"),
    ("improve ROOM 4", 2, "4 s is less than the period of 5 s"),
    ("improve ROOM 9999", 2, "9999 s is behind the horizon, 20 (100 to 105 s)"),
    ("improve ROOM 10 --costs none.csv", 3, "none.csv can't be read"),
    ("range ROOM", 2, "range takes percents by --rate, --travel and --people, or the intervals of a file by --table"),
    ("range ROOM --rate 101", 2, "101: write 20"),
    ("sweep ROOM scenarios.csv --shard 0/3", 2, "0/3 is no shard"),
    ("sweep ROOM scenarios.csv --shard 4/3", 2, "4/3 is no shard"),
    ("sweep ROOM scenarios.csv --jobs 0", 2, "0 is no number of jobs"),
    ("losses ROOM -k 4", 2, "there may be 1 to 3 places"),
    ("losses ROOM --top 0", 2, "1 to 1,000 losses"),
    ("admit ROOM 15 --room DS1.1", 2, "DS1.1 is an exit: nobody starts there"),
    ("admit ROOM 15 --room WP9.1", 1, "there is no node WP9.1 in the building; near it: WP1.1"),
    ("rescue ROOM --seconds 1", 2, "1 s is less than the period of 5 s"),
    ("compare ROOM --unforeseen 5", 2, "--unforeseen takes one building, and one --edit or more"),
    ("compare ROOM --edit 'shut WP1.1 DS1.1' --unforeseen 4", 2, "the moment is 0"),
    ("compare ROOM --edit 'enter WP1.1 1' --unforeseen 5", 1, "refused 42"),
    ("sheet - -", 2, "one of the two tables can come from standard input"),
)


class Questions(unittest.TestCase):
    def setUp(self) -> None:
        self.folder = pathlib.Path(tempfile.mkdtemp())
        self.addCleanup(shutil.rmtree, self.folder)
        for name, text in TABLES.items():
            (self.folder / name).write_text(text)

    def ask(self, words: str, *more: str) -> Ended:
        """A command whose files stand in the folder."""
        places = {"ROOM": str(ROOM), "EXITS": str(EXITS), "OFFICE": str(OFFICE)}
        given = [places.get(it, str(self.folder / it) if it.endswith(".csv") else it) for it in shlex.split(words)]
        return run(*given, *more)

    def test_answers(self) -> None:
        for words, status, lines in ANSWERS:
            with self.subTest(words):
                said = self.ask(words)
                self.assertEqual((said.status, said.err), (status, ""), said.out)
                for line in lines:
                    self.assertIn(" ".join(line.split()), " ".join(said.out.split()))

    def test_mistakes(self) -> None:
        for words, status, what in MISTAKES:
            with self.subTest(words):
                said = self.ask(words)
                self.assertEqual((said.status, said.out, said.err.count("\n")), (status, "", 1), said.err)
                self.assertIn(what, said.err)

    def test_each_has_csv_and_json(self) -> None:
        for words in (
            "assign ROOM",
            "improve ROOM 10",
            "range ROOM --rate 50",
            "losses ROOM -k 1",
            "admit ROOM 10",
            "rescue ROOM --seconds 10",
            "observed ROOM drill.csv",
        ):
            with self.subTest(words):
                rows: List[Dict[str, str]] = list(csv.DictReader(io.StringIO(self.ask(words, "--csv").out)))
                self.assertEqual(len(rows), 2 if words.startswith("observed") else 1)
                answer = json.loads(self.ask(words, "--json").out)
                self.assertEqual((answer["schema"], answer["question"]), (1, words.split()[0]))
                self.assertIn(answer["answer"]["ground"], ("proved", "by the cuts", "printed plan", "evacask"))
        rows = list(csv.DictReader(io.StringIO(self.ask("sweep ROOM scenarios.csv").out)))
        self.assertEqual(
            [(it["name"], it["cleared"], it["before_s"], it["most"]) for it in rows],
            [("narrow", "3", "20", "3"), ("shut", "", "", "0"), ("none", "2", "15", "3")],
        )
        self.assertEqual(json.loads(self.ask("sweep ROOM scenarios.csv", "--json").out)["answer"]["rows"][0]["cleared"], 3)

    def test_help_and_example(self) -> None:
        for name in "assign improve range sweep losses admit rescue observed sheet".split():
            with self.subTest(name):
                said = run(name, "--help")
                self.assertEqual(said.status, 0)
                self.assertIn(f"./evacask {name} ", said.out)

    def test_plans_that_are_written_pass_check(self) -> None:
        program = os.environ.get("EVACPLAN", str(TOP / "crates/evacplan/out/evacplan"))
        plan = self.folder / "plan.txt"
        self.assertEqual(self.ask("assign EXITS", "--plan", str(plan)).status, 0)
        said = subprocess.run([program, "check"], input=EXITS.read_bytes() + plan.read_bytes(), capture_output=True)
        self.assertTrue(said.stdout.startswith(b"no 57 "), said.stdout)

    def test_what_is_found_and_what_is_proved_when_the_work_runs_out(self) -> None:
        school = read(TOP / "examples/school.evac")
        exact, quick = (improve(school.client, school.model, 14, work=work) for work in (10**8, 60_000))
        self.assertTrue(exact.is_exact)
        self.assertFalse(quick.is_exact)
        self.assertLess(quick.at_least, exact.cost or 0)
        self.assertLessEqual(exact.cost or 0, quick.cost or 0)
        self.assertIsNone(improve(school.client, school.model, 14, work=1).cost)

    def test_a_range_that_is_not_certain_says_why(self) -> None:
        window = read(EXITS).model.text.replace("evacplan 1", "evacplan 2").replace("end\n", "window WP1.1 DS1.1 1 2\nend\n")
        answer = reads(window).ranges(percents(reads(window).model, travel=(50, 50)))
        self.assertIn("an arc has a window", answer.doubt or "")
        self.assertEqual(answer.ground, Ground.OWN)

    def test_shares_are_answered_in_people(self) -> None:
        """The room in tenths of a person, with a door for 1.5 people a period."""
        path = self.folder / "shares.evac"
        path.write_text(ROOM.read_text().replace("period 5", "#shares 10\nperiod 5").replace("10 3", "100 30").replace("1 2\n", "1 15\n"))
        for words, lines in IN_SHARES:
            with self.subTest(words):
                said = run(*(str(path) if it == "ROOM" else str(self.folder / it) if it.endswith(".csv") else it for it in shlex.split(words)))
                self.assertEqual((said.status in (0, 1), said.err), (True, ""), said.out)
                for line in lines:
                    self.assertIn(" ".join(line.split()), " ".join(said.out.split()))
        self.assertIn("10 shares of each person", run("sheet", self.folder / "n.csv", self.folder / "w.csv", "--back", path).err)
        self.assertFalse((self.folder / "n.csv").exists())

    def test_people_that_are_no_shares_are_named(self) -> None:
        path, answers = self.folder / "shares.evac", self.folder / "answers.csv"
        path.write_text(ROOM.read_text().replace("period 5", "#shares 10\nperiod 5").replace("10 3", "100 30").replace("1 2\n", "1 15\n"))
        for words, table, what in (
            ("sweep", "name,edits\na,rate WP1.1 DS1.1 0.25\n", "row 2, column edits: rate WP1.1 DS1.1 0.25: 0.25 people are 2.5 shares"),
            ("improve 10 --costs", "from,to,step,cost,most\nWP1.1,DS1.1,0.25,1,\n", "row 2, column step: 0.25 people are 2.5 shares"),
            ("improve 10 --costs", "from,to,step,cost,most\nWP1.1,DS1.1,x,1,\n", "row 2, column step: 'x' is no number of people from 0.1 to 1,000"),
            ("range --table", "from,to,rate low,rate high\nWP1.1,DS1.1,1.25,2\n", "row 2, column rate low: 1.25 people are 12.5 shares"),
        ):
            with self.subTest(what):
                (self.folder / "given.csv").write_text(table)
                name, *more = words.split()
                said = run(name, path, *more, self.folder / "given.csv", *(["-o", answers] if name == "sweep" else []))
                self.assertEqual((said.status, said.out, answers.exists()), (1, "", False))
                self.assertIn(what, said.err)

    def test_the_same_building_has_the_same_answer(self) -> None:
        school = TOP / "examples/school.evac"
        self.assertEqual(run("assign", school).out, run("assign", school).out)


if __name__ == "__main__":
    unittest.main()
