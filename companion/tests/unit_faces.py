"""Sheets and the progress line, without a program."""
import contextlib
import io
import json
import time
import unittest
from dataclasses import dataclass, replace

from evacask.faces.improve import lines
from evacask.faces.progress import LINE, progress, waiting
from evacask.faces.sheet import Column, Sheet, as_csv, as_json, as_text
from evacask.model.building import model_of
from evacask.model.ground import Ground
from evacask.questions.improve import Improvement


@dataclass(frozen=True)
class Answer:
    people: int
    ground: Ground = Ground.PROVED


SHEET = Sheet(
    Answer(3),
    ("Before.",),
    (Column("way", "way"), Column("people", "people", True, ground=Ground.PRINTED), Column("", "name", is_shown=False)),
    (("WP1.1 DS1.1", 3, "=A1"), ("+WP2.1", None, "Hall \x1b[31m")),
)


class Sheets(unittest.TestCase):
    def test_text_shows_the_columns_that_are_wanted(self) -> None:
        self.assertEqual(as_text(SHEET), "Before.\nway          people\nWP1.1 DS1.1       3\n+WP2.1\n")

    def test_all_columns_and_their_grounds(self) -> None:
        lines = as_text(SHEET, all_columns=True).splitlines()
        self.assertEqual(lines[1].split(), ["way", "people", "name"])
        self.assertEqual(lines[-1], "ground: proved; of people: printed plan")

    def test_names_that_would_act_in_a_terminal_or_a_spreadsheet(self) -> None:
        self.assertNotIn("\x1b", as_text(SHEET, all_columns=True))
        self.assertEqual(as_csv(SHEET), "way,people,name\nWP1.1 DS1.1,3,'=A1\n'+WP2.1,,Hall [31m\n")

    def test_json_says_where_it_comes_from(self) -> None:
        said = json.loads(as_json(SHEET, "why", {"sha256": "0", "logic": None}))
        self.assertEqual(said["answer"], {"people": 3, "ground": "proved"})
        self.assertEqual((said["schema"], said["question"], said["program"]["logic"], said["grounds"]), (1, "why", None, {"people": "printed plan"}))


class Budgets(unittest.TestCase):
    """What is said of a budget: what it buys, and what is known of the moment before."""

    def test_lines(self) -> None:
        model = model_of("evacplan 1\nperiod 5\nhorizon 20\nfloor 1 G\nnode WP1.1 10 8\nnode DS1.1\narc WP1.1 DS1.1 1 1\nend\n")
        bought, nothing = Improvement(4, 8, 3, 3, 4, (), 2), Improvement(8, 8, 0, 0, 8, (), 0)
        before = Improvement(3, 8, 6, 5, 3, (), 2)
        cases = (
            (bought, None, "For 3 all are out by moment 4 (20 to 25 s). No cheaper purchase is enough: 2 cuts of the program show it."),
            (replace(bought, sooner=before), 4, "For all to be out by moment 3 (15 to 20 s) it takes at least 5, more than the budget of 4."),
            (replace(bought, sooner=before), 5, "Whether the budget of 5 is enough for all to be out by moment 3 (15 to 20 s) isn't decided"),
            (
                replace(bought, sooner=replace(before, cost=None, most=7)),
                9,
                "No budget is enough for all to be out by moment 3 (15 to 20 s): at most 7 of 8",
            ),
            (replace(nothing, sooner=replace(before, moment=7)), 4, "All are out by moment 8 (40 to 45 s) as it is: nothing is needed."),
            (
                replace(bought, moment=20),
                2,
                "Nothing for the budget of 2 was found: for all to be out by moment 20 (100 to 105 s), which is the horizon",
            ),
            (Improvement(4, 8, None, 3, None, (), 2), 9, "Nothing was found until the work ran out. No purchase for less than 3"),
            (Improvement(4, 8, None, 3, None, (), 2, most=7), 9, "No widening is enough: at most 7 of 8 can be out by moment 4 (20 to 25 s)"),
        )
        for answer, budget, wanted in cases:
            with self.subTest(wanted):
                self.assertIn(wanted, "\n".join(lines(answer, model, budget, False)))


class Terminal(io.StringIO):
    def isatty(self) -> bool:
        return True


class Progress(unittest.TestCase):
    def setUp(self) -> None:
        LINE.last = 0.0

    def test_it_is_for_a_terminal_alone(self) -> None:
        with contextlib.redirect_stderr(io.StringIO()) as said:
            waiting(3)
        self.assertEqual(said.getvalue(), "")

    def test_a_count_is_shown_after_a_second_and_erased(self) -> None:
        with contextlib.redirect_stderr(Terminal()) as said, progress("ways") as tell:
            tell(1, 3)
            self.assertEqual(said.getvalue(), "")
            time.sleep(1.1)
            waiting(1)
            tell(2, 3)
        self.assertEqual(said.getvalue(), "\r\x1b[Kevacask: 2 of 3 ways\r\x1b[K")

    def test_waiting_for_the_program(self) -> None:
        with contextlib.redirect_stderr(Terminal()) as said:
            waiting(1)
            LINE.erase()
            LINE.erase()
        self.assertEqual(said.getvalue(), "\r\x1b[Kevacask: the program has been at work for 1 s\r\x1b[K")


if __name__ == "__main__":
    unittest.main()
