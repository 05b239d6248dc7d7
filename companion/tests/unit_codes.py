"""The table of codes: the documents agree with it, and each code that a command can get has a meaning for it."""
import importlib.util
import pathlib
import re
import unittest

from evacask.model.codes import Place, forms_of, meaning_of, meanings, refusal, table
from evacask.model.forms import COMMANDS, EDITS

TOP = pathlib.Path(__file__).resolve().parent.parent.parent
# By docs/users/formats.md, "What refuses an edit", the codes of each edit but 2, 3, 6, 8, 13, 22 and 31, which any line can get.
OF_EDITS = {
    "shut": (5, 32, 34),
    "reopen": (5, 32, 35),
    "shutexit": (5, 34, 36),
    "openexit": (5, 35, 36),
    "rate": (5, 7, 32),
    "room": (5, 7, 12, 37),
    "shift": (5, 7, 12, 14, 37, 38),
    "enter": (5, 7, 12, 17, 37),
    "leave": (5, 7, 37, 38),
    "window": (5, 7, 24, 25, 26, 32),
    "unwindow": (5, 27, 32),
}


class Codes(unittest.TestCase):
    def test_the_tables_of_formats(self) -> None:
        spec = importlib.util.spec_from_file_location("codes_of_formats", TOP / "tools/codes.py")
        assert spec and spec.loader
        script = importlib.util.module_from_spec(spec)
        spec.loader.exec_module(script)
        page = script.PAGE.read_text(encoding="utf-8")
        self.assertEqual(page, script.written(page), "python3 tools/codes.py --write writes the tables")
        self.assertEqual(page.count("<!-- codes: "), 7)

    def test_the_table_of_statements(self) -> None:
        page = (TOP / "docs/users/formats.md").read_text(encoding="utf-8")
        for form, said in table()["statements"].items():
            self.assertIn(f"| `{form}` | {said['ranges']}".rstrip(), page)

    def test_the_forms_of_commands(self) -> None:
        page = (TOP / "docs/users/formats.md").read_text(encoding="utf-8")
        for mode, heading, head in (("session", "The session", "Command"), ("study", "The study", "Line")):
            section = page.split(f"## {heading}\n")[1].split("\n## ")[0]
            rows = section.split(f"| {head} | What ")[1].split("\n\n")[0].splitlines()[2:]
            written = re.findall(r"`([a-z]+)(?: ([^`]*))?`", " ".join(row.split("|")[1] for row in rows))
            self.assertEqual(dict(written), {**COMMANDS[mode], "quit": ""})

    def test_each_code_of_an_edit(self) -> None:
        self.assertEqual(set(OF_EDITS), set(EDITS))
        for word, codes in OF_EDITS.items():
            for code in (*codes, 2, 3, 6, 8, 13, 22, 31):
                for place in (Place.SESSION, Place.REPLAN):
                    with self.subTest(word=word, code=code, place=place):
                        self.assertIsNotNone(meaning_of(place, code, word))

    def test_a_meaning_is_of_its_command(self) -> None:
        said = str(refusal(Place.SESSION, 7, 0, "rate A B 99999"))
        self.assertEqual(said, "rate A B 99999: refused 7: The rate is above 10,000 people a period. Write 0 to 10,000.")
        self.assertNotIn("shut", str(refusal(Place.SESSION, 5, 0, "rate A B")))
        self.assertIn("travel", str(refusal(Place.BUILDING, 7, 3, "arc A B 0 1")))
        self.assertEqual(refusal(Place.STUDY, 31, 0, "shut A B").meaning, "The line is unknown.")
        self.assertEqual(refusal(Place.STUDY, 8, 0, "least x y 1").meaning, "A name was expected.")
        self.assertEqual(refusal(Place.CHECK, 13, 3, "arc A B 1 1").meaning, refusal(Place.BUILDING, 13, 3, "").meaning)

    def test_a_code_that_is_not_there(self) -> None:
        self.assertEqual((meanings(99), meaning_of(Place.BUILDING, 99), refusal(Place.SESSION, 99, 0, "x").meaning), ([], None, ""))
        self.assertEqual(str(refusal(Place.SESSION, 99, 0, "x")), "x: refused 99")

    def test_all_meanings_of_a_code(self) -> None:
        self.assertEqual([it.heading for it in meanings(34)], ["a session, shut", "a session, shutexit"])
        self.assertEqual([it.heading for it in meanings(12)], ["a building", "a session, room", "a session, shift", "a session, enter"])

    def test_forms(self) -> None:
        self.assertEqual(forms_of("arc"), ["arc FROM TO TRAVEL RATE: travel 1 to 600, rate 0 to 10,000"])
        self.assertEqual(len(forms_of("node")), 2)
        self.assertEqual((forms_of("rate", True), forms_of("least", True), forms_of("undo", True)), (["rate A B n"], ["least A B K"], ["undo"]))
        self.assertEqual((forms_of("x"), forms_of("x", True)), ([], []))


if __name__ == "__main__":
    unittest.main()
