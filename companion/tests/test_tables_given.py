"""Tables that users write, given to the commands: a fault is one line with table, row and column, and nothing is half written.

What is read of them is tested in unit_given_tables.py, from which the hostile tables are.
"""
import pathlib
import shutil
import tempfile
import unittest
from typing import List

from companion.tests.asking import SCHOOL, Ended, ask, run
from companion.tests.unit_given_tables import HOSTILE, MANY, NODES, TABLES, WAYS, many

# The words of a command that takes a table of a kind; OUT is a file that it would write.
WORDS = {
    "costs": "improve SCHOOL 95 --costs costs.csv",
    "ranges": "range SCHOOL --table ranges.csv",
    "counts": "observed SCHOOL counts.csv",
    "scenarios": "sweep SCHOOL scenarios.csv -o OUT",
    "nodes": "sheet nodes.csv ways.csv -o OUT",
    "ways": "sheet nodes.csv ways.csv -o OUT",
}
QUIT = [
    ("scenarios", TABLES["scenarios"].replace("enter WP1.2 5", it), f"row 3, column edits: {it.split()[0]} is no edit") for it in ("quit", "undo")
]


class Tables(unittest.TestCase):
    def setUp(self) -> None:
        self.folder = pathlib.Path(tempfile.mkdtemp())
        self.addCleanup(shutil.rmtree, self.folder)

    def put(self, kind: str, text: str) -> Ended:
        """What the command says of a table, beside which others of its building are right."""
        for name, given in {"nodes": NODES, "ways": WAYS, kind: text}.items():
            (self.folder / f"{name}.csv").write_text(given)
        return ask(*(str(SCHOOL) if it == "SCHOOL" else str(self.folder / it) if it.endswith((".csv", "OUT")) else it for it in WORDS[kind].split()))

    def written(self) -> List[str]:
        return sorted(it.name for it in self.folder.iterdir() if it.suffix != ".csv")

    def test_each_fault_is_one_line(self) -> None:
        empty = [(kind, "", "row 1: there are no rows") for kind in TABLES]
        large = [(kind, many(kind), f"row {row}") for kind, (row, _) in MANY.items()]
        for kind, text, what in (*HOSTILE, *empty, *large, *QUIT):
            with self.subTest(f"{kind}: {what}"):
                said = self.put(kind, text)
                self.assertEqual((said.status, said.out, said.err.count("\n"), self.written()), (1, "", 1, []))
                self.assertTrue(said.err.startswith(f"evacask: {self.folder}/{kind}.csv, row "), said.err)
                self.assertIn(what.replace("nodes.csv", f"{self.folder}/nodes.csv"), said.err)

    def test_right_tables_are_answered(self) -> None:
        for kind, text in TABLES.items():
            with self.subTest(kind):
                said = self.put(kind, text)
                self.assertEqual((said.status, said.err), (int(kind == "scenarios"), ""))  # (one of the two edits an arc that isn't there)

    def test_a_building_that_is_there_stays_as_it_is(self) -> None:
        (self.folder / "OUT").write_text("mine")
        self.put("nodes", NODES.replace("60,40", "60,70"))
        self.assertEqual((self.folder / "OUT").read_text(), "mine")

    def test_tables_that_are_there_are_written_over_by_force_alone(self) -> None:
        self.put("nodes", NODES)
        said = run("sheet", self.folder / "nodes.csv", self.folder / "none.csv")
        self.assertEqual(said.status, 3)
        said = run("sheet", self.folder / "nodes.csv", self.folder / "ways.csv", "--back", SCHOOL)
        self.assertEqual((said.status, (self.folder / "nodes.csv").read_text()), (4, NODES))
        self.assertIn("is there already", said.err)


if __name__ == "__main__":
    unittest.main()
