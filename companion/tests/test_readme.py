"""README's table of questions: each command is asked as it stands there, and prints the answer that the table says."""
import pathlib
import re
import shlex
import tempfile
import unittest
from typing import List, NamedTuple

from companion.tests.package import TOP, ask
from evacask.faces.commands import COMMANDS, OLD_WORDS


class Row(NamedTuple):
    """A row of the table: the words of a command, and what it prints."""

    words: List[str]
    answers: List[str]


def rows() -> List[Row]:
    """The rows whose second cell is a command of evacask. Paths are those of the repository, and a file that is written stands by itself."""
    page = (TOP / "README.md").read_text(encoding="utf-8")
    found = re.findall(r"(?m)^\|[^|\n]+\| `\./evacask ([^`]+)` \|([^|\n]+)\|$", page)
    return [
        Row([str(TOP / it) if it.startswith("examples/") else it for it in shlex.split(command)], re.findall("`([^`]+)`", answer))
        for command, answer in found
    ]


class Readme(unittest.TestCase):
    def test_each_row_of_the_table_comes_out_as_said(self) -> None:
        self.assertGreaterEqual(len(rows()), 7)
        for row in rows():
            with self.subTest(row.words), tempfile.TemporaryDirectory() as folder:
                written = [at for at, word in enumerate(row.words) if at and row.words[at - 1] == "-o"]
                words = [str(pathlib.Path(folder, it)) if at in written else it for at, it in enumerate(row.words)]
                said = ask(*words)
                self.assertEqual((said.status, said.err), (0, ""))
                for answer in row.answers:
                    self.assertIn(" ".join(answer.split()), " ".join(said.out.split()))
                self.assertEqual([it.name for it in pathlib.Path(folder).iterdir()], [row.words[at] for at in written])
                self.assertTrue(row.answers or written, "the table says nothing that can be compared")

    def test_the_table_has_the_questions_of_each_day(self) -> None:
        asked = {row.words[0] for row in rows()}
        self.assertLessEqual({"summary", "sensitivity", "width", "compare", "report"}, asked)
        self.assertLessEqual(asked, {it.name for it in COMMANDS})

    def test_the_changes_name_each_word_that_has_another_name_now(self) -> None:
        changes = (TOP / "CHANGELOG.md").read_text(encoding="utf-8")
        for old, new in OLD_WORDS.items():
            self.assertRegex(changes, rf"`{old}`[^\n]*`{new}`|`{old}`[^.]*`{new}`")


if __name__ == "__main__":
    unittest.main()
