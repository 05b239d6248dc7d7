"""The old words of evacask answer as the new ones do, byte for byte, and aren't in the help."""
import pathlib
import unittest
from typing import List

from companion.tests.asking import EXAMPLES, TOP, ask
from evacask.faces.commands import COMMANDS, OLD_WORDS
from evacask.model.building import model_of


def arguments(word: str, path: pathlib.Path) -> List[object]:
    """What a command takes besides the building."""
    return [*next(iter(model_of(path.read_text()).arcs)), 3000] if word == "width" else []


class OldWords(unittest.TestCase):
    def test_they_answer_alike(self) -> None:
        for old, new in OLD_WORDS.items():
            for path in sorted((TOP / "examples").glob("*.plan")) if new == "convert" else EXAMPLES:
                with self.subTest(old, path=path.name):
                    words = arguments(new, path)
                    self.assertEqual(ask(old, path, *words, text="cut 1\n"), ask(new, path, *words, text="cut 1\n"))

    def test_they_are_not_in_the_help(self) -> None:
        said = ask("--help").out
        for old in OLD_WORDS:
            self.assertNotRegex(said, rf"(?m)^ +{old}\b")
        self.assertTrue(all(f"\n    {it.name} " in said for it in COMMANDS))

    def test_they_answer_after_options_too(self) -> None:
        path = TOP / "examples/one_room.evac"
        self.assertEqual(ask("--program", "/nowhere", "ways", path).status, 70)
        self.assertEqual(ask("explain", 1, "ways").status, 2)


if __name__ == "__main__":
    unittest.main()
