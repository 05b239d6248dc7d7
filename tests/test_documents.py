#!/usr/bin/env python3
"""Tests the checks of the documents' prose, evidence.py and style.py, on pages that are made here. No program is needed."""
from __future__ import annotations

import pathlib
import sys
import tempfile
import unittest

TOP = pathlib.Path(__file__).resolve().parent.parent
sys.path.insert(0, str(TOP / "tools"))
import evidence  # noqa: E402
import style  # noqa: E402

PAGE = """# A page

The house has 3 rooms. It has a [door](x.md) of **0.90 m**,
and `rate 9` isn't a number of the prose.

```text
5 lines of a block don't count.
```

| Row | 7 m wide |
|---|---|

<!-- codes: building -->

| 1 | made |

- Stair 2 is shut.
"""


class Evidence(unittest.TestCase):
    def setUp(self) -> None:
        folder = tempfile.TemporaryDirectory()
        self.addCleanup(folder.cleanup)
        self.runner = evidence.Runner(pathlib.Path("/bin/cat"), pathlib.Path(folder.name))

    def found(self, text: str, page: str = PAGE) -> "list[str]":
        """What the check finds, with the names of files and numbers of lines taken off."""
        listed = evidence.entries(f"a/page.md\n{text}")
        return [it.split(": ", 1)[1] for it in evidence.differences(listed, {"a/page.md": page}, self.runner)]

    def test_each_sentence_with_a_number_needs_evidence(self) -> None:
        wanted = [
            "The house has 3 rooms.",
            "It has a door of 0.90 m, and `rate 9` isn't a number of the prose.",
            "Row | 7 m wide",
            "Stair 2 is shut.",
        ]
        self.assertEqual(list(evidence.bare(PAGE, [])), wanted)

    def test_a_quote_shows_its_own_numbers_alone(self) -> None:
        self.assertEqual(list(evidence.bare("It is 3 m long and 4 m high.", ["It is 3 m long"])), ["It is 3 m long and 4 m high."])
        self.assertEqual(list(evidence.bare("It is 3 m long and 4 m high.", ["It is 3 m long", "and 4 m high."])), [])

    def test_a_quote_may_have_several_sentences(self) -> None:
        self.assertEqual(list(evidence.bare("It is 3 m long. It is 4 m high.", ["is 3 m long. It is 4 m high."])), [])

    def test_what_a_command_prints_is_looked_up(self) -> None:
        right = "> The house has 3 rooms. It has a door of 0.90 m,\n$ echo 3; echo 0.90\n3\n0.90\n"
        rest = "> Row | 7 m wide\n- measured\n> Stair 2 is shut.\n- measured\n"
        self.assertEqual(self.found(right + rest), [])
        self.assertEqual(self.found(right.replace("echo 3", "echo 4") + rest), ["not printed: 3"])

    def test_a_number_that_nothing_shows(self) -> None:
        rest = "> Row | 7 m wide\n- measured\n> Stair 2 is shut.\n- measured\n> door of 0.90 m\n- measured\n"
        self.assertEqual(self.found("> The house has 3 rooms.\n$ echo rooms\nrooms\n" + rest), ["nothing shows the 3 of: The house has 3 rooms."])

    def test_a_sentence_that_changed(self) -> None:
        rest = "> Row | 7 m wide\n- measured\n> Stair 2 is shut.\n- measured\n> door of 0.90 m\n- measured\n> The house has 3 rooms.\n$ echo 3\n3\n"
        self.assertEqual(self.found(rest), [])
        self.assertEqual(self.found(rest, PAGE.replace("is shut", "isn't shut"))[0], "a/page.md doesn't say: Stair 2 is shut.")
        digit = self.found(rest, PAGE.replace("3 rooms", "4 rooms"))
        self.assertEqual(digit, ["a/page.md doesn't say: The house has 3 rooms.", "no evidence for: The house has 4 rooms."])

    def test_the_file_of_evidence_is_about_documents_that_are_there(self) -> None:
        listed = evidence.entries(evidence.EVIDENCE.read_text())
        self.assertTrue(all((TOP / it.document).is_file() for it in listed))
        self.assertEqual([it.line for it in listed if bool(it.why) == bool(it.commands) or bool(it.commands) != bool(it.shown)], [])


class Style(unittest.TestCase):
    def test_counts(self) -> None:
        words = " ".join(["word"] * 26)
        page = f"Where it is wet, it stays. A doubt of `where`, and nobody alone. {words}.\n\n```sh\nwhere where\n```\n"
        self.assertEqual(style.counted(page), (39, 1, 1, 1, 2))

    def test_generated_parts_and_tables_of_codes_are_left_out(self) -> None:
        self.assertEqual(style.counted("one\n\n<!-- from: x -->\nfour words are here\n<!-- end -->\n\n<!-- codes: y -->\n\n| a | b |\n\ntwo\n")[0], 2)

    def test_a_bound_holds_what_grew(self) -> None:
        bounds = {"a.md": (10, 0, 1, 0, 0)}
        self.assertEqual(list(style.differences({"a.md": (10, 0, 1, 0, 0)}, bounds)), [])
        self.assertEqual(list(style.differences({"a.md": (10, 1, 1, 0, 0)}, bounds)), ["a.md: where: 1, and at most 0 may be"])
        self.assertEqual(len(list(style.differences({"b.md": (1, 0, 0, 0, 0)}, bounds))), 2)

    def test_a_bound_may_only_shrink(self) -> None:
        self.assertEqual(list(style.written({"a.md": (12, 1, 0, 4, 0)}, {"a.md": (10, 2, 1, 3, 0)})), ["a.md 10 1 0 3 0"])


if __name__ == "__main__":
    unittest.main()
