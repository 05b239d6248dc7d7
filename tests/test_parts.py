#!/usr/bin/env python3
"""Tests of the checks of the documents for maintainers: what they find in pages, lists and tables that were changed by a slip.

    tests/test_parts.py
"""
import contextlib
import pathlib
import shutil
import sys
import tempfile
import unittest

TOP = pathlib.Path(__file__).resolve().parent.parent
sys.dont_write_bytecode = True
sys.path[:0] = [str(TOP / "tools"), str(TOP / "bench")]
import check_promises
import edits_of_promises
import made_parts
import shown_numbers
import speed_page


@contextlib.contextmanager
def changed(page, old, new):
    """The folder of the documents, as they are with one change in a page, for the checks to look at."""
    (TOP / "out").mkdir(exist_ok=True)
    with tempfile.TemporaryDirectory(dir=TOP / "out") as folder:
        copy = pathlib.Path(folder)
        shutil.copytree(TOP / "docs/maintainers", copy, dirs_exist_ok=True)
        text = (copy / page).read_text()
        if old not in text:
            raise LookupError(f"{page} has no {old}")
        (copy / page).write_text(text.replace(old, new, 1))
        kept = made_parts.FOLDER, speed_page.PAGE
        made_parts.FOLDER, speed_page.PAGE = copy, copy / "speed.md"
        try:
            yield copy
        finally:
            made_parts.FOLDER, speed_page.PAGE = kept


@contextlib.contextmanager
def listed(old, new):
    """The list of refused edits with one change."""
    with tempfile.TemporaryDirectory() as folder:
        copy = pathlib.Path(folder) / "refused.txt"
        copy.write_text(check_promises.EDITS.read_text().replace(old, new, 1))
        kept, edits_of_promises.EDITS = edits_of_promises.EDITS, copy
        try:
            yield copy
        finally:
            edits_of_promises.EDITS = kept


class Parts(unittest.TestCase):
    """What is made from the sources."""

    def test_nothing_is_found_in_the_pages_as_they_are(self):
        self.assertEqual(list(made_parts.differences()), [])
        self.assertEqual(speed_page.differing(is_written=False), [])

    def test_a_word_of_a_definition(self):
        with changed("definitions.md", "the people who left a node by a moment", "the people who left a node at a moment"):
            self.assertEqual([it.partition(":")[0] for it in made_parts.differences()], ["definitions.md"])

    def test_a_sign_of_a_law(self):
        with changed("laws.md", "k ≤ m.horizon → IsFeasible m' q k", "k < m.horizon → IsFeasible m' q k"):
            self.assertEqual([it.partition(":")[0] for it in made_parts.differences()], ["laws.md"])

    def test_a_crate_too_many(self):
        with changed("architecture.md", "| `evac_law` | arrayvec", "| `evac_law` | serde, arrayvec"):
            self.assertEqual([it.partition(":")[0] for it in made_parts.differences()], ["architecture.md"])

    def test_a_law_that_is_not_shown(self):
        with changed("laws.md", "<!-- from: laws pace_never_falls -->", "<!-- from: laws ways_keep_pace -->"):
            self.assertIn("laws.md: pace_never_falls isn't read aloud", list(made_parts.differences()))

    def test_a_name_that_is_not_there(self):
        with changed("definitions.md", "moved came left", "moved went left"):
            self.assertIn("definitions.md: evac_law has no words above went", list(made_parts.differences()))

    def test_a_number_of_a_table_of_speed(self):
        name, made = next(iter(speed_page.tables().items()))
        row = made.split("\n")[2]
        with changed("speed.md", row, row.replace("1", "2", 1)):
            self.assertEqual(len(speed_page.differing(is_written=False)), 1, name)

    def test_long_sentences_are_cut_where_they_may_end(self):
        self.assertEqual(made_parts.shortened("A table by row and moment."), "A table by row and moment.")
        long = "An editing session: a model with its best plan, repaired after each edit, and edits undone."
        self.assertEqual(made_parts.shortened(long), "An editing session: a model with its best plan, repaired after each edit.")


class Numbers(unittest.TestCase):
    """The numbers in prose."""

    def test_a_number_that_no_block_of_its_law_shows(self):
        with changed("laws.md", "out by 6, or by 4", "out by 17, or by 4") as folder:
            self.assertEqual(list(shown_numbers.differences(folder)), ["laws.md: nothing shows the 17 of the section Capacities"])

    def test_a_limit_that_the_code_has_otherwise(self):
        with changed("proved.md", "at most 40,000,000 bytes", "at most 30,000,000 bytes") as folder:
            found = list(shown_numbers.differences(folder))
        self.assertIn("proved.md: nothing shows the 30000000 of the section certificate_text, block_reader: blocks both ways", found)

    def test_a_line_of_the_list_whose_file_says_otherwise(self):
        listed_numbers = shown_numbers.SHOWN.read_text().replace("block_limit = 40000000", "block_limit = 40000001")
        found = list(shown_numbers.differences(made_parts.FOLDER, listed_numbers))
        self.assertIn("shown_numbers.txt: crates/certificate_text/specs/BlockLaws.antt has no block_limit = 40000001", found)


class Names(unittest.TestCase):
    """What is named by hand."""

    def test_a_definition_of_the_laws_that_no_page_has(self):
        with changed("definitions.md", "[`HasShares`]", "[`HasMore`]") as folder:
            found = list(check_promises.missing_statements(folder / "laws.md", folder / "definitions.md"))
        self.assertEqual(found, ["laws.md: HasShares isn't read aloud"])

    def test_a_clause_that_the_row_of_a_promise_names(self):
        with changed("proved.md", "`Session::trial`: `ends`", "`Session::trial`: `end`") as folder:
            self.assertEqual(len(list(check_promises.missing_rows(folder / "proved.md"))), 1)

    def test_an_edit_that_is_not_listed(self):
        with listed("evac_law/entrants_are_no_people", "evac_law/entrants_are_people") as copy:
            found = list(check_promises.wrong_edits(copy))
        self.assertIn("refused.txt: no edit entrants_are_no_people of evac_law", found)
        self.assertIn("refused.txt: evac_law has no edit entrants_are_people", found)

    def test_a_clause_that_refuses_an_edit(self):
        with listed("inverse_forgets_window: `apply`: `undoes`", "inverse_forgets_window: `apply`: `undo`") as copy:
            self.assertEqual(list(check_promises.wrong_edits(copy)), ["refused.txt: no undo for the edit inverse_forgets_window of evac_law"])

    def test_a_promise_without_an_edit(self):
        with listed("flow_repair/leaves_a_place_over: `reshape`: `net` (`IsReshaped`: `within`)", ""):
            clauses = list(edits_of_promises.clauses_of_edits())
        self.assertNotIn("leaves_a_place_over", [edit for _, edit, _ in clauses])
        self.assertIn("fits_the_arcs_that_leave", [edit for _, edit, _ in clauses])

    def test_a_number_of_a_list(self):
        with changed("contributing.md", "3. **Prove it**", "4. **Prove it**") as folder:
            self.assertEqual(list(check_promises.misnumbered(folder / "contributing.md"))[0], "contributing.md: 4 after 2 in a list")

    def test_two_modules_that_define_a_name(self):
        with tempfile.TemporaryDirectory() as folder:
            copy = pathlib.Path(folder) / "names_of_two.txt"
            copy.write_text(check_promises.SHARED_NAMES.read_text().replace("`Kind`: evac_law, residual_net", ""))
            self.assertEqual([it.split()[1] for it in check_promises.wrong_names(copy)], ["Kind"])


if __name__ == "__main__":
    unittest.main()
