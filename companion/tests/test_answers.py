"""The short answer, what each way costs, the cut, the least width and comparisons."""
import csv
import io
import pathlib
import re
import tempfile
import unittest

from companion.tests.asking import EXAMPLES, OFFICE, SCHOOL, TOP, ask, edited, found, solved
from evacask.faces.width import leaves_text
from evacask.model.building import model_of
from evacask.model.passages import GREATEST_FLOWS, SIDES
from evacask.questions.width import clear_width, leaves_for


def number(text: str, word: str) -> int:
    return int(found(re.search(rf"^{word} (\d+)", text, re.M)))


class Summary(unittest.TestCase):
    def test_its_numbers_are_the_program_s(self) -> None:
        for path in EXAMPLES:
            with self.subTest(path.name):
                said, report = ask("summary", path), solved(path.read_bytes(), "solve", "--reports")
                self.assertEqual((said.status, said.err), (0, ""))
                people, cleared = number(report, "people"), number(report, "cleared")
                shown = "\n".join(said.lines[:10])
                self.assertRegex(shown, rf"people +{people}\n")
                self.assertRegex(shown, rf"cleared +{cleared} \((from )?{number(report, 'seconds')} (to \d+ )?s\): ")
                self.assertRegex(shown, rf"uncongested +{number(report, 'uncongested')} ")
                out = int(found(re.search(rf"^out {cleared - 1} (\d+)", report, re.M)))
                self.assertIn(f"At most {out} of {people} can be out by moment {cleared - 1} ", shown)

    def test_the_walking_bound_is_printed_where_its_premises_hold(self) -> None:
        for path in EXAMPLES:
            with self.subTest(path.name):
                said = ask("summary", path).out
                bound = re.search(r"(?s)a best plan is over by (\d+) .*not proved", said)
                self.assertEqual(bool(bound), not re.search(r"^(window|entrant) ", path.read_text(), re.M))
                if bound:
                    cleared = int(found(re.search(r"cleared +(\d+) ", said)))
                    self.assertLessEqual(cleared, int(bound[1]))
                    self.assertIn("law: walking bound", said)

    def test_a_building_that_can_t_be_cleared(self) -> None:
        said = ask("summary", "-", text=edited(OFFICE, "arc WP1.3 HA1.3 1 6\n", ""))
        self.assertEqual((said.status, said.err), (1, ""))
        self.assertIn("at most 195 of 240 can", said.lines[0])
        self.assertIn("not proved: no way leads out from WP1.3 (45 people). Add the arc that is missing", said.lines[1])

    def test_a_horizon_that_is_too_short(self) -> None:
        said = ask("summary", "-", text=edited(OFFICE, "horizon 120", "horizon 20"))
        bound = found(re.search(r"a horizon of (\d+) is enough \(law: walking bound\)", said.lines[1]))
        self.assertEqual(ask("summary", "-", text=edited(OFFICE, "horizon 120", f"horizon {bound}")).status, 0)

    def test_nobody_inside(self) -> None:
        said = ask("summary", "-", text=edited(TOP / "examples/one_room.evac", "10 3", "10 0"))
        self.assertEqual((said.status, said.err), (0, ""))
        self.assertRegex(said.out, r"people +0\n")


class Ways(unittest.TestCase):
    def test_each_arc_and_exit_is_the_program_s_word(self) -> None:
        said = ask("ways", SCHOOL, "--csv")
        rows = list(csv.DictReader(io.StringIO(said.out)))
        self.assertEqual(len(rows), 20 + 2)
        text = SCHOOL.read_bytes()
        for row in rows:
            edit = f"shut {row['from']} {row['to']}" if row["from"] else f"shutexit {row['to']}"
            blocks = solved(text + f"{edit}\n".encode(), "session").split("end\n")[1:]
            wanted = re.search(r"^(cleared|most) (\d+)", blocks[0], re.M)
            self.assertEqual(row["without"] if found(wanted) == "cleared" else row["without_out"], found(wanted, 2), row)
            self.assertEqual(row["as_it_is"], "22")
            if row["from"]:
                blocks = solved(text + f"rate {row['from']} {row['to']} 10000\n".encode(), "session").split("end\n")[1:]
                self.assertEqual(row["widened"], str(number(blocks[0], "cleared")), row)

    def test_the_first_lines_say_which_way_decides(self) -> None:
        said = ask("ways", SCHOOL).lines
        self.assertIn("More rate helps most at LO2.1 DS2.1: 85 to 90 s.", said[0])
        self.assertIn("LO1.1 DS1.1 costs most: without it 275 to 280 s.", said[0])
        wanted = " *145 to 150 s +110 to 115 s +85 to 90 s  LO2.1 DS2.1  Foot of stair 2 to Door at stair 2"
        self.assertTrue(any(re.match(wanted, line) for line in said[:10]))

    def test_another_rate(self) -> None:
        said = ask("ways", SCHOOL, "--rate", 5).lines
        self.assertIn("rate 5", said[1])
        self.assertTrue(any(re.match(r" *145 to 150 s +110 to 115 s +100 to 105 s  LO2.1 DS2.1", line) for line in said), said)

    def test_what_costs_most_comes_first(self) -> None:
        for path in EXAMPLES:
            with self.subTest(path.name):
                said = ask("ways", path)
                self.assertEqual((said.status, said.err), (0, ""))
                matches = [re.match(r" *(short )?(\d+)( to \d+ s)? +\d+ to \d+ s ", line) for line in said.lines[2:]]
                costs = [(not it[1], int(it[2]) * (1 if it[1] else -1)) for it in matches if it]
                self.assertEqual(costs, sorted(costs))

    def test_a_building_that_can_t_be_cleared(self) -> None:
        said = ask("ways", "-", text=edited(OFFICE, "horizon 120", "horizon 20"))
        self.assertEqual((said.status, said.out), (1, ""))
        self.assertRegex(said.err, r"^evacask: -: at most \d+ of 240 can be out by the horizon; [^\n]*\n$")


class Why(unittest.TestCase):
    def test_the_items_of_each_period_add_up(self) -> None:
        for path in EXAMPLES:
            report = solved(path.read_bytes(), "solve")
            cleared = number(report, "cleared")
            for period in {0, 1, cleared // 2, cleared - 1}:
                with self.subTest(path.name, period=period):
                    said = ask("why", path, period)
                    self.assertEqual((said.status, said.err), (0, ""))
                    out = int(found(re.search(rf"^out {period} (\d+)", report, re.M)))
                    wanted = rf"At most {out} of \d+ can" if out else "Nobody can"
                    self.assertRegex(said.lines[0], rf"^{wanted} be out by moment {period} ")
                    self.assertEqual(sum(int(line.split()[0]) for line in said.lines[2:-1]), out)

    def test_without_a_period_it_is_the_one_below_cleared(self) -> None:
        said = ask("why", OFFICE).lines
        self.assertEqual(said[0], "At most 236 of 240 can be out by moment 27 (135 to 140 s). Each of them counts here:")
        self.assertEqual(said[2].split(None, 1), ["60", "not held up: WP1.1"])
        self.assertEqual(said[3].split(), "88 SW1.2 LO1.1 2 to 23 10 to 120".split())

    def test_a_closed_way_is_said(self) -> None:
        self.assertIn("closed at 12 to 29", ask("why", TOP / "examples/stair_repair.evac").out)

    def test_periods_beyond(self) -> None:
        self.assertIn("All 240 are out by moment 28", ask("why", OFFICE, 28).out)
        said = ask("why", OFFICE, 121)
        self.assertEqual((said.status, said.out, said.err.count("\n")), (1, "", 1))


class Wide(unittest.TestCase):
    def test_the_least_rate_is_the_study_s(self) -> None:
        said = ask("wide", SCHOOL, "LO1.1", "DS1.1", 109)
        said_of_it = solved(SCHOOL.read_bytes() + b"least LO1.1 DS1.1 20\n", "study")
        wanted = found(re.search(r"^least LO1.1 DS1.1 20 (\d+)", said_of_it, re.M))
        self.assertIn(f"needs a rate of {wanted} for everybody to be out by moment 20 (100 to 105 s); it has 9 now.", said.lines[0])
        self.assertIn("With 10 at most 198 of 200", said.lines[1])

    def test_a_width_lets_through_its_rate_and_a_centimetre_less_does_not(self) -> None:
        for kind in GREATEST_FLOWS:
            for rate in range(1, 40):
                width = clear_width(rate, 5, kind, SIDES[kind])
                lets = [GREATEST_FLOWS[kind] * (it - SIDES[kind]) * 5 for it in (width, width - 0.01)]
                self.assertTrue(lets[0] >= rate - 1e-9 and lets[1] < rate, (kind, rate))

    def test_leaves_that_are_not_held_open(self) -> None:
        self.assertEqual(leaves_text(leaves_for(4, 5)), "1 leaf, 0.92 m")
        self.assertEqual(leaves_text(leaves_for(8, 5)), "2 leaves, 1.54 m together")
        self.assertEqual(leaves_text(leaves_for(10, 6)), "2 leaves, 1.59 m together")
        self.assertEqual(leaves_text(leaves_for(11, 5)), "3 leaves in 2 doors, 2.30 m together")

    def test_a_period_counts_when_it_has_ended(self) -> None:
        # With periods of 5 s moment 19 lasts from 95 s to 100 s.
        for seconds, moment in ((99, 18), (100, 19), (104, 19)):
            self.assertIn(f"by moment {moment} ", ask("width", SCHOOL, "LO1.1", "DS1.1", seconds).lines[0])
        self.assertEqual((ask("width", SCHOOL, "LO1.1", "DS1.1", 4).status, ask("width", SCHOOL, "LO1.1", "DS1.1", 605).status), (1, 0))

    def test_the_tower_s_stairs_for_a_quarter_of_an_hour(self) -> None:
        # In fortieths of a person stairs of 1.24 m are wide enough, and those of 1.20 m aren't. In whole people both have the rate 4.
        tower = (TOP / "examples/tower.plan").read_text()
        ends = {}
        for width in ("1.20", "1.24"):
            drawn = tower.replace(" 1.30 178/279", f" {width} 178/279")
            for shares in (1, 40):
                text = ask("convert", "-", "--shares", shares, text=drawn).out
                ends[width, shares] = 5 * (int(found(re.search(r"^cleared (\d+)", solved(text.encode(), "solve"), re.M))) + 1)
        self.assertEqual(ends, {("1.20", 1): 1055, ("1.24", 1): 1055, ("1.20", 40): 940, ("1.24", 40): 900})
        in_shares = ask("convert", "-", "--shares", 40, text=tower).out
        said = ask("width", "-", "SW2.1", "DS2.0", 875, text=in_shares)
        self.assertIn("needs a rate of 4.7 for everybody to be out by moment 174 (870 to 875 s); it has 5.0 now.", said.lines[0])
        self.assertIn("stair 178/279       1.24 m", said.out)

    def test_never_and_not_at_all(self) -> None:
        self.assertIn("No rate of LO1.1 DS1.1 is enough: with 10,000 at most 180 of 240", ask("wide", OFFICE, "LO1.1", "DS1.1", 105).out)
        self.assertIn("HA1.3 SW1.3 isn't needed at all", ask("wide", OFFICE, "HA1.3", "SW1.3", 400).out)

    def test_names_that_are_not_there(self) -> None:
        for words, wanted in (
            (("LO1.2", "DS1.1", 100), "no node LO1.2 in the building; near it: LO1.1"),
            (("DS1.1", "LO1.1", 100), "no arc from DS1.1 to LO1.1; there is one from LO1.1 to DS1.1"),
            (("HA1.3", "DS1.1", 100), "no arc from HA1.3 to DS1.1; from HA1.3 there are arcs to SW1.3, SW2.3"),
            (("LO1.1", "DS1.1", 700), "605 s ahead"),
        ):
            said = ask("wide", OFFICE, *words)
            self.assertEqual((said.status, said.out, said.err.count("\n")), (1, "", 1))
            self.assertIn(wanted, said.err)


class EveryExample(unittest.TestCase):
    """The commands that the other tests ask about a few buildings alone."""

    def test_the_rate_that_is_needed_is_enough_and_one_less_is_not(self) -> None:
        for path in EXAMPLES:
            building, opening = model_of(path.read_text()), solved(path.read_bytes(), "solve")
            arc, cleared = next(iter(building.arcs.values())), number(opening, "cleared")
            with self.subTest(path.name):
                said = ask("wide", path, arc.tail, arc.head, building.seconds(cleared + 1))
                self.assertEqual((said.status, said.err), (0, ""))
                rate = re.search(r"needs a rate of (\d+) ", said.lines[0])
                least = int(rate[1]) if rate else 0
                for tried in {least, max(0, least - 1)}:
                    edited = ask("compare", path, "--edit", f"rate {arc.tail} {arc.head} {tried}").lines[2].split()
                    is_in_time = edited[0] != "short" and int(edited[0]) <= cleared
                    self.assertEqual(is_in_time, tried == least)

    def test_lost_exits(self) -> None:
        for path in EXAMPLES:
            names = [it.name for it in model_of(path.read_text()).exits]
            with self.subTest(path.name):
                said = ask("talk", path, "--study", text="exits\n")
                self.assertEqual((said.status, said.err, len(said.lines)), (0, "", 1 + len(names)))
                compared = ask("compare", path, *(word for name in names for word in ("--edit", f"shutexit {name}")))
                self.assertEqual((compared.status, compared.err), (0, ""))
                for name, line, row in zip(names, said.lines[1:], compared.lines[2:]):
                    wanted = re.match(rf"without {name}: (?:cleared (\d+)|at most (\d+) )", line)
                    self.assertTrue(wanted and (wanted[1] or wanted[2]) in row.split()[:2], row)

    def test_nothing_is_refused(self) -> None:
        for path in EXAMPLES:
            for mode in ("solve", "session", "study", "replan"):
                said = ask("explain", path, mode)
                self.assertEqual((said.status, said.out, said.err), (0, f"{mode} refuses nothing\n", ""))

    def test_a_talk_undoes_what_it_did(self) -> None:
        for path in EXAMPLES:
            building = model_of(path.read_text())
            node = building.rooms[0].name
            for mode in ((), ("--replan",)):
                said = ask("talk", path, *mode, text=f"room {node} 100000\nundo\ncut 0\nclearing\nsummary\n")
                self.assertEqual((said.status, said.err), (0, ""))
                self.assertTrue(said.lines[2].startswith(said.lines[0].replace("answer 0", "answer 2")))


class Compare(unittest.TestCase):
    def test_edits_side_by_side(self) -> None:
        said = ask("compare", OFFICE, "--edit", "shutexit DS2.1", "--edit", "shut HA1.3 SW1.3; rate LO1.1 DS1.1 9", "--edit", "shutexit DS1.1")
        self.assertEqual((said.status, said.err), (0, ""))
        self.assertEqual(said.lines[1].split(), f"28 140 to 145 s 65 to 70 s 130 to 135 s 70 to 75 s 240 {OFFICE}".split())
        self.assertEqual(said.lines[2].split(), "50 250 to 255 s +110 s 100 to 105 s 235 to 240 s 113 to 118 s 240 shutexit DS2.1".split())
        self.assertRegex(said.lines[3], r"^ +31 +155 to 160 s +\+15 s .* shut HA1.3 SW1.3; rate LO1.1 DS1.1 9$")
        self.assertRegex(said.lines[4], r"^short 180 +240  shutexit DS1.1$")

    def test_two_buildings(self) -> None:
        said = ask("compare", OFFICE, SCHOOL)
        self.assertRegex(said.lines[2], r"^ +22 +110 to 115 s +-30 s +70 to 75 s +105 to 110 s +69 to 74 s +200 ")

    def test_buildings_of_other_periods(self) -> None:
        # 11 periods of 10 s against 22 of 5 s: 110 to 120 s against 110 to 115 s.
        plan = (TOP / "examples/school.plan").read_text()
        with tempfile.TemporaryDirectory() as folder:
            path = pathlib.Path(folder, "ten.evac")
            path.write_text(ask("metres", "-", "--period", 10, text=plan).out)
            said = ask("compare", SCHOOL, path)
        self.assertRegex(said.lines[2], r"^ +11 +110 to 120 s +\+0 to \+5 s ")

    def test_edits_that_are_refused(self) -> None:
        for edit, wanted in (("shut DS2.1", "refused 5"), ("shut LO1.1 SW1.2", "refused 32"), ("shutexit DS1.1; shutexit DS1.1", "refused 34")):
            said = ask("compare", OFFICE, "--edit", edit)
            self.assertEqual((said.status, said.err), (1, ""))
            self.assertRegex(said.lines[2], rf"^{wanted} +{edit}$")
            self.assertTrue(said.lines[3].startswith(f"{wanted}: {edit.rpartition('; ')[2]}: "))

    def test_edits_that_are_none(self) -> None:
        for edit, wanted in (
            ("summary", "summary is no edit"),
            ("undo", "undo is no edit"),
            ("# nothing", "is no edit"),
            ("", "nothing is no edit"),
            ("shutexit DS2.1;", "nothing is no edit"),
            ("shutexit DS2.1\nshutexit DS1.1", "is no edit"),
            (f"shutexit {'D' * 200}", "is no edit"),
        ):
            said = ask("compare", OFFICE, "--edit", edit)
            self.assertEqual((said.status, said.out, said.err.count("\n")), (2, "", 1), said.err)
            self.assertIn(wanted, said.err)


if __name__ == "__main__":
    unittest.main()
