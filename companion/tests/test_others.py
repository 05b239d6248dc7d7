"""Tables, metres, explanations of codes, own names, and talks."""
import csv
import importlib.util
import io
import os
import pathlib
import re
import select
import sys
import time
import unittest
from typing import Dict, List

from companion.tests.asking import EXAMPLES, OFFICE, PATIENCE, SCHOOL, TOP, Ended, ask, changed, found, program, solved
from evacask.faces.prompt import candidates
from evacask.model.building import model_of


def table(*words: object) -> List[Dict[str, str]]:
    """The rows of a table, by the heads of their columns."""
    said = ask("tables", *words)
    assert (said.status, said.err) == (0, ""), said
    return list(csv.DictReader(io.StringIO(said.out)))


def block_of(path: pathlib.Path) -> List[List[str]]:
    return [line.split() for line in solved(path.read_bytes(), "solve").splitlines()]


class Tables(unittest.TestCase):
    def test_exits_add_up_to_the_curve(self) -> None:
        for path in EXAMPLES:
            with self.subTest(path.name):
                rows, curve = table("exits", path), [line[2] for line in block_of(path) if line[0] == "out"]
                self.assertEqual([row["out"] for row in rows], curve)
                exits = [name for name in rows[0] if name.startswith("DS")]
                self.assertTrue(all(sum(int(row[name]) for name in exits) == int(row["out"]) for row in rows))

    def test_nobody_is_lost_or_too_many(self) -> None:
        for path in EXAMPLES:
            with self.subTest(path.name):
                building = model_of(path.read_text())
                nodes, arcs = table("nodes", path), table("arcs", path)
                self.assertEqual(set(nodes[-1].values()) - {nodes[-1]["moment"], nodes[-1]["seconds"]}, {"0"})
                for row in nodes:
                    self.assertTrue(all(0 <= int(row[it.name]) <= (it.capacity or 0) for it in building.rooms))
                for row in arcs:
                    self.assertTrue(all(int(row[" ".join(way)]) <= arc.rate for way, arc in building.arcs.items()))
                starts = {
                    it.name: (it.start or 0) - sum(int(arcs[0][" ".join(way)]) for way in building.arcs if way[0] == it.name) for it in building.rooms
                }
                self.assertEqual(starts, {name: int(nodes[0][name]) for name in starts})

    def test_totals(self) -> None:
        rows, moves = table("totals", SCHOOL), [line for line in block_of(SCHOOL) if line[0] == "move"]
        for row in rows:
            mine = [line for line in moves if line[2:4] == [row["from"], row["to"]]]
            self.assertEqual(int(row["people"]), sum(int(line[4]) for line in mine))
            self.assertEqual((row["first"], row["last"]), (mine[0][1], mine[-1][1]) if mine else ("", ""))
        self.assertEqual(rows[0]["names"], "Classroom 1 to West half of the corridor")

    def test_routes(self) -> None:
        for path in EXAMPLES:
            with self.subTest(path.name):
                rows, building = table("routes", path), model_of(path.read_text())
                last = table("exits", path)[-1]
                for node in building.exits:
                    self.assertEqual(sum(int(row["people"]) for row in rows if row["exit"] == node.name), int(last[node.name]))
                for row in rows:
                    way = row["way"].split()
                    self.assertTrue(all(step in building.arcs for step in zip(way, way[1:])))
                    self.assertEqual((way[0], way[-1]), (row["from"], row["exit"]))
                    self.assertLessEqual(int(row["first"]), int(row["last"]))
        rows = table("routes", OFFICE)
        self.assertEqual([(row["from"], row["people"], row["exit"]) for row in rows[:2]], [("WP1.1", "60", "DS1.1"), ("WP1.2", "32", "DS1.1")])

    def test_fullest(self) -> None:
        for path in EXAMPLES:
            rows = table("nodes", path)
            for it in table("fullest", path):
                counts = [int(row[it["node"]]) for row in rows]
                self.assertEqual(int(it["most"]), max(counts))
                self.assertEqual(it["moment"], str(counts.index(max(counts))) if max(counts) else "")

    def test_walks(self) -> None:
        for path in EXAMPLES:
            rows = table("walks", path)
            report = solved(path.read_bytes(), "solve", "--reports")
            farthest = max((int(row["periods"]) for row in rows if int(row["start"])), default=0)
            self.assertEqual(farthest, int(found(re.search(r"^uncongested (\d+)", report, re.M))), path.name)
            self.assertTrue(all(row["source"] == "evacask's own arithmetic, not proved" for row in rows))

    def test_a_node_without_a_way(self) -> None:
        said = ask("tables", "walks", "-", text=changed("arc WP1.3 HA1.3 1 6\n", "", OFFICE.read_text()))
        self.assertIn("\nWP1.3,,45,none,,,", said.out)


class Metres(unittest.TestCase):
    def test_the_arcs_are_those_of_figures(self) -> None:
        sys.path.insert(0, str(TOP / "tools"))
        try:
            import figures
        finally:
            sys.path.pop(0)
        for name, example in (("school", figures.school()), ("corridor", figures.corridor())):
            plan = TOP / f"examples/{name}.plan"
            for period in (2, 3, 4, 5, 6, 8, 10, 15):
                with self.subTest(name, period=period):
                    made = ask("convert", plan, "--period", period).lines
                    self.assertEqual([line for line in made if line and line[0] != "#"], example.lines(period))

    def test_the_plans_become_the_examples(self) -> None:
        for name in ("school", "corridor"):
            made, there = ask("metres", TOP / f"examples/{name}.plan"), (TOP / f"examples/{name}.evac").read_text()
            self.assertEqual((made.status, made.err), (0, ""))
            self.assertIn("\nend\n# evacask's own arithmetic, not proved: ", made.out)
            self.assertEqual([it for it in made.lines if it[:1] != "#"], [it for it in there.splitlines() if it[:1] != "#"])

    def test_an_escalator_runs_at_its_own_speed(self) -> None:
        plan = "evacplan 1\nperiod 5\nway A B escalator 10.7 0.5 1\nend\n"
        self.assertIn("\narc A B 5 5\n", ask("convert", "-", text=plan).out)
        self.assertIn("\narc A B 4 5\n", ask("convert", "-", "--up", text=plan).out)

    def test_moments_go_over_to_another_period(self) -> None:
        plan = "evacplan 2\nperiod 5\nhorizon 41\nway A B free 5 door 0.9\nwindow A B 12 36\nentrant A 4 7\nend\n"
        made = ask("convert", "-", "--period", 10, text=plan).out
        self.assertIn("period 10\nhorizon 21\n", made)
        self.assertIn("window A B 6 18\nentrant A 2 7\n", made)

    def test_faults(self) -> None:
        for line, wanted in (
            ("way A B", "nothing says how many"),
            ("way A", "a way needs the node"),
            ("way A B level 5", "a number is missing"),
            ("way A B level 5 0.4", "no wider than its boundary layers"),
            ("way A B level x 2", "x is no number"),
            ("way A B level -5 2", "-5 is no number"),
            ("way A B level 5 2,40", "2,40 is no number up to 9999, with a point"),
            ("way A B level 0.0 2", "out of its range"),
            ("way A B leaves 1.5", "no whole number"),
            ("way A B stair 5 1.2 180/280", "a stair needs its riser/tread"),
            ("way A B lift 3", "lift is no part of a way"),
            ("arc A B 1 2", "an arc has no metres"),
            ("window A B 3 7", "no whole number of periods"),
            ("window A B x 7", "x is no number"),
        ):
            with self.subTest(line):
                said = ask("metres", "-", "--period", 10, text=f"evacplan 2\nperiod 5\n{line}\nend\n")
                self.assertEqual((said.status, said.out), (1, ""))
                self.assertRegex(said.err, rf"\Aevacask: -, line 3: [^\n]*{re.escape(wanted)}[^\n]*\n\Z")
        self.assertIn("no line `period SECONDS`", ask("metres", "-", text="evacplan 1\n").err)


class Explain(unittest.TestCase):
    def test_every_code_of_the_program(self) -> None:
        cases = (TOP / "crates/evac_law/specs/Codes.antt").read_text()
        codes = {int(it) for it in re.findall(r"(?m)^code_number \w+ = (\d+)$", cases)}
        self.assertGreater(len(codes), 40)
        for code in codes:
            said = ask("explain", code)
            self.assertEqual((said.status, said.err), (0, ""))
            self.assertGreaterEqual(len(said.lines), 3)

    def test_words(self) -> None:
        self.assertIn("line 33 of the input", ask("explain", 13, 33).lines[0])
        for words, wanted in (((99,), "no code 99"), ((13, "x"), "number of a line"), ((OFFICE, "sesion"), "near it: session")):
            said = ask("explain", *words)
            self.assertEqual((said.status, said.out, said.err.count("\n")), (2, "", 1))
            self.assertIn(wanted, said.err)

    def test_the_form_of_a_line(self) -> None:
        said = ask("explain", "-", text=changed("arc LO1.1 DS1.1 1 8", "arc LO1.1 DS1.1 1", OFFICE.read_text())).lines
        self.assertEqual(said[-1], "    `arc FROM TO TRAVEL RATE`: travel 1 to 600, rate 0 to 10,000")
        said = ask("explain", "-", text=changed("node LO1.1 40 0", "node LO1.1", OFFICE.read_text())).lines
        self.assertEqual([line.partition(":")[0] for line in said[-2:]], ["    `node NAME CAPACITY START`", "    `node NAME`"])
        for mode, line, form in (
            ("session", "rate LO1.1 DS1.1", "`rate A B n`"),
            ("study", "least LO1.1", "`least A B K`"),
            ("replan", "advance", "`advance p`"),
        ):
            self.assertEqual(ask("explain", "-", mode, text=OFFICE.read_text() + line + "\n").lines[-1], f"    {form}")

    def test_a_meaning_that_depends_on_the_place(self) -> None:
        text = changed("evacplan 1", "evacplan 2", OFFICE.read_text())
        of_building = ask("explain", "-", text=changed("end\n", "window LO1.1 SW1.2 1 2\nend\n", text)).out
        of_session = ask("explain", "-", "session", text=text + "shut LO1.1 SW1.2\n").out
        self.assertIn("Put the arc's line above", of_building)
        self.assertIn("A session adds no arcs", of_session)


class Names(unittest.TestCase):
    def test_own_names_are_shown(self) -> None:
        self.assertIn("Foot of stair 2 to Door at stair 2", ask("why", SCHOOL).out)
        self.assertIn("(Entrance lobby to Main door)", ask("wide", SCHOOL, "LO1.1", "DS1.1", 100).out)
        self.assertEqual(ask("width", SCHOOL, "Entrance lobby", "Main door", 100).out, ask("wide", SCHOOL, "LO1.1", "DS1.1", 100).out)

    def test_any_bytes_in_a_title(self) -> None:
        text = changed("Three storey office", "B\u00fcro \udcff \x85 x", OFFICE.read_text()).encode("utf-8", "surrogateescape")
        self.assertEqual(ask("summary", "-", text=text).lines[0], "B\u00fcro   x")


class TalkOverPipes(unittest.TestCase):
    def talk(self, lines: str, *words: object) -> Ended:
        return ask("talk", *words, text=lines)

    def test_a_session(self) -> None:
        said = self.talk("shutexit DS2.1\n\n# no reply\nshutexit DS1.1\nundo\r\nshut HA1.3\ncut 27\nwork\nbottlenecks\nquit\r\nnot read\n", OFFICE)
        self.assertEqual((said.status, said.err), (0, ""))
        self.assertEqual(said.lines[0], "answer 0: 240 people, cleared 28 (140 to 145 s)")
        self.assertEqual(said.lines[1], "answer 1: 240 people, cleared 50 (250 to 255 s), 110 s later than before")
        self.assertEqual(said.lines[2], "refused 22: at most 0 of 240 can be out by the horizon, so nothing was changed")
        self.assertEqual(said.lines[3], "answer 2: 240 people, cleared 28 (140 to 145 s), 110 s sooner than before")
        self.assertTrue(said.lines[4].startswith("refused 5: The number of fields is wrong"))
        self.assertEqual(said.lines[5], "At most 236 can be out by moment 27 (135 to 140 s). Each of them counts here:")
        self.assertRegex(said.lines[10], r"^work \d+ \d+$")
        self.assertEqual([said.lines[11], said.lines[-1]], ["bottlenecks 2", "end"])

    def test_the_whole_reply_is_the_program_s(self) -> None:
        said = self.talk("shutexit DS2.1\nwhole\n", OFFICE).out
        block = solved(OFFICE.read_bytes() + b"shutexit DS2.1\n", "session").partition("end\n")[2]
        self.assertTrue(said.endswith(block))

    def test_long_reports_are_cut_off(self) -> None:
        said = self.talk("routes\nwhole\n", OFFICE).lines
        self.assertRegex(said[21], r"^\.\. \d+ lines more: whole prints them$")
        self.assertGreater(len(said), 100)

    def test_a_study(self) -> None:
        said = self.talk("exits\nleast LO1.1 DS1.1 27\nleast LO1.1 DS1.1 28\nleast HA1.3 SW1.3 100\nshutexit DS2.1\n", OFFICE, "--study")
        self.assertEqual((said.status, said.err), (0, ""))
        self.assertEqual(said.lines[1], "without DS1.1: at most 180 of 240 can be out by the horizon")
        self.assertEqual(said.lines[2], "without DS2.1: cleared 50 (250 to 255 s)")
        self.assertRegex(said.lines[3], r"^least LO1.1 DS1.1: no rate is enough by moment 27 \(135 to 140 s\); with 10,000 at most 236 are out$")
        self.assertRegex(said.lines[4], r"^least LO1.1 DS1.1: \d+ by moment 28 \(140 to 145 s\); with \d+ at most \d+ are out$")
        self.assertRegex(said.lines[5], r"^least HA1.3 SW1.3: it isn't needed by moment 100 ")
        self.assertRegex(said.lines[6], r"^refused 31: ")

    def test_a_replan(self) -> None:
        said = self.talk("advance 1\nshutexit DS1.1\nadvance 0\nundo\n", TOP / "examples/two_exits.evac", "--replan")
        self.assertEqual((said.status, said.err), (0, ""))
        self.assertEqual(said.lines[1], "advance 1: 6 people are out by moment 3 (15 to 20 s) by the moves made")
        self.assertEqual(said.lines[2], "answer 1: 2 people, cleared 3 (15 to 20 s)")
        self.assertEqual(said.lines[3], "answer 2: 2 people, cleared 4 (20 to 25 s), 5 s later than before")
        self.assertRegex(said.lines[4], "^refused 41: ")
        self.assertEqual(said.lines[5], "answer 3: 2 people, cleared 3 (15 to 20 s), 5 s sooner than before")

    def test_a_line_that_is_too_long_ends_nothing(self) -> None:
        said = self.talk("x" * 201 + "\nundo\n", OFFICE).lines
        self.assertIn("200 bytes", said[1])
        self.assertTrue(said[2].startswith("refused 39: "))

    def test_what_can_follow(self) -> None:
        building = model_of(OFFICE.read_text())
        self.assertIn("shutexit", candidates(building, "session", []))
        self.assertIn("least", candidates(building, "study", []))
        self.assertIn("advance", candidates(building, "replan", []))
        self.assertEqual(candidates(building, "session", ["shut", "HA1.3"]), ["SW1.3", "SW2.3"])
        self.assertEqual(candidates(building, "session", ["openexit"]), ["DS1.1", "DS2.1"])
        self.assertNotIn("DS1.1", candidates(building, "session", ["room"]))
        self.assertEqual(candidates(building, "session", ["shut", "HA1.3", "SW1.3"]), [])
        self.assertEqual(candidates(building, "session", ["nothing"]), [])


class TalkAtATerminal(unittest.TestCase):
    """With a pseudo-terminal in place of a person's."""

    def setUp(self) -> None:
        if not all(map(importlib.util.find_spec, ("pty", "readline"))):
            self.skipTest("no pseudo-terminal, or no readline")
        import pty

        child, self.terminal = pty.fork()
        if not child:
            settings = {**os.environ, "TERM": "dumb", "EVACPLAN": program()}
            os.execve(sys.executable, [sys.executable, "-B", str(TOP / "evacask"), "talk", str(OFFICE)], settings)
        self.child, self.said = child, ""

    def tearDown(self) -> None:
        os.close(self.terminal)

    def is_said(self, wanted: str, seconds: float) -> bool:
        """Waits for some words, and forgets what is printed up to them."""
        end = time.monotonic() + seconds
        while wanted not in self.said:
            if not select.select([self.terminal], [], [], max(0.0, end - time.monotonic()))[0]:
                return False
            try:
                self.said += os.read(self.terminal, 4096).decode()
            except OSError:
                self.fail(f"it ended before {wanted!r}: {self.said!r}")
        self.said = self.said.partition(wanted)[2]
        return True

    def until(self, wanted: str) -> None:
        self.assertTrue(self.is_said(wanted, PATIENCE), f"{wanted!r} isn't in {self.said!r}")

    def type(self, keys: str) -> None:
        os.write(self.terminal, keys.encode())

    def is_said_after(self, keys: str, wanted: str) -> bool:
        """Whether some words come within 20 seconds of some keys."""
        self.type(keys)
        return self.is_said(wanted, 20)

    def status(self) -> int:
        return os.waitstatus_to_exitcode(os.waitpid(self.child, 0)[1])

    def test_prompt_history_completion_and_endings(self) -> None:
        self.until("cleared 28 (140 to 145 s)")
        self.until("session> ")
        self.type("shutexit DS2.1\n")
        self.until("answer 1: 240 people, cleared 50 (250 to 255 s)")
        self.until("session> ")
        self.type("\x1b[A\n")
        self.until("refused 34: The exit is shut already.")
        self.until("session> ")
        self.type("openex\tDS2\t\n")
        self.until("answer 2: 240 people, cleared 28 (140 to 145 s)")
        self.until("session> ")
        self.type("shut HA1.3")
        self.until("shut HA1.3")
        # (A Ctrl-C that comes while a key is at work is seen with the next one.)
        self.assertTrue(any(self.is_said_after("\x03", "session> ") for _ in range(10)))
        self.type("undo\n")
        self.until("answer 3: 240 people, cleared 50 (250 to 255 s)")
        self.until("session> ")
        self.type("\x04")
        self.assertEqual(self.status(), 0)

    def test_quit(self) -> None:
        self.until("session> ")
        self.type("help\n")
        self.until("whole prints the last reply whole")
        self.until("session> ")
        self.type("quit\n")
        self.assertEqual(self.status(), 0)


if __name__ == "__main__":
    unittest.main()
