"""What was wrong once: each test failed before its mend. Nearly all of them run evacask as a command."""
import contextlib
import csv
import io
import os
import pathlib
import pty
import re
import shutil
import signal
import subprocess
import sys
import tempfile
import time
import unittest
from typing import Callable, Tuple

import evacask
from companion.tests.asking import OFFICE, PATIENCE, TOP, ask, program, solved
from evacask.client import sources

# The seconds after which a reply that comes at once otherwise isn't waited for any longer.
SOON = 10


def hub(ways: int) -> str:
    """Rooms with an arc each into one exit; the first room has 50 people and another exit of its own, and the others have one person each."""
    rooms = [f"WP{it}.1" for it in range(1, ways + 1)]
    lines = ["evacplan 1", "period 1", "horizon 100", "floor 1 Ground"]
    lines += [f"node {name} 50 {50 if name == 'WP1.1' else 1}" for name in rooms]
    lines += ["node DS1.1", "node DS2.1", *(f"arc {name} DS1.1 1 1" for name in rooms), "arc WP1.1 DS2.1 1 1", "end"]
    return "\n".join([*lines, ""])


# 100 people walk to two halls within a period, and 11 a period leave these for the exit: the last 1 at moment 10, and so all are out at 11.
TWO_DOORS = """evacplan 1
period 5
horizon 13
floor 1 Ground
node WP1.1 100 100
node HA1.1 100 0
node HA2.1 100 0
node DS1.1
arc WP1.1 HA1.1 1 100
arc WP1.1 HA2.1 1 100
arc HA1.1 DS1.1 1 10
arc HA2.1 DS1.1 1 1
end
"""


class Sensitivity(unittest.TestCase):
    def rows(self, text: str, *words: object) -> "dict[tuple[str, str], dict[str, str]]":
        """The rows of all ways by their two names."""
        said = ask("ways", "-", "--csv", *words, text=text)
        self.assertEqual((said.status, said.err), (0, ""))
        return {(row["from"], row["to"]): row for row in csv.DictReader(io.StringIO(said.out))}

    def test_an_exit_with_more_ways_than_a_session_can_undo(self) -> None:
        for ways in (64, 65, 66, 130):
            with self.subTest(ways):
                rows = self.rows(hub(ways))
                # All 50 leave by the one arc that is left, one in each period from 0 on.
                self.assertEqual(rows["", "DS2.1"]["without"], "50")
                self.assertEqual(rows["WP1.1", "DS2.1"]["without"], "50")
                # The others can't get out any more, and the first 50 take 50 periods too.
                self.assertEqual((rows["", "DS1.1"]["without"], rows["", "DS1.1"]["without_out"]), ("", "50"))
                self.assertEqual(rows["", "DS1.1"]["widened"], "1")

    def test_arcs_that_can_not_be_changed_one_by_one(self) -> None:
        # With 5 and 5 it is 10 in each of 10 periods; with 5 and 1, on the way there, not all could be out by the horizon.
        self.assertEqual(self.rows(TWO_DOORS, "--rate", 5)["", "DS1.1"]["widened"], "11")

    def test_doors_that_a_rate_makes_worse_are_shown(self) -> None:
        # The 60 of the room leave it one by one at the moments 0 to 59, and walk one period more to the exit: 61 periods of 5 s.
        said = ask("ways", OFFICE, "--rate", 1)
        self.assertEqual((said.status, said.err), (0, ""))
        self.assertRegex(said.out, r"(?m)^ *short 180 +140 (to 145 )?s +305 (to 310 )?s  WP1\.1 LO1\.1$")


class Review(unittest.TestCase):
    TEXT = OFFICE.read_text()
    DOUBTED = TEXT.replace("arc LO1.1 DS1.1 1 8\n", "arc LO1.1 DS1.1 1 80\n").replace("arc WP1.1 LO1.1 1 10\n", "arc WP1.1 LO1.1 1 60\n")

    def test_a_doubt_has_a_status_of_its_own(self) -> None:
        self.assertEqual(ask("doubts", "-", text=self.TEXT).status, 0)
        self.assertEqual(ask("doubts", "-", text=self.DOUBTED).status, 10)
        self.assertEqual(ask("doubts", "-", text=self.TEXT.replace("period 5", "period 0")).status, 1)

    def test_the_summary_counts_doubts(self) -> None:
        # 16 and 12 people a second through a door.
        self.assertEqual(ask("summary", "-", text=self.DOUBTED).lines[-1], "2 doubts: evacask review -")
        self.assertNotIn("doubt", ask("summary", "-", text=self.TEXT).out)


class Summary(unittest.TestCase):
    def test_a_horizon_that_can_not_be_written_is_not_said_to_be_enough(self) -> None:
        # One person a period, 90,000 of them: 90,000 periods.
        one_way = "evacplan 1\nperiod 5\nhorizon 20\nfloor 1 Ground\nnode WP1.1 90000 90000\nnode DS1.1\narc WP1.1 DS1.1 1 1\nend\n"
        said = ask("summary", "-", text=one_way)
        self.assertEqual((said.status, said.err), (1, ""))
        self.assertNotIn("90000 is enough", said.out)
        self.assertRegex(said.out, r"a horizon of 90000 would be enough .*, but 1200 is the greatest\n")


class Compare(unittest.TestCase):
    def test_several_edits_are_one_step(self) -> None:
        said = ask("compare", "-", "--edit", "rate HA1.1 DS1.1 1; rate HA2.1 DS1.1 10", text=TWO_DOORS)
        self.assertEqual((said.status, said.err), (0, ""))
        self.assertRegex(said.lines[2], r"^ +11 +55 (to 60 )?s +same ")

    def test_a_refused_edit_is_a_row(self) -> None:
        edits = ("rate HA1.1 DS1.1 9", "shut HA1.1 DS1.1; shut HA1.1 DS1.1", "rate HA1.1 DS1.1 1; rate HA2.1 DS1.1 10")
        said = ask("compare", "-", *(word for edit in edits for word in ("--edit", edit)), text=TWO_DOORS)
        self.assertEqual((said.status, said.err), (1, ""))
        self.assertRegex(said.lines[2], r"^ +11 +55 (to 60 )?s +same ")
        self.assertRegex(said.lines[3], r"^refused 34 .* shut HA1\.1 DS1\.1; shut HA1\.1 DS1\.1$")
        self.assertRegex(said.lines[4], r"^ +11 +55 (to 60 )?s +same ")
        self.assertIn("refused 34: shut HA1.1 DS1.1: The arc is shut already.", said.out)


class Names(unittest.TestCase):
    def test_only_a_marked_comment_is_a_name(self) -> None:
        text = TWO_DOORS.replace("node HA1.1", "# TODO ask the architect\nnode HA1.1").replace("node HA2.1", "#: Long hall\nnode HA2.1")
        said = ask("tables", "fullest", "-", text=text)
        self.assertEqual([row["name"] for row in csv.DictReader(io.StringIO(said.out))], ["", "", "Long hall"])
        self.assertIn("Long hall to DS1.1", ask("why", "-", text=text).out)
        self.assertNotIn("architect", ask("ways", "-", text=text).out)

    def test_names_can_not_act(self) -> None:
        acting = '=HYPERLINK("http://x")'
        text = TWO_DOORS.replace("node HA1.1", f"#: {acting}\nnode HA1.1").replace("node HA2.1", "#: \x1b]0;x\x07Hall\nnode HA2.1")
        text = text.replace("period 5", "title \x1b[31mRed\nperiod 5").replace("# ", "#: ")
        for words in (("summary", "-"), ("why", "-"), ("ways", "-"), ("ways", "-", "--csv"), ("tables", "fullest", "-"), ("tables", "totals", "-")):
            with self.subTest(words):
                said = ask(*words, text=text)
                self.assertEqual((said.status, said.err), (0, ""))
                self.assertTrue(all(letter.isprintable() for letter in said.out.replace("\n", "")), said.out)
        for words in (("ways", "-", "--csv"), ("tables", "fullest", "-"), ("tables", "totals", "-")):
            cells = [cell for row in csv.reader(io.StringIO(ask(*words, text=text).out)) for cell in row]
            self.assertEqual([cell for cell in cells if cell.startswith(("=", "+", "-", "@"))], [])
            self.assertTrue(any(cell.startswith(f"'{acting}") for cell in cells))


class Programs(unittest.TestCase):
    def test_a_program_that_is_not_of_these_sources(self) -> None:
        with tempfile.TemporaryDirectory() as folder:
            top = pathlib.Path(folder)
            source, built = top / "crates/evacplan/src/main.rt", top / sources.UNPROVED_PLACE
            for made in (source, built):
                made.parent.mkdir(parents=True)
            source.write_text("one")
            for name in ("evacask", "companion", "build", "tools", "README.md"):
                subprocess.run(["cp", "-R", TOP / name, folder], check=True)
            (top / "crates.txt").write_text("evacplan:\n")
            shutil.copy(program(), built)
            sources.record(top, built, "", sources.digests_of(top))
            self.assertEqual(self.why(top), (0, f"evacask: {sources.NOT_PROVED}\n"))
            about = source.stat()
            source.write_text("two")
            os.utime(source, ns=(about.st_atime_ns, about.st_mtime_ns))
            status, said = self.why(top)
            self.assertEqual((status, said.count("rt isn't on the path"), said.count("\n")), (70, 1, 2))

    def why(self, top: pathlib.Path) -> Tuple[int, str]:
        """How evacask ends in another copy, without a kit, and what it says on standard error."""
        settings = {name: value for name, value in os.environ.items() if name != "EVACPLAN"}
        settings["PATH"] = str(top / "bin")
        (top / "bin").mkdir(exist_ok=True)
        for name in ("find", "env", "python3"):
            if not (top / "bin" / name).exists():
                (top / "bin" / name).symlink_to(shutil.which(name) or name)
        command = [sys.executable, "-B", str(top / "evacask"), "why", str(OFFICE)]
        ran = subprocess.run(command, capture_output=True, text=True, env=settings, timeout=PATIENCE)
        return ran.returncode, ran.stderr

    def test_the_package_answers_after_a_command_in_the_same_process(self) -> None:
        self.assertEqual(ask("why", OFFICE).status, 0)
        self.assertEqual(evacask.reads(OFFICE.read_text()).solve().cleared, 28)

    def test_signals_end_the_program_and_what_it_started(self) -> None:
        for number in (signal.SIGTERM, signal.SIGHUP, signal.SIGINT):
            with self.subTest(number), tempfile.TemporaryDirectory() as folder:
                slow, began = pathlib.Path(folder, "program"), pathlib.Path(folder, "began")
                slow.write_text(
                    f'#!/bin/sh\n[ "$1" != upgrade ] || exec {program()} upgrade\nsleep 600 &\necho $$ $! >{began}.new\nmv {began}.new {began}\nwait\n'
                )
                slow.chmod(0o755)
                command = [sys.executable, "-B", str(TOP / "evacask"), "--program", str(slow), "why", str(OFFICE)]
                asked = subprocess.Popen(command, stdout=subprocess.DEVNULL, stderr=subprocess.DEVNULL)
                self.until(began.exists)
                processes = [int(it) for it in began.read_text().split()]
                try:
                    asked.send_signal(number)
                    # (a shell sees 128 and the number)
                    self.assertEqual(asked.wait(SOON), -number)
                    self.until(lambda: not any(map(runs, processes)))
                finally:
                    for process in filter(runs, processes):
                        os.kill(process, signal.SIGKILL)
                    asked.wait(SOON)

    def until(self, holds: Callable[[], bool]) -> None:
        """Waits until something holds."""
        end = time.monotonic() + SOON
        while not holds():
            self.assertLess(time.monotonic(), end, "it doesn't hold soon")
            time.sleep(0.02)


def runs(process: int) -> bool:
    """Whether a process runs; one that has ended and wasn't waited for doesn't."""
    try:
        return pathlib.Path(f"/proc/{process}/stat").read_text().rpartition(")")[2].split()[0] != "Z"
    except OSError:
        return False


# Runs a command in a thread, and ends with its status.
IN_A_THREAD = """
import sys, threading
import companion.tests
from evacask.faces.commands import main

found = []
thread = threading.Thread(target=lambda: found.append(main(sys.argv[1:])))
thread.start()
thread.join()
sys.exit(found[0] if found else 70)
"""


class Talk(unittest.TestCase):
    def test_a_line_of_carriage_returns(self) -> None:
        command = [sys.executable, "-B", str(TOP / "evacask"), "talk", str(OFFICE)]
        ran = subprocess.run(command, input=b"\r\r\nwork\n\r\n \r\nwork\r\n", capture_output=True, timeout=SOON)
        self.assertEqual((ran.returncode, ran.stderr), (0, b""))
        # One CR belongs to the end of a line, and a second one is a word.
        self.assertEqual([line.split()[0] for line in ran.stdout.splitlines()], [b"answer", b"refused", b"work", b"work"])

    def test_an_input_that_can_not_be_read(self) -> None:
        evacask = [sys.executable, "-B", str(TOP / "evacask"), "talk", str(OFFICE)]
        for redirection in ("<&-", "0>/dev/null"):
            with self.subTest(redirection):
                ran = subprocess.run(["sh", "-c", f'exec "$@" {redirection}', "sh", *evacask], capture_output=True, timeout=PATIENCE)
                self.assertEqual((ran.returncode, ran.stderr.count(b"\n")), (3, 1), ran.stderr)
                self.assertIn(b"standard input can't be read", ran.stderr)

    def test_a_thread_at_a_terminal(self) -> None:
        screen, terminal = pty.openpty()
        command = [sys.executable, "-B", "-c", IN_A_THREAD, "why", str(OFFICE)]
        # (the terminal is there when Python begins: a stream keeps whether it can be sought in)
        asked = subprocess.Popen(command, cwd=TOP, stdin=terminal, stdout=terminal, stderr=terminal, start_new_session=True)
        os.close(terminal)
        shown = b""
        with open(screen, "rb", buffering=0) as showing, contextlib.suppress(OSError):  # (the end of a terminal's output is an error)
            while True:
                part = showing.read(4096)
                if not part:
                    break
                shown += part
        self.assertEqual(asked.wait(SOON), 0, shown.decode())

    def test_messages_need_no_document(self) -> None:
        with tempfile.TemporaryDirectory() as folder:
            for name in ("evacask", "companion"):
                subprocess.run(["cp", "-R", TOP / name, folder], check=True)
            command = [sys.executable, "-B", f"{folder}/evacask", "--program", program(), "explain", "-"]
            ran = subprocess.run(command, input=OFFICE.read_bytes().replace(b"period 5", b"period 0"), capture_output=True, timeout=PATIENCE)
            self.assertEqual((ran.returncode, ran.stderr), (1, b""))
            self.assertIn(b"number is out of its range", ran.stdout)
            self.assertNotIn(b"FORMATS", ran.stdout)

    def test_a_refused_edit_is_explained_as_an_edit(self) -> None:
        ran = ask("talk", OFFICE, text="rate WP1.1 LO1.1 99999\nrate WP1.1\n")
        self.assertTrue(ran.lines[1].startswith("refused 7: ") and ran.lines[2].startswith("refused 5: "), ran.lines)
        self.assertNotIn("For a travel below one period", ran.out)
        self.assertNotIn("`shut`", ran.lines[2])


class Writing(unittest.TestCase):
    def test_a_period_that_is_not_possible_is_a_row(self) -> None:
        # A window from moment 1 of 5 s on begins 5 s after the start, which is no whole number of periods of 2 s.
        plan = (TOP / "examples/school.plan").read_text().replace("evacplan 1", "evacplan 2")
        plan = plan.replace("\nend\n", "\nwindow LO2.1 DS2.1 1 3\nend\n")
        said = ask("metres", "-", "--both", "--period", 2, "--period", 5, text=plan)
        self.assertEqual((said.status, said.err), (0, ""))
        self.assertRegex(said.out, r"(?m)^ +2 s .*no whole number of periods of 2 s")
        self.assertRegex(said.out, r"(?m)^ +5 s ")

    def test_names_and_comments_are_kept(self) -> None:
        school = (TOP / "examples/school.evac").read_text()
        said = ask("edit", TOP / "examples/school.evac", "--version", 2)
        self.assertEqual((said.status, said.out), (0, school.replace("evacplan 1\n", "evacplan 2\n")))
        self.assertEqual(solved(said.out.encode(), "upgrade"), solved(school.encode(), "upgrade"))
        self.assertEqual(ask("edit", TOP / "examples/school.evac").out, school)
        made = ask("edit", TOP / "examples/school.evac", "--edit", 'rate "Entrance lobby" "Main door" 11').out
        self.assertEqual(made, re.sub(r"(?m)^arc LO1\.1 DS1\.1 (\d+) 9$", r"arc LO1.1 DS1.1 \1 11", school))

    def test_a_file_is_written_whole_or_not_at_all(self) -> None:
        with tempfile.TemporaryDirectory() as folder:
            path = pathlib.Path(folder, "made.evac")
            path.write_text("old")
            path.chmod(0o640)
            self.assertEqual(ask("edit", OFFICE, "--edit", "rate LO1.1 DS1.1 9", "-o", path).status, 0)
            self.assertIn("\narc LO1.1 DS1.1 1 9\n", path.read_text())
            self.assertEqual(path.stat().st_mode & 0o777, 0o640)
            said = ask("edit", OFFICE, "--edit", "rate LO1.1 DS1.1 10001", "-o", path)
            self.assertEqual((said.status, said.out), (1, ""))
            self.assertIn("\narc LO1.1 DS1.1 1 9\n", path.read_text())
            said = ask("edit", OFFICE, "-o", pathlib.Path(folder, "none", "made.evac"))
            self.assertEqual((said.status, said.out, said.err.count("\n")), (4, "", 1))
            self.assertEqual([it.name for it in pathlib.Path(folder).iterdir()], ["made.evac"])


if __name__ == "__main__":
    unittest.main()
