"""Each command asks each program that isn't evacplan, and talks with it: no traceback, a status that help lists, one line at most, and no process left."""
import os
import pathlib
import shlex
import tempfile
import unittest
from typing import List, Tuple

from companion.tests.fakes import ALL, script
from companion.tests.package import Ended, ask, program
from evacask.client import talk
from evacask.client.processes import PROCESSES
from evacask.faces.commands import COMMANDS
from evacask.faces.ending import Status

TOP = pathlib.Path(__file__).resolve().parent.parent.parent
STATUSES = {int(it) for it in Status}
# The tables that examples of commands name.
FILES = {
    "scenarios.csv": "name,edits\nwide,rate SW2.2 DS2.1 3\nlost,shutexit DS2.1\nboth,rate SW2.2 DS2.1 3; leave WP1.1 10\n",
    "drill.csv": "seconds,DS1.1,DS2.1\n0,0,0\n60,20,10\n",
    "nodes.csv": "name,capacity,start\nWP1.1,10,8\nDS1.1,,\n",
    "ways.csv": "from,to,travel,rate\nWP1.1,DS1.1,1,2\n",
}
# What is asked beside the examples of the commands: words, and lines of standard input, for other replies that are read.
OFFICE_TEXT = (TOP / "examples/office.evac").read_text(encoding="utf-8")
MORE = (
    ("session examples/office.evac", "rate SW2.2 DS2.1 3\ncut 5\nsummary\nclearing\nbottlenecks\nroutes\nwork\nshut WP1.1 LO1.1\nundo\nshut\n"),
    ("session --study examples/office.evac", "exits\nleast SW2.2 DS2.1 24\nleast SW2.2 DS2.1 1\n"),
    ("session --replan examples/office.evac", "advance 4\nrate SW2.2 DS2.1 3\nadvance 2\n"),
    ("explain -", OFFICE_TEXT),
    ("explain - session", OFFICE_TEXT + "cut 5\nshut\nshutexit DS1.1\n"),
    ("explain - study", OFFICE_TEXT + "exits\nshut\n"),
    ("explain - replan", OFFICE_TEXT + "advance 4\nadvance 2\n"),
    ("explain - check", OFFICE_TEXT),
    ("summary -", OFFICE_TEXT.replace("horizon 120", "horizon 20")),
    ("tables routes examples/office.evac", ""),
    ("tables all examples/office.evac", ""),
    ("tables full examples/office.evac", ""),
    ("why examples/office.evac 20", ""),
    ("convert examples/school.plan --both", ""),
    ("report - --json", OFFICE_TEXT.replace("horizon 120", "horizon 20")),
)
ASKED = (*((f"{it.name} {it.example}", "") for it in COMMANDS), *MORE)


def words_of(example: str) -> List[str]:
    """The words of an example, with the files of the repository by their paths."""
    return [str(TOP / it) if it.startswith("examples/") else it for it in shlex.split(example)]


def running(mark: str) -> List[str]:
    """The processes whose environment has a mark, but for those that have ended."""
    found = []
    for path in pathlib.Path("/proc").glob("[0-9]*/environ"):
        try:
            if mark.encode() in path.read_bytes() and (path.parent / "cmdline").read_bytes():
                found.append((path.parent / "cmdline").read_text())
        except OSError:
            continue
    return found


class Fakes(unittest.TestCase):
    def setUp(self) -> None:
        self.patience, talk.LAST_PATIENCE = talk.LAST_PATIENCE, 0.2
        self.addCleanup(setattr, talk, "LAST_PATIENCE", self.patience)
        self.mark = f"EVACASK_TEST_{os.getpid()}"
        os.environ[self.mark] = "1"
        self.addCleanup(os.environ.pop, self.mark)

    def answers(self, name: str) -> "List[Tuple[str, Ended]]":
        """What is said to each that is asked, by a fake. What is written goes into an empty folder."""
        with tempfile.TemporaryDirectory() as folder:
            fake = pathlib.Path(folder, "program")
            fake.write_text(script(program(), name), encoding="utf-8")
            fake.chmod(0o755)
            os.chdir(folder)
            for file, text in FILES.items():
                pathlib.Path(file).write_text(text, encoding="utf-8")
            try:
                return [(words, ask("--program", fake, *words_of(words), text=lines)) for words, lines in ASKED]
            finally:
                os.chdir(TOP)

    def test_no_traceback_a_listed_status_and_no_process_left(self) -> None:
        for name in ALL:
            for command, said in self.answers(name):
                with self.subTest(fake=name, command=command):
                    self.assertIn(said.status, STATUSES)
                    self.assertRegex(said.err, r"\A(evacask: [^\n]+\n)?\Z")
                    self.assertTrue(said.out or said.err or command.startswith("review") or said.status == Status.ANSWERED)
                    self.assertFalse(said.err and said.status in (Status.ANSWERED, Status.REVIEW))
                    self.assertEqual(PROCESSES.running, set())
        self.assertEqual([it for it in running(self.mark) if "unittest" not in it], [])


if __name__ == "__main__":
    unittest.main()
