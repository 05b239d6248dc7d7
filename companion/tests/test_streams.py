"""How the command ends whatever its streams and files are: a table of what is asked, by which streams, with which status and how many lines said."""
import subprocess
import tempfile
import unittest

from companion.tests.package import EVACASK, OFFICE, PATIENCE, TOWER
from evacask.faces.ending import Status

WHY, TALK, NO_FILE = ("why", str(OFFICE)), ("session", str(OFFICE)), ("why", "/nowhere/none.evac")
OK, WORDS, INPUT, OUTPUT, PIPE = (int(it) for it in (Status.ANSWERED, Status.WORDS, Status.INPUT, Status.OUTPUT, Status.CLOSED_PIPE))
# The words, the streams as a shell writes them, the status, and the lines on standard error.
TABLE = (
    (WHY, "", OK, 0),
    (WHY, ">/dev/full", OUTPUT, 1),
    (("--help",), ">/dev/full", OUTPUT, 1),
    (("why", "--help"), ">/dev/full", OUTPUT, 1),
    (("--version",), ">/dev/full", OUTPUT, 1),
    (("edit", str(TOWER)), ">/dev/full", OUTPUT, 1),
    (("why", str(OFFICE), "--json"), ">/dev/full", OUTPUT, 1),
    (TALK, ">/dev/full", OUTPUT, 1),
    (("sensitivity", str(OFFICE), "--csv"), ">/dev/full", OUTPUT, 1),
    (("report", str(OFFICE)), ">/dev/full", OUTPUT, 1),
    (TALK, ">&-", OUTPUT, 1),
    (WHY, ">&-", OUTPUT, 1),
    (("--help",), ">&-", OUTPUT, 1),
    (NO_FILE, ">&-", OUTPUT, 1),
    (WHY, "2>&-", OK, 0),
    (WHY, "2>/dev/full", OK, 0),
    (NO_FILE, "", INPUT, 1),
    (NO_FILE, "2>/dev/full", INPUT, 0),
    (NO_FILE, "2>&-", INPUT, 0),
    (NO_FILE, ">/dev/full", INPUT, 1),
    (("wrong",), "", WORDS, 1),
    (("wrong",), "2>/dev/full", WORDS, 0),
    ((), "2>/dev/full", WORDS, 0),
    ((), "2>&-", WORDS, 0),
    (WHY, ">/dev/full 2>/dev/full", OUTPUT, 0),
    (WHY, ">&- 2>&-", OUTPUT, 0),
    (WHY, "<&- >&- 2>&-", OUTPUT, 0),
    (WHY, "<&-", OK, 0),
    (("why", "-"), "<&-", INPUT, 1),
    (("why", "-"), "0>FILE", INPUT, 1),
    (("why", "-"), f"<{OFFICE}", OK, 0),
    (("explain", "-"), "0>FILE", INPUT, 1),
    (("convert", "-"), "0>FILE", INPUT, 1),
    (("compare", str(OFFICE), "-"), "0>FILE", INPUT, 1),
    (TALK, "<&-", INPUT, 1),
    (TALK, "0>FILE", INPUT, 1),
    (("why", "/"), "", INPUT, 1),
    (("why", "FILE/x"), "", INPUT, 1),
    (("why", "a\nb"), "", INPUT, 1),
    (("edit", str(OFFICE), "-o", "/nowhere/out.evac"), "", OUTPUT, 1),
    (("edit", str(OFFICE), "-o", "/dev/full"), "", OUTPUT, 1),
    (("why", str(OFFICE), "--csv", "--json"), "", WORDS, 1),
    (("why", str(OFFICE), "--edit", "shutt A B"), "", WORDS, 1),
)


class Streams(unittest.TestCase):
    def test_each_row(self) -> None:
        for words, streams, status, lines in TABLE:
            with self.subTest(words=words, streams=streams), tempfile.TemporaryDirectory() as folder:
                command = ["bash", "-c", f'"$@" {streams}', "bash", *EVACASK, *words]
                ran = subprocess.run(command, capture_output=True, cwd=folder, timeout=PATIENCE, stdin=subprocess.DEVNULL)
                said = ran.stderr.decode()
                self.assertEqual((ran.returncode, said.count("\n")), (status, lines), said)
                self.assertTrue(all(line.startswith("evacask: ") for line in said.splitlines()), said)

    def test_a_reader_that_has_gone(self) -> None:
        for words in (WHY, ("--help",), ("edit", str(TOWER))):
            with self.subTest(words):
                asked = subprocess.Popen([*EVACASK, *words], stdout=subprocess.PIPE, stderr=subprocess.PIPE)
                assert asked.stdout and asked.stderr
                asked.stdout.close()
                with asked.stderr:
                    self.assertEqual((asked.wait(PATIENCE), asked.stderr.read()), (PIPE, b""))


if __name__ == "__main__":
    unittest.main()
