"""How evacask ends, as a command: words, files, streams, signals, and a program that isn't there or breaks off."""
import ast
import os
import pathlib
import re
import shlex
import signal
import subprocess
import sys
import tempfile
import time
import unittest
from typing import Any, List, Sequence, Tuple

from companion.tests.asking import OFFICE, PATIENCE, TOP, TOWER, Ended, ask, program, run
from evacask.faces.commands import COMMANDS
from evacask.faces.ending import Status

EVACASK = [sys.executable, "-B", str(TOP / "evacask")]


def start(*words: object, **options: Any) -> "subprocess.Popen[bytes]":
    return subprocess.Popen([*EVACASK, *(str(word) for word in words)], stdout=subprocess.PIPE, stderr=subprocess.PIPE, **options)


class Endings(unittest.TestCase):
    def assert_one_line(self, said: Ended, status: int, wanted: str) -> None:
        """One plain line on standard error, nothing else, and the status."""
        self.assertEqual((said.status, said.out), (status, ""))
        self.assertRegex(said.err, r"\Aevacask: [^\n]+\n\Z")
        self.assertIn(wanted, said.err)

    def test_words(self) -> None:
        rows: Tuple[Tuple[Sequence[object], str], ...] = (
            (["sumary", OFFICE], "there is no command sumary; near it: summary"),
            (["summary"], "BUILDING"),
            (["why", OFFICE, "x"], "x is no whole number"),
            (["why", OFFICE, "-1"], "-1"),
            (["tables", "exit", OFFICE], "exits"),
            (["summary", OFFICE, "--rate", "3"], "--rate"),
            (["--program", program()], "which command"),
            (["talk", "-"], "must be a file"),
            (["talk", OFFICE, "--study", "--replan"], "--study"),
            (["metres", OFFICE, "--period", "0"], "0 is no period"),
            (["ways", OFFICE, "--rate", "10001"], "10001 is no rate"),
            (["why", OFFICE, "1234567890"], "at most nine digits"),
            (["metres", OFFICE, "--period", "2", "--period", "3"], "--both"),
        )
        for words, wanted in rows:
            with self.subTest(words):
                self.assert_one_line(ask(*words), Status.WORDS, wanted)
        self.assert_one_line(run("sumary", OFFICE), Status.WORDS, "near it: summary")

    def test_no_words_show_the_commands(self) -> None:
        said = ask()
        self.assertEqual((said.status, said.out), (Status.WORDS, ""))
        self.assertTrue(all(f"\n    {it.name} " in said.err for it in COMMANDS))

    def test_help(self) -> None:
        nothing: List[str] = []
        for words in (nothing, *([it.name] for it in COMMANDS)):
            said = ask(*words, "--help")
            self.assertEqual((said.status, said.err), (0, ""))
            for status in Status:
                self.assertRegex(said.out, rf"[\n ]{int(status)} +\w")
            self.assertLessEqual(max(len(line) for line in said.lines), 140)

    def test_the_examples_of_help_are_answered(self) -> None:
        for it in COMMANDS:
            with self.subTest(it.name):
                said = ask(it.name, *(TOP / word if word.startswith("examples/") else word for word in shlex.split(it.example)))
                self.assertEqual((said.status, said.err), (0, ""))
                self.assertEqual(bool(said.out), it.name != "review")

    def test_files(self) -> None:
        with tempfile.TemporaryDirectory() as folder:
            for name, wanted in ((pathlib.Path(folder, "none.evac"), "No such file"), (folder, "Is a directory")):
                self.assert_one_line(run("summary", name), Status.INPUT, wanted)

    def test_no_program(self) -> None:
        with tempfile.TemporaryDirectory() as folder:
            copy = pathlib.Path(folder)
            (copy / "companion").symlink_to(TOP / "companion")
            self.assert_one_line(run("summary", OFFICE, EVACPLAN=str(copy / "nothing")), Status.NO_PROGRAM, "there is no program")
            self.assert_one_line(run("summary", OFFICE, EVACPLAN=folder), Status.NO_PROGRAM, "there is no program")
        self.assert_one_line(run("summary", OFFICE, "--program", "/nowhere/evacplan"), Status.NO_PROGRAM, "there is no program /nowhere/evacplan")

    def test_no_program_is_built(self) -> None:
        with tempfile.TemporaryDirectory() as folder:
            subprocess.run(["cp", "-R", TOP / "evacask", TOP / "companion", folder], check=True)
            settings = {name: value for name, value in os.environ.items() if name != "EVACPLAN"}
            ran = subprocess.run([sys.executable, f"{folder}/evacask", "summary", OFFICE], capture_output=True, text=True, env=settings)
            self.assertEqual((ran.returncode, ran.stdout, ran.stderr.count("\n")), (Status.NO_PROGRAM, "", 1))
            by_script = [f"{folder}/evacask", "why", str(OFFICE), "--program", f"{folder}/evacplan"]
            self.assertEqual(subprocess.run(by_script, capture_output=True, text=True).stderr, ran.stderr)
            self.assertIn("./build", ran.stderr)
            self.assertIn("--program", ran.stderr)
            wrong = subprocess.run(
                [sys.executable, f"{folder}/evacask", "--program", program(), "summary", "-"], input=b"x", capture_output=True, env=settings
            )
            self.assertEqual(wrong.returncode, Status.REFUSED)
            # (its codes don't come from a document)
            self.assertIn(b"refused 1: The first line that isn't blank", wrong.stderr)

    def test_another_program(self) -> None:
        for name in ("/bin/true", "/bin/false", "/bin/echo"):
            with self.subTest(name):
                self.assert_one_line(run("summary", OFFICE, EVACPLAN=name), Status.NO_PROGRAM, "is it evacplan")

    def test_the_program_breaks_off(self) -> None:
        for ends, status, wanted in (
            ("exit 5", Status.MEMORY, "no memory"),
            ("kill -9 $$", Status.NO_PROGRAM, "signal 9"),
            ("exit 0", Status.NO_PROGRAM, "broke off"),
        ):
            with tempfile.TemporaryDirectory() as folder, self.subTest(ends):
                stand_in = pathlib.Path(folder, "program")
                stand_in.write_text(f'#!/bin/sh\n[ "$1" != upgrade ] || exec {program()} upgrade\n{ends}\n')
                stand_in.chmod(0o755)
                self.assert_one_line(run("summary", OFFICE, "--program", stand_in), status, wanted)

    def test_a_link_to_it(self) -> None:
        with tempfile.TemporaryDirectory() as folder:
            link = pathlib.Path(folder, "ask")
            link.symlink_to(TOP / "evacask")
            ran = subprocess.run([link, "why", OFFICE], capture_output=True, text=True, cwd=folder)
            self.assertEqual((ran.returncode, ran.stderr), (0, ""))

    def test_a_closed_pipe(self) -> None:
        for words in (("tables", "nodes", TOWER), ("summary", OFFICE), ("ways", OFFICE)):
            with self.subTest(words[0]):
                asked = start(*words)
                if asked.stdout and asked.stderr:
                    asked.stdout.close()
                    with asked.stderr:
                        self.assertEqual((asked.wait(PATIENCE), asked.stderr.read()), (Status.CLOSED_PIPE, b""))

    @unittest.skipUnless(os.path.exists("/dev/full"), "no /dev/full")
    def test_a_full_disk(self) -> None:
        with open("/dev/full", "wb") as full:
            ran = subprocess.run([*EVACASK, "summary", OFFICE], stdout=full, stderr=subprocess.PIPE)
        self.assertEqual(ran.returncode, Status.OUTPUT)
        self.assertRegex(ran.stderr, rb"\Aevacask: the output can't be written: [^\n]+\n\Z")

    def test_ctrl_c(self) -> None:
        with tempfile.TemporaryDirectory() as folder:
            slow, began = pathlib.Path(folder, "program"), pathlib.Path(folder, "began")
            slow.write_text(f'#!/bin/sh\n[ "$1" != upgrade ] || exec {program()} upgrade\necho $$ >{began}\nexec sleep 60\n')
            slow.chmod(0o755)
            asked = start("why", OFFICE, "--program", slow)
            end = time.monotonic() + PATIENCE
            while not (began.exists() and began.read_text()) and time.monotonic() < end:
                time.sleep(0.02)
            asked.send_signal(signal.SIGINT)
            said = asked.communicate(timeout=PATIENCE)
            self.assertEqual((asked.returncode, said), (-signal.SIGINT, (b"", b"")))
            self.assert_is_gone(int(began.read_text()))

    def assert_is_gone(self, process: int) -> None:
        """No program is left running."""
        end = time.monotonic() + PATIENCE
        while time.monotonic() < end:
            try:
                os.kill(process, 0)
            except ProcessLookupError:
                return
            time.sleep(0.02)
        self.fail("the program still runs")

    def test_closed_streams(self) -> None:
        for closed, wanted in (("<&-", Status.INPUT), (">&-", Status.OUTPUT), ("2>&-", Status.REFUSED)):
            with self.subTest(closed):
                command = ["sh", "-c", f'exec "$@" {closed}', "sh", *EVACASK, "summary", "-"]
                ran = subprocess.run(command, capture_output=True, stdin=subprocess.DEVNULL)
                self.assertEqual(ran.returncode, wanted)
                self.assertEqual(ran.stderr.count(b"can't be "), 0 if closed == "2>&-" else 1)


class Progress(unittest.TestCase):
    def test_it_is_for_a_terminal_alone(self) -> None:
        self.assertEqual(ask("ways", OFFICE).err, "")


class Sources(unittest.TestCase):
    def test_python_3_9_reads_them(self) -> None:
        for path in [TOP / "evacask", *sorted((TOP / "companion").rglob("*.py"))]:
            with self.subTest(path.name):
                ast.parse(path.read_text(), feature_version=(3, 9))

    @unittest.skipUnless(hasattr(sys, "stdlib_module_names"), "Python before 3.10 doesn't name the modules of its library")
    def test_only_the_standard_library(self) -> None:
        library = getattr(sys, "stdlib_module_names")
        paths = sorted((TOP / "companion/src").rglob("*.py"))
        self.assertGreater(len(paths), 50)
        for path in paths:
            for name in re.findall(r"(?m)^(?:from|import) (\w+)", path.read_text()):
                self.assertTrue(name in ("evacask", "evacask_start") or name in library, f"{path.name}: {name}")


if __name__ == "__main__":
    unittest.main()
