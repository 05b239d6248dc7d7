"""The client against scripts of a few lines: pipes, endings, the file of the program, and what is known of it."""
import contextlib
import os
import pathlib
import tempfile
import unittest
from typing import List, Optional, Tuple, Type, Union
from unittest import mock

from evacask.client import program, sources, talk
from evacask.client.processes import PROCESSES
from evacask.client.program import State, found_program, path_of, source_of, state_of
from evacask.client.sources import Found
from evacask.client.talk import Pipe, Program
from evacask.errors import Broken, EvacaskError, NoMemory, NoProgram, NotProved

Path = Optional[pathlib.Path]
Wanted = Union[bytes, Tuple[Type[EvacaskError], str]]
MARK = b"\0rattle logic=0123456789abcdef\0"
# A script, what is sent to it, and what comes: bytes, or an error and words of it.
RUNS: Tuple[Tuple[str, bytes, Wanted], ...] = (
    ("echo yes", b"", b"yes\n"),
    ("cat", b"yes\n" * 1_000_000, b"yes\n" * 1_000_000),
    ("echo refused 13 1; exit 1", b"x" * 1_000_000, b"refused 13 1\n"),
    ("exec <&-; echo yes", b"x" * 1_000_000, b"yes\n"),
    ("exit 5", b"", (NoMemory, "no memory")),
    ("echo yes; exit 3", b"", (Broken, "status 3")),
    ("echo yes; kill -9 $$", b"", (Broken, "signal 9")),
    ("echo hello", b"", (Broken, "hello")),
    ("exec yes", b"", (Broken, "is it evacplan")),
    ("exec yes 'out 0 0'", b"", (Broken, "is it evacplan")),
    ("exec yes 'answer 0'", b"", (Broken, "without end")),
    ("exec >&-; exec sleep 20", b"", (Broken, "went on")),
    ("sleep 20 & exit 0", b"", b""),
)
SESSION = (
    "while read -r line; do case $line in q) exit 5;; t) echo refused 22 1; echo people 3; echo most 2; echo end;; *) echo work 1 1;; esac; done"
)


class Scripts(unittest.TestCase):
    def setUp(self) -> None:
        folder = tempfile.TemporaryDirectory()
        self.addCleanup(folder.cleanup)
        self.folder = pathlib.Path(folder.name)
        for name, value in (("LAST_PATIENCE", 0.2), ("PATIENCE", 50), ("MOST_BYTES", 1 << 23)):
            patched = mock.patch.object(talk, name, value)
            patched.start()
            self.addCleanup(patched.stop)
        self.addCleanup(PROCESSES.reopen)

    def script(self, body: str, name: str = "program") -> pathlib.Path:
        path = self.folder / name
        path.write_text(f"#!/bin/sh\n{body}\n", encoding="utf-8")
        path.chmod(0o755)
        return path


class Pipes(Scripts):
    def test_runs(self) -> None:
        for body, given, wanted in RUNS:
            with self.subTest(body):
                client = Program(self.script(body))
                if isinstance(wanted, bytes):
                    self.assertEqual(client.run(["solve"], given), wanted)
                else:
                    kind, words = wanted
                    with self.assertRaisesRegex(kind, words):
                        client.run(["solve"], given)
                self.assertEqual(PROCESSES.running, set())

    def test_a_talk(self) -> None:
        with Program(self.script(SESSION)).talk("session", b"") as line:
            line.send(b"a\nb\nt\n")
            self.assertEqual([line.reply(), line.reply(), line.reply()], [b"work 1 1\n", b"work 1 1\n", b"refused 22 1\npeople 3\nmost 2\nend\n"])
            line.send(b"q\n")
            with self.assertRaises(NoMemory):
                line.reply()

    def test_many_lines_ahead(self) -> None:
        with Program(self.script(SESSION)).talk("session", b"") as line:
            line.send(b"a\n" * 50_000)
            self.assertEqual({line.reply() for _ in range(50_000)}, {b"work 1 1\n"})

    def test_it_says_that_it_waits(self) -> None:
        told: List[int] = []
        Program(self.script("sleep 0.3; echo yes"), told.append).run(["solve"], b"")
        self.assertEqual(told[:2], [1, 2])
        Program(self.script("sleep 0.1; echo yes")).run(["solve"], b"")

    def test_what_can_not_be_started(self) -> None:
        for path in (self.folder / "nothing", self.folder, self.folder / "no\0name"):
            with self.subTest(path), self.assertRaisesRegex(NoProgram, "can't be run"):
                Program(path).run(["solve"], b"")

    def test_nothing_is_started_after_the_end(self) -> None:
        client = Program(self.script("sleep 20"))
        with self.assertRaises(EvacaskError):
            with client.talk("session", b"") as line:
                PROCESSES.close()
                line.reply()
        with self.assertRaisesRegex(Broken, "ending"):
            client.run(["solve"], b"")
        self.assertEqual((PROCESSES.running, PROCESSES.is_starting), (set(), False))

    def test_a_process_without_streams(self) -> None:
        with self.assertRaises(Broken):
            Pipe(mock.Mock(stdin=None, stdout=None))


class Files(Scripts):
    def test_the_source_of_a_program(self) -> None:
        path = self.script("echo yes")
        self.assertEqual((source_of(path).logic, source_of(path).is_proved, Program(path).source), (None, False, source_of(path)))
        path.write_bytes(path.read_bytes() + MARK)
        self.assertEqual((source_of(path).logic, source_of(path).is_proved), ("0123456789abcdef", True))
        with self.assertRaisesRegex(NoProgram, "can't be read"):
            source_of(self.folder / "nothing")

    def test_which_program_is_found(self) -> None:
        named, packaged, made = self.script("", "named"), self.script("", "packaged"), self.script("", "made")
        nothing, script = self.folder / "nothing", self.folder / "evacplan"
        (self.folder / "crates.txt").write_text("")
        for given, environment, state, wanted in (
            (named, None, State.PROVED, named),
            (None, named, State.PROVED, named),
            (None, None, State.PROVED, made),
            (None, None, State.UNPROVED, made),
            (script, None, State.PROVED, made),
            (None, None, State.STALE, None),
            (nothing, None, State.PROVED, None),
            (self.folder, None, State.PROVED, None),
        ):
            with self.subTest(given=given, environment=environment, state=state):
                self.script("", "build")
                self.assert_found(given, environment, Found(state, made), packaged, wanted)
        (self.folder / "build").unlink()
        self.assert_found(None, None, Found(State.NONE, nothing), packaged, packaged)
        self.assert_found(None, None, Found(State.NONE, nothing), nothing, None)

    def assert_found(self, given: Path, environment: Path, now: Found, packaged: pathlib.Path, wanted: Path) -> None:
        """The program that is found, in a repository or in a package, is the wanted one, or there is none."""
        settings = {name: value for name, value in os.environ.items() if name != "EVACPLAN"}
        settings.update({"EVACPLAN": str(environment)} if environment else {})
        with contextlib.ExitStack() as stack:
            stack.enter_context(mock.patch.multiple(program, PACKAGED=packaged, TOP=self.folder))
            stack.enter_context(mock.patch.multiple(sources, made=lambda top: now, found=lambda top: now))
            stack.enter_context(mock.patch.dict(os.environ, settings, clear=True))
            if wanted:
                self.assertEqual(path_of(str(given) if given else None), wanted.resolve())
            else:
                stack.enter_context(self.assertRaises(NoProgram))
                path_of(str(given) if given else None)

    def test_a_proved_program_is_asked_for(self) -> None:
        path = self.script("echo yes")
        self.assertEqual(found_program(str(path)).path, path.resolve())
        with self.assertRaisesRegex(NotProved, "./build proves it|./build makes the proved program"):
            found_program(str(path), proved=True)
        path.write_bytes(path.read_bytes() + MARK)
        self.assertEqual(found_program(str(path), proved=True).path, path.resolve())

    def test_the_state_of_a_repository(self) -> None:
        self.assertIs(state_of(self.folder), State.NONE)

    def test_the_program_takes_over(self) -> None:
        path = self.script("echo yes")
        with mock.patch.dict(os.environ, {"EVACPLAN": str(path)}), mock.patch("os.execv") as taken:
            program.run()
        self.assertEqual(taken.call_args[0][0], str(path.resolve()))


if __name__ == "__main__":
    unittest.main()
