#!/usr/bin/env python3
"""Ends the built program, or the one that EVACPLAN names, at each status from 0 to 6, and compares what it read and wrote, byte for byte.

    tests/statuses.py

What a run wrote is what the table of statuses in docs/users/formats.md and the clauses of `run` say of it; the texts were worked out by hand. What it read
of a file is told by the place at which the next read would begin.
"""
import os
import pathlib
import resource
import signal
import subprocess
import sys
import tempfile
import unittest
from dataclasses import dataclass
from typing import IO, Callable, Sequence

sys.dont_write_bytecode = True
TOP = pathlib.Path(__file__).resolve().parent.parent
PROGRAM = os.environ.get("EVACPLAN", str(TOP / "crates/evacplan/out/evacplan"))

BUILDING = b"evacplan 1\nperiod 5\nhorizon 20\nfloor 1 Ground\nnode WP1.1 10 3\nnode DS1.1\narc WP1.1 DS1.1 1 2\nend\n"
ANSWER = (
    b"answer 0\npeople 3\ncleared 2\nout 0 0\nout 1 2\nout 2 3\nlabel WP1.1 0 2\nmove 0 WP1.1 DS1.1 2\nmove 1 WP1.1 DS1.1 1\nend\n"
)
WIDER = b"answer 1\npeople 3\ncleared 1\nout 0 0\nout 1 3\nlabel WP1.1 0 1\nmove 0 WP1.1 DS1.1 3\nend\n"
SHORT = BUILDING.replace(b"horizon 20", b"horizon 1")


@dataclass(frozen=True)
class Ended:
    """How a run ended: its status, what it wrote, and how many bytes of its input it read."""

    status: int
    wrote: bytes
    read: int


def with_file(words: "Sequence[str | bytes]", text: bytes, before: "Callable[[], None] | None" = None) -> Ended:
    """A run on a file, whose output is a file too."""
    with tempfile.TemporaryFile() as source, tempfile.TemporaryFile() as sink:
        source.write(text)
        source.seek(0)
        ran = subprocess.run([PROGRAM, *words], stdin=source, stdout=sink, preexec_fn=before, timeout=60)
        sink.seek(0)
        return Ended(ran.returncode, sink.read(), os.lseek(source.fileno(), 0, os.SEEK_CUR))


def with_streams(words: "Sequence[str]", source: "IO[bytes] | int", sink: "IO[bytes] | int" = subprocess.PIPE) -> "subprocess.CompletedProcess[bytes]":
    """A run on any streams."""
    return subprocess.run([PROGRAM, *words], stdin=source, stdout=sink, timeout=60)


def files_of_bytes(limit: int) -> "Callable[[], None]":
    """Lets the run write so many bytes to a file and no more: then a write fails, and no signal comes."""

    def before() -> None:
        signal.signal(signal.SIGXFSZ, signal.SIG_IGN)
        resource.setrlimit(resource.RLIMIT_FSIZE, (limit, limit))

    return before


def memory_of(limit: int) -> "Callable[[], None]":
    """Lets the run have so many bytes of memory."""
    return lambda: resource.setrlimit(resource.RLIMIT_AS, (limit, limit))


def large_building() -> bytes:
    """Nearly as many rooms in a row as there may be, with the longest horizon: 960,000 cells."""
    rooms = [f"node WP{number}.1 9 1" for number in range(1, 400)]
    arcs = [f"arc WP{number}.1 WP{number + 1}.1 1 9" for number in range(1, 399)] + ["arc WP399.1 DS1.1 1 9"]
    return "\n".join(["evacplan 1", "period 5", "horizon 1200", "floor 1 Ground", *rooms, "node DS1.1", *arcs, "end", ""]).encode()


class Statuses(unittest.TestCase):
    def test_0_writes_the_whole_answer_to_all_of_the_input(self) -> None:
        self.assertEqual(with_file(["solve"], BUILDING), Ended(0, ANSWER, len(BUILDING)))

    def test_0_answers_each_line_up_to_the_one_that_quits(self) -> None:
        ended = with_file(["session"], BUILDING + b"\n# wider\nrate WP1.1 DS1.1 3\nquit\n")
        self.assertEqual((ended.status, ended.wrote), (0, ANSWER + WIDER))

    def test_0_takes_nothing_for_a_drill(self) -> None:
        ended = with_file(["drill", "--number", "1"], BUILDING)
        self.assertEqual((ended.status, ended.wrote.split(b"\n")[0], ended.read), (0, b"drill 1", 0))

    def test_1_refuses_a_fault_by_its_line(self) -> None:
        ended = with_file(["solve"], BUILDING.replace(b"period 5", b"period"))
        self.assertEqual(ended.status, 1)
        self.assertRegex(ended.wrote, rb"\Arefused \d+ 2\n\Z")

    def test_1_says_how_many_can_get_out(self) -> None:
        ended = with_file(["solve"], SHORT)
        self.assertEqual((ended.status, ended.read), (1, len(SHORT)))
        self.assertTrue(ended.wrote.startswith(b"refused 22 8\npeople 3\nmost 2\n"))
        self.assertTrue(ended.wrote.endswith(b"end\n"))

    def test_1_says_no_to_a_block_of_other_people(self) -> None:
        text = BUILDING + ANSWER.replace(b"people 3", b"people 4")
        self.assertEqual(with_file(["check"], text), Ended(1, b"no 52\n", len(text)))
        self.assertEqual(with_file(["check"], BUILDING + ANSWER), Ended(0, b"yes\n", len(BUILDING + ANSWER)))

    def test_2_reads_nothing(self) -> None:
        for words in ("", "nothing", "solve solve", "solve --routes --routes", "drill --number 01"):
            self.assertEqual(with_file(words.split(), BUILDING), Ended(2, b"refused 40 0\n", 0), words)

    def test_3_writes_nothing_of_a_building_that_failed(self) -> None:
        for words in (["solve"], ["cards"], ["check"], ["upgrade"], ["session"], ["study"], ["replan"]):
            folder = os.open("/", os.O_RDONLY)
            with self.subTest(words):
                ran = with_streams(words, folder)
                self.assertEqual((ran.returncode, ran.stdout), (3, b""))
            os.close(folder)

    def test_3_writes_the_replies_to_the_whole_lines(self) -> None:
        """A pipe that doesn't block fails after the bytes that are in it: the last line isn't whole."""
        for last, wrote in ((b"", ANSWER), (b"rate WP1.1 DS1.1 3\n", ANSWER + WIDER), (b"rate WP1.1 DS1.1 3", ANSWER)):
            out, into = os.pipe()
            os.set_blocking(out, False)
            os.write(into, BUILDING + last)
            with self.subTest(last), os.fdopen(out, "rb") as source, os.fdopen(into, "wb"):
                ran = with_streams(["session"], source)
                self.assertEqual((ran.returncode, ran.stdout), (3, wrote))

    def test_4_leaves_a_front_of_the_answer(self) -> None:
        for limit in (0, 1, 50, len(ANSWER) - 1):
            with self.subTest(limit):
                ended = with_file(["solve"], BUILDING, files_of_bytes(limit))
                self.assertEqual((ended.status, ended.wrote), (4, ANSWER[: len(ended.wrote)]))
                self.assertLessEqual(len(ended.wrote), limit)
        self.assertEqual(with_file(["solve"], BUILDING, files_of_bytes(len(ANSWER))).status, 0)

    def test_4_at_a_full_device(self) -> None:
        with open("/dev/full", "wb") as full, tempfile.TemporaryFile() as source:
            self.assertEqual(with_streams(["nothing"], source, full).returncode, 4)

    def test_5_writes_nothing(self) -> None:
        """With 16 MiB there is memory for a small building, and none for the plan of a large one."""
        building = large_building()
        self.assertEqual(with_file(["solve"], building).status, 0)
        self.assertEqual(with_file(["solve"], BUILDING, memory_of(16 << 20)), Ended(0, ANSWER, len(BUILDING)))
        ended = with_file(["solve"], building, memory_of(16 << 20))
        self.assertEqual((ended.status, ended.wrote), (5, b""))

    def test_6_reads_and_writes_nothing(self) -> None:
        self.assertEqual(with_file([b"\xff"], BUILDING), Ended(6, b"", 0))
        self.assertEqual(with_file(["solve", b"\xff"], BUILDING), Ended(6, b"", 0))


if __name__ == "__main__":
    if not pathlib.Path(PROGRAM).is_file():
        print(f"statuses: left out, since there is no program {PROGRAM}; ./build makes it, and EVACPLAN may name another")
        sys.exit(0)
    unittest.main()
