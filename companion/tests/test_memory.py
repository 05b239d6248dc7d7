"""Missing memory: with whatever is left, a command answers or says that there is too little, and no process stays behind."""
import os
import resource
import subprocess
import sys
import tempfile
import unittest
from typing import Callable

from companion.tests.package import EVACASK, OFFICE, PATIENCE, TOWER, program
from companion.tests.test_fakes import running
from evacask.faces.ending import Status

MEGABYTE = 1 << 20
# From too little for the modules of the package, over too little for a thread or the program, to enough.
LIMITS = (16, 20, 24, 28, 32, 36, 40, 48, 56, 64, 80, 120, 200)
COMMANDS = (("why", str(OFFICE)), ("sensitivity", str(OFFICE)), ("report", str(OFFICE), "-o", "report.html"), ("session", str(OFFICE)))


def limited(megabytes: int) -> Callable[[], None]:
    """Sets the most memory that a process and what it starts may have."""
    return lambda: resource.setrlimit(resource.RLIMIT_AS, (megabytes * MEGABYTE, megabytes * MEGABYTE))


def python_starts(megabytes: int) -> bool:
    """Whether Python itself has enough memory to begin."""
    return subprocess.run([sys.executable, "-c", "import os, encodings.utf_8"], preexec_fn=limited(megabytes), capture_output=True).returncode == 0


class Memory(unittest.TestCase):
    def test_little_memory(self) -> None:
        mark, statuses = f"EVACASK_MEMORY_{os.getpid()}", []
        for megabytes in filter(python_starts, LIMITS):
            for words in COMMANDS:
                with self.subTest(megabytes=megabytes, command=words[0]), tempfile.TemporaryDirectory() as folder:
                    ran = subprocess.run(
                        [*EVACASK, *words],
                        input=b"exits\nundo\ncut 1\n",
                        capture_output=True,
                        cwd=folder,
                        env={**os.environ, mark: "1"},
                        preexec_fn=limited(megabytes),
                        timeout=PATIENCE,
                    )
                    said = ran.stderr.decode()
                    statuses.append(ran.returncode)
                    self.assertIn(ran.returncode, (Status.ANSWERED, Status.MEMORY), said)
                    self.assertRegex(said, r"\A(evacask: [^\n]+\n)?\Z")
                    self.assertEqual(bool(said), ran.returncode == Status.MEMORY)
                    self.assertEqual(running(mark), [])
        self.assertEqual({Status.ANSWERED, Status.MEMORY}, set(statuses))

    def test_a_program_that_finds_too_little(self) -> None:
        with tempfile.TemporaryDirectory() as folder:
            little = os.path.join(folder, "program")
            with open(little, "w", encoding="utf-8") as script:
                script.write(f'#!/bin/sh\nulimit -v 3000\nexec {program()} "$@"\n')
            os.chmod(little, 0o755)
            ran = subprocess.run([*EVACASK, "--program", little, "why", str(TOWER)], capture_output=True, timeout=PATIENCE)
            self.assertIn(ran.returncode, (Status.MEMORY, Status.NO_PROGRAM))
            self.assertRegex(ran.stderr.decode(), r"\Aevacask: [^\n]+\n\Z")


if __name__ == "__main__":
    unittest.main()
