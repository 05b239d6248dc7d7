"""Signals: whatever ends the command, the programs that it asks end too, nothing is said, and a shell sees the signal."""
import os
import pathlib
import random
import signal
import subprocess
import sys
import tempfile
import time
import unittest
from typing import List

from companion.tests.package import EVACASK, OFFICE, PATIENCE, program

# What the program does after it has accepted the building, and its processes that are at work then.
AT_WORK = {
    "it waits": "exec sleep 60",
    "it works": "while :; do :; done",
    "it is a script that waits for another": "sleep 60; exit 0",
    "it takes no signals": "trap '' INT TERM HUP QUIT; while :; do :; done",
    "it talks without end": "printf 'answer 0\\n'; while :; do echo out 0 0; sleep 0.01; done",
}
ENDING = ("INT", "TERM", "HUP", "QUIT", "XCPU", "ALRM", "USR1", "USR2", "VTALRM", "PROF")
SWEEP = """
import sys
from evacask import found_program
from evacask.client.asking import accepted
from evacask.faces.ending import ends
from evacask.questions.sweep import sweep
client, text = found_program(sys.argv[1]), open(sys.argv[2]).read()
sys.exit(ends(lambda: len(sweep(client, accepted(client, text), [["rate SW2.2 DS2.1 3"]] * 40, 4))))
"""


def alive(process: int) -> bool:
    """Whether a process is there, and isn't only waited for."""
    try:
        return pathlib.Path(f"/proc/{process}/stat").read_text().rpartition(")")[2].split()[0] not in "ZX"
    except OSError:
        return False


class Signals(unittest.TestCase):
    def started(self, folder: str, does: str, command: List[str], count: int = 1) -> "tuple[subprocess.Popen[bytes], List[int]]":
        """A command whose program is at work, and the numbers of the program's processes."""
        fake, began = pathlib.Path(folder, "program"), pathlib.Path(folder, "began")
        fake.write_text(f'#!/bin/sh\n[ "$1" != upgrade ] || exec {program()} upgrade\necho $$ >>{began}\n{does}\n')
        fake.chmod(0o755)
        asked = subprocess.Popen([it.replace("FAKE", str(fake)) for it in command], stdout=subprocess.PIPE, stderr=subprocess.PIPE)
        end = time.monotonic() + PATIENCE
        while not (began.exists() and began.read_text().count("\n") >= count) and time.monotonic() < end:
            time.sleep(0.01)
        return asked, [int(it) for it in began.read_text().split()]

    def assert_ends(self, asked: "subprocess.Popen[bytes]", number: int, processes: List[int]) -> None:
        began = time.monotonic()
        said = asked.communicate(timeout=PATIENCE)
        self.assertEqual((asked.returncode, said), (-number, (b"", b"")))
        self.assertLess(time.monotonic() - began, 30)
        end = time.monotonic() + 5
        while any(map(alive, processes)) and time.monotonic() < end:
            time.sleep(0.01)
        self.assertEqual([it for it in processes if alive(it)], [])

    def test_each_signal_while_the_program_is_at_work(self) -> None:
        for at, name in enumerate(ENDING):
            for does in AT_WORK if at < 3 else ["it works"]:
                with self.subTest(signal=name, does=does), tempfile.TemporaryDirectory() as folder:
                    asked, processes = self.started(folder, AT_WORK[does], [*EVACASK, "--program", "FAKE", "why", str(OFFICE)])
                    number = signal.Signals[f"SIG{name}"]
                    asked.send_signal(number)
                    self.assert_ends(asked, number, processes)

    def test_several_programs_in_threads(self) -> None:
        for name in ("INT", "TERM", "HUP"):
            with self.subTest(name), tempfile.TemporaryDirectory() as folder:
                src = str(pathlib.Path(EVACASK[-1]).parent)
                command = [sys.executable, "-c", f"import sys; sys.path.insert(0, {src!r}); {SWEEP}", "FAKE", str(OFFICE)]
                asked, processes = self.started(folder, AT_WORK["it works"], command, 4)
                number = signal.Signals[f"SIG{name}"]
                asked.send_signal(number)
                self.assert_ends(asked, number, processes)

    def test_a_signal_that_is_ignored_stays_so(self) -> None:
        with tempfile.TemporaryDirectory() as folder:
            command = ["sh", "-c", 'trap "" HUP; exec "$@"', "sh", *EVACASK, "--program", "FAKE", "why", str(OFFICE)]
            asked, processes = self.started(folder, AT_WORK["it waits"], command)
            asked.send_signal(signal.SIGHUP)
            time.sleep(0.3)
            self.assertTrue(asked.poll() is None and alive(processes[0]))
            asked.send_signal(signal.SIGTERM)
            self.assert_ends(asked, signal.SIGTERM, processes)

    def test_a_killed_command_ends_the_real_program(self) -> None:
        asked = subprocess.Popen([*EVACASK, "why", str(OFFICE)], stdout=subprocess.PIPE)
        asked.kill()
        asked.communicate(timeout=PATIENCE)
        self.assertEqual(asked.returncode, -signal.SIGKILL)

    def test_ctrl_c_at_any_moment(self) -> None:
        chance, ended = random.Random(1), []
        for _ in range(int(os.environ.get("EVACASK_CTRL_C", "20"))):
            asked = subprocess.Popen([*EVACASK, "why", str(OFFICE)], stdout=subprocess.PIPE, stderr=subprocess.PIPE)
            time.sleep(chance.uniform(0.05, 0.6))
            asked.send_signal(signal.SIGINT)
            out, err = asked.communicate(timeout=PATIENCE)
            ended.append(asked.returncode)
            # (Python itself says something if it comes before the first line of evacask)
            if err and b"evacask" in err:
                self.fail(err.decode())
            self.assertIn(asked.returncode, (0, 1, -signal.SIGINT))
        self.assertIn(-signal.SIGINT, ended)


if __name__ == "__main__":
    unittest.main()
