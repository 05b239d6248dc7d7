"""A place to try the scripts in: a copy of them in a repository of three crates, with stand-ins for the kit's commands. Nothing is proved there."""
from __future__ import annotations

import os
import pathlib
import pty
import resource
import shutil
import signal
import subprocess
import sys
import termios
import time
from typing import Any, Callable, Dict, List, Optional

TOP = pathlib.Path(__file__).resolve().parents[2]
sys.path.insert(0, str(TOP / "companion/src/evacask/client"))
import sources  # noqa: E402

STAND_INS = TOP / "tests/front"
LOGIC = "0123456789abcdef"
CRATES = "# crates\nlow:\nevacplan: low # and no more\nworked: low\n"
TWO_BELOW = "# crates\nlow:\nother: arrayvec\nevacplan: low other # and no more\nworked: low\n"
SCRIPTS = ("evacplan", "build", "tools/kit.py", "tools/proofs.py", "tools/unproved.py", "companion/src/evacask/client/sources.py", ".ci/run")


class Place:
    """A repository `repo` of which the program is built on `low`, an empty folder for temporary files, and a kit of stand-ins."""

    def __init__(self, here: pathlib.Path, rows: str = CRATES):
        self.here, self.repo, self.tmp = here, here / "repo", here / "tmp"
        self.status, self.out, self.err = 0, "", ""
        self.env: Dict[str, str] = {
            **{it: os.environ[it] for it in os.environ if it != "EVACPLAN"},
            "PATH": f"{here}/bin:{os.environ['PATH']}",
            "TMPDIR": str(self.tmp),
            "RT_ROOM": str(here),
        }
        self.tmp.mkdir(parents=True)
        for name in SCRIPTS:
            self.copy(TOP / name, self.repo / name)
        for name, to in (
            ("rt", "bin/rt"),
            ("rt", "kit/bin/rt"),
            ("rattle", "kit/bin/rattle"),
            ("rattle-link", "kit/bin/rattle-link"),
            ("program", "kit/program"),
            ("clang", "kit/toolchain/bin/clang"),
            ("clang", "kit/toolchain/bin/ld.lld"),
        ):
            self.copy(STAND_INS / name, here / to)
        self.write("README.md", f"rattle-kit-1 logic {LOGIC}\n")
        self.write("crates.txt", rows)
        for crate in ("low", "other", "evacplan", "worked"):
            self.write(f"crates/{crate}/src/one.rt", f"of {crate}\n")
            self.write(f"crates/{crate}/proofs/One.antt", f"of {crate}\n")

    def copy(self, file: pathlib.Path, to: pathlib.Path) -> None:
        to.parent.mkdir(parents=True, exist_ok=True)
        shutil.copy(file, to)

    def write(self, name: str, text: str) -> pathlib.Path:
        file = self.repo / name
        file.parent.mkdir(parents=True, exist_ok=True)
        file.write_text(text)
        return file

    def put_program(self, place: str = sources.PROVED_PLACE) -> pathlib.Path:
        """Puts a program there as a build does, with what it is and what it was made from."""
        state = "proved" if place == sources.PROVED_PLACE else "unproved"
        mark = f"\0rattle logic={LOGIC}\0\n" if state == "proved" else ""
        program = self.write(place, (STAND_INS / "program").read_text().replace("state=unproved", f"state={state}") + mark)
        program.chmod(0o755)
        sources.record(self.repo, program, f"rattle-kit-1 logic {LOGIC}", sources.digests_of(self.repo))
        return program

    def start(self, *words: str, given: Optional[str] = "", limit: Optional[int] = None, **env: str) -> "subprocess.Popen[str]":
        """Starts a command of the repository with its input from a file, closed if it is None."""
        (self.here / "given").write_text(given or "")
        with open(self.here / "given") as stdin, open(self.here / "out", "w") as out, open(self.here / "err", "w") as err:

            def prepare() -> None:
                take_interrupts()
                if given is None:
                    os.close(0)
                if limit:
                    resource.setrlimit(resource.RLIMIT_FSIZE, (limit, limit))
                    signal.signal(signal.SIGXFSZ, signal.SIG_IGN)

            command = [str(self.repo / words[0]), *words[1:]]
            return subprocess.Popen(
                command, stdin=stdin, stdout=out, stderr=err, env={**self.env, **env}, preexec_fn=prepare, text=True, cwd=self.here
            )

    def run(self, *words: str, **how: Any) -> None:
        """Runs a command to its end, and keeps its status and what it printed."""
        self.ended(self.start(*words, **how))

    def ended(self, process: "subprocess.Popen[str]") -> None:
        try:
            self.status = process.wait(60)
        except subprocess.TimeoutExpired:
            process.kill()
            self.status = -1
        self.out, self.err = ((self.here / name).read_bytes().decode("utf-8", "replace") for name in ("out", "err"))

    def run_at_terminal(self, *words: str, typed: str = "\x04", sends: int = 0, **env: str) -> None:
        """Runs a command with a terminal as its standard input and error. It may be sent a signal once the file `pid` is there."""
        other, terminal = pty.openpty()
        modes = termios.tcgetattr(terminal)
        modes[3] &= ~termios.ECHO
        termios.tcsetattr(terminal, termios.TCSANOW, modes)
        with open(self.here / "out", "w") as out:
            command = [str(self.repo / words[0]), *words[1:]]
            process = subprocess.Popen(
                command, stdin=terminal, stdout=out, stderr=terminal, env={**self.env, **env}, preexec_fn=take_interrupts, text=True
            )
        os.close(terminal)
        os.write(other, typed.encode())
        if sends:
            self.await_file("pid")
            process.send_signal(sends)
        said = b""
        try:
            while more := os.read(other, 4096):
                said += more
        except OSError:
            pass
        (self.here / "err").write_bytes(said.replace(b"\r\n", b"\n"))
        self.ended(process)
        os.close(other)

    def await_file(self, name: str) -> None:
        await_true(lambda: (self.here / name).exists() and (self.here / name).stat().st_size > 0)

    def await_call(self, call: str) -> None:
        await_true(lambda: call in self.calls.split(","))

    @property
    def calls(self) -> str:
        """What the kit was called for since the case began or `forget_calls`."""
        file = self.here / "calls"
        return ",".join(file.read_text().split("\n")[:-1]) if file.exists() else ""

    def forget_calls(self) -> None:
        (self.here / "calls").unlink(missing_ok=True)

    @property
    def left(self) -> List[str]:
        """What is left among the temporary files and copies, and whether a stand-in that was slow goes on."""
        left = [it.name for it in self.tmp.iterdir()] + [it for it in ("out",) if (self.repo / it).exists()]
        slow = self.here / "slow"
        for number in slow.read_text().split() if slow.exists() else []:
            if not await_true(lambda: not pathlib.Path(f"/proc/{number}").exists(), 5):
                left.append(f"process {number}")
        return left


def take_interrupts() -> None:
    """Lets a new process be interrupted, which one can't be that a shell began in the background."""
    signal.signal(signal.SIGINT, signal.SIG_DFL)


def await_true(test: Callable[[], bool], seconds: float = 30) -> bool:
    """Waits until a test holds. Whether it does, at last."""
    end = time.monotonic() + seconds
    while not test() and time.monotonic() < end:
        time.sleep(0.05)
    return test()
