"""What the tests of the package share: its command asked in this process, or run as a process of its own."""
import io
import os
import pathlib
import subprocess
import sys
from dataclasses import dataclass
from typing import List, Union

from evacask.faces.commands import main

# The seconds after which something hangs; a machine with much else to do is slow.
PATIENCE = 300
TOP = pathlib.Path(__file__).resolve().parent.parent.parent
EXAMPLES = sorted((TOP / "examples").glob("*.evac"))
OFFICE, SCHOOL, TOWER = (TOP / f"examples/{name}.evac" for name in ("office", "school", "tower"))
EVACASK = [sys.executable, "-B", str(TOP / "companion/src/evacask_start.py")]


@dataclass
class Ended:
    """How a run ended, and what it printed on each stream."""

    status: int
    out: str
    err: str

    @property
    def lines(self) -> List[str]:
        return self.out.splitlines()


def ask(*words: object, text: Union[str, bytes] = "") -> Ended:
    """What evacask answers to some words and a text, asked in this process."""
    given, before = text.encode() if isinstance(text, str) else text, (sys.stdin, sys.stdout, sys.stderr)
    source, out, err = (io.TextIOWrapper(io.BytesIO(it), "utf-8", "surrogateescape", newline="") for it in (given, b"", b""))
    try:
        sys.stdin, sys.stdout, sys.stderr = source, out, err
        status = main([str(word) for word in words])
    finally:
        sys.stdin, sys.stdout, sys.stderr = before
    return Ended(status, printed(out), printed(err))


def printed(stream: io.TextIOWrapper) -> str:
    stream.flush()
    data: bytes = stream.buffer.getvalue()  # type: ignore[attr-defined]
    return data.decode("utf-8", "surrogateescape")


def run(*words: object, text: bytes = b"", **settings: str) -> Ended:
    """Runs evacask as a command, with settings of the environment beside those that are there."""
    command = [*EVACASK, *(str(word) for word in words)]
    ran = subprocess.run(command, input=text, capture_output=True, env={**os.environ, **settings}, timeout=PATIENCE)
    return Ended(ran.returncode, ran.stdout.decode("utf-8", "surrogateescape"), ran.stderr.decode("utf-8", "surrogateescape"))


def program() -> str:
    """The program that evacask asks."""
    return os.environ.get("EVACPLAN", str(TOP / "crates/evacplan/out/evacplan"))
