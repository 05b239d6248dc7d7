"""What the tests of the commands share beside package.py: the script at the top as a process, the program itself, and buildings that were changed."""
import os
import pathlib
import subprocess
import sys
from typing import List, Match, Optional

from companion.tests.package import EXAMPLES, OFFICE, PATIENCE, SCHOOL, TOP, TOWER, Ended, ask, program

__all__ = [
    "EXAMPLES",
    "METRO",
    "OFFICE",
    "PATIENCE",
    "SCHOOL",
    "TOP",
    "TOWER",
    "Ended",
    "ask",
    "changed",
    "edited",
    "found",
    "program",
    "run",
    "solved",
]
METRO = TOP / "examples/metro.evac"


def run(*words: object, text: bytes = b"", **settings: str) -> Ended:
    """Runs evacask as a command, with settings of the environment beside those that are there."""
    command: List[str] = [sys.executable, "-B", str(TOP / "evacask"), *(str(word) for word in words)]
    ran = subprocess.run(command, input=text, capture_output=True, env={**os.environ, **settings}, timeout=PATIENCE)
    return Ended(ran.returncode, ran.stdout.decode("utf-8", "surrogateescape"), ran.stderr.decode("utf-8", "surrogateescape"))


def solved(text: bytes, *words: str) -> str:
    """What the program itself prints."""
    return subprocess.run([program(), *words], input=text, capture_output=True, timeout=PATIENCE).stdout.decode("utf-8", "surrogateescape")


def found(match: Optional[Match[str]], group: int = 1) -> str:
    """A group of a match that has to be there."""
    if match is None:
        raise AssertionError("the text isn't as the test expects it")
    return str(match[group])


def changed(old: str, new: str, text: str) -> str:
    """A text with something changed once."""
    assert old in text, old
    return text.replace(old, new, 1)


def edited(path: pathlib.Path, old: str, new: str) -> str:
    """The text of a building with something changed once."""
    return changed(old, new, path.read_text())
