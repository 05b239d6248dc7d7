"""Which program is asked, and what is known of it."""
from __future__ import annotations

import functools
import hashlib
import json
import os
import pathlib
import sys
from typing import NoReturn, Optional, Tuple

from evacask.client import sources
from evacask.client.sources import State, state_of
from evacask.client.talk import Program, Source, Tell, silent
from evacask.errors import NoProgram, NotProved

__all__ = [
    "BUILT",
    "PACKAGED",
    "TOP",
    "UNPROVED",
    "State",
    "commit_of_release",
    "found_program",
    "is_program",
    "path_of",
    "run",
    "source_of",
    "state_of",
]
PACKAGED = pathlib.Path(__file__).resolve().parent.parent / "bin/evacplan"
# The repository's top, if the package stands in one.
TOP = (pathlib.Path(__file__).resolve().parent / "../../../..").resolve()
# The programs of its sources: the proved one, and the one that isn't.
BUILT, UNPROVED = TOP / sources.PROVED_PLACE, TOP / sources.UNPROVED_PLACE


@functools.lru_cache(maxsize=None)
def source_at(path: pathlib.Path, stamp: Tuple[int, int]) -> Source:
    """The sum and the mark of a program. The stamp, its time and size, tells when it is another one."""
    data = path.read_bytes()
    return Source(hashlib.sha256(data).hexdigest(), sources.mark_of(data))


def source_of(path: pathlib.Path) -> Source:
    """Where the answers of the program at a path come from; `NoProgram` if it can't be read."""
    try:
        about = path.stat()
        return source_at(path, (about.st_mtime_ns, about.st_size))
    except OSError as fault:
        raise NoProgram(f"{path} can't be read: {fault.strerror}") from None


def is_program(path: pathlib.Path) -> bool:
    return path.is_file() and os.access(path, os.X_OK)


def found_program(given: Optional[str] = None, proved: bool = False, waiting: Tell = silent) -> Program:
    """The program that is named by `given` or by EVACPLAN, or else the built one, or that of the package.

    `NoProgram` if there is none, and `NotProved` if a proved one is asked for and it isn't.
    """
    program = Program(path_of(given, makes=not proved), waiting)
    if proved and not program.source.is_proved:
        raise NotProved(f"{program.path} isn't proved on this machine: ./build makes the proved program")
    return program


def path_of(given: Optional[str], makes: bool = True) -> pathlib.Path:
    """The file of the program. The script `evacplan` stands for the program of its sources, as no name does; if there is none, an unproved one may be made."""
    named = given or os.environ.get("EVACPLAN")
    if named and pathlib.Path(named).resolve() != TOP / "evacplan":
        if is_program(pathlib.Path(named)):
            return pathlib.Path(named).resolve()
        raise NoProgram(f"there is no program {named}: --program and EVACPLAN name the file of the program")
    if (TOP / "crates.txt").is_file() and is_program(TOP / "build"):
        now = sources.made(TOP) if makes else sources.found(TOP)
        if now.is_current:
            return now.program
    elif is_program(PACKAGED):
        return PACKAGED
    raise NoProgram("there is no program: ./build makes the proved one, and --program and EVACPLAN name another")


def commit_of_release() -> Optional[str]:
    """The commit of which the package was made, from the manifest of its release."""
    try:
        made_of = json.loads((PACKAGED.parent.parent / "MANIFEST.json").read_text("utf-8"))["commit"]
    except (OSError, ValueError, KeyError, TypeError):
        return None
    return str(made_of)


def run() -> NoReturn:
    """The command `evacplan` of an installed package: the program itself takes over."""
    os.execv(str(path_of(None)), ["evacplan", *sys.argv[1:]])
