"""What the program is made from, by content, and which program of these sources there is.

./build makes crates/evacplan/out/evacplan, which is proved, and before that crates/evacplan/out/unproved/evacplan. Beside each lie `evacplan.json` (what
it is), `evacplan.sources` (the SHA-256 of each file that it was made from) and `evacplan.index` (what `find` says of these files: while that stays the
same, none of them is read). The scripts `build` and `evacplan` stand on this module too, so it imports nothing of the package.
"""
from __future__ import annotations

import contextlib
import enum
import hashlib
import json
import os
import pathlib
import re
import subprocess
import time
from dataclasses import dataclass
from typing import Dict, Iterable, Iterator, List, Optional

NOT_PROVED = "not proved on this machine; ./build proves it"
PROVED_PLACE, UNPROVED_PLACE = "crates/evacplan/out/evacplan", "crates/evacplan/out/unproved/evacplan"
PARTS = ("src", "specs", "proofs")


class State(enum.Enum):
    """What there is: a program of these sources (proved, or not), one that isn't of these sources, or none."""

    PROVED = "proved"
    UNPROVED = "unproved"
    STALE = "stale"
    NONE = "none"


@dataclass(frozen=True)
class Found:
    """A program and its state. If there is one that isn't of these sources, `why` says what is wrong with it."""

    state: State
    program: pathlib.Path
    why: str = ""

    @property
    def is_current(self) -> bool:
        return self.state in (State.PROVED, State.UNPROVED)


def state_of(top: pathlib.Path) -> State:
    """What there is in a repository."""
    return found(top).state


def found(top: pathlib.Path) -> Found:
    """The program of these sources: the proved one if it is current, or else the unproved one if that is."""
    digests, why, listed = "", "", index_of(top)
    for state, place in ((State.PROVED, PROVED_PLACE), (State.UNPROVED, UNPROVED_PLACE)):
        program = top / place
        if not os.access(program, os.X_OK):
            continue
        if listed and listed == bytes_of(program.with_suffix(".index")):
            return Found(state, program)
        digests = digests or digests_of(top)
        fault = fault_of(top, program, state, digests)
        if not fault:
            keep_index(program, listed)
            return Found(state, program)
        why = why or fault
    return Found(State.STALE if why else State.NONE, top / PROVED_PLACE, why)


def made(top: pathlib.Path) -> Found:
    """The program of these sources. If there is none, ./build makes one without a proof first; it says so, or why it can't, on standard error."""
    now = found(top)
    if not now.is_current:
        with subprocess.Popen([str(top / "build"), "--unproved"], stdin=subprocess.DEVNULL, stdout=subprocess.DEVNULL) as building:
            try:
                building.wait()
            except BaseException:  # (it is told to end too, and waited for)
                building.terminate()
                raise
        now = found(top)
    return now


def fault_of(top: pathlib.Path, program: pathlib.Path, state: State, digests: str) -> str:
    """Why a program isn't that of these sources; empty if it is."""
    data, said = bytes_of(program), said_of(program)
    if not said:
        return f"nothing says of which sources {program.relative_to(top)} is"
    if said.get("sha256") != hashlib.sha256(data).hexdigest():
        return f"{program.relative_to(top)} isn't as it was built"
    if said.get("logic") != logic_of(top) or state is State.PROVED and mark_of(data) != logic_of(top):
        return f"{program.relative_to(top)} isn't of the logic that README.md names"
    made_of = bytes_of(program.with_suffix(".sources")).decode("utf-8", "surrogateescape")
    changed = sorted({line.partition("  ")[2] for line in set(made_of.splitlines()) ^ set(digests.splitlines())})
    return f"changed since: {changed[0]}" + (f", and {len(changed) - 1} more" if len(changed) > 1 else "") if changed else ""


def record(top: pathlib.Path, program: pathlib.Path, kit: str, digests: str) -> None:
    """Writes beside a program what it is and what it was made from. The name of the kit has its logic's number. Raises OSError."""
    said = {"kit": kit, "logic": logic_of(top), "sha256": hashlib.sha256(bytes_of(program)).hexdigest()}
    program.with_suffix(".sources").write_text(digests, "utf-8", "surrogateescape")
    program.with_suffix(".json").write_text(json.dumps(said) + "\n", "utf-8")


def said_of(program: pathlib.Path) -> Dict[str, str]:
    """What was recorded of a program: its kit, its logic and its SHA-256. Empty if nothing was."""
    try:
        said = json.loads(bytes_of(program.with_suffix(".json")) or b"{}")
    except ValueError:
        said = {}
    return said if isinstance(said, dict) else {}


def logic_of(top: pathlib.Path) -> str:
    """The number of the logic in which the sources are proved, as README.md names it; empty if it doesn't."""
    named = re.search(rb"logic ([0-9a-f]{16})", bytes_of(top / "README.md"))
    return named[1].decode() if named else ""


def mark_of(program: bytes) -> Optional[str]:
    """The number of the logic in which a program was proved, from the mark that rattle leaves in it; None if it wasn't."""
    mark = re.search(rb"\0rattle logic=([0-9a-f]{16})[0-9a-f]*\0", program)
    return mark[1].decode() if mark else None


def crates_of(top: pathlib.Path) -> Dict[str, List[str]]:
    """The crates that the program is built on, by name, each with the names of those that it is built on itself."""
    rows = (line.partition("#")[0].partition(":") for line in bytes_of(top / "crates.txt").decode("utf-8", "replace").splitlines())
    below = {crate.strip(): others.split() for crate, colon, others in rows if colon}
    crates: Dict[str, List[str]] = {}
    waiting = ["evacplan"]
    while waiting:
        crate = waiting.pop()
        if crate in below and crate not in crates:
            crates[crate] = below[crate]
            waiting += below[crate]
    return dict(sorted(crates.items()))


def rows_of(top: pathlib.Path) -> str:
    """The rows of crates.txt for the crates that the program is built on, without what else is there."""
    return "".join(f"{crate}: {' '.join(below)}\n" for crate, below in crates_of(top).items())


def files_of(top: pathlib.Path, crate: str) -> Iterator[pathlib.Path]:
    """The files that a crate is made from, in order."""
    for part in PARTS:
        for folder, folders, names in os.walk(top / "crates" / crate / part, followlinks=True):
            folders.sort()
            yield from (pathlib.Path(folder, name) for name in sorted(names))


def digests_of(top: pathlib.Path) -> str:
    """A line for each file that the program is made from: its SHA-256 and its path. Of crates.txt the rows of its crates count."""
    rows = hashlib.sha256(rows_of(top).encode()).hexdigest()
    return f"{rows}  crates.txt\n" + "".join(digests_of_files(top, files_of(top, crate)) for crate in crates_of(top))


def digests_of_files(top: pathlib.Path, files: Iterable[pathlib.Path]) -> str:
    return "".join(f"{hashlib.sha256(bytes_of(file)).hexdigest()}  {file.relative_to(top)}\n" for file in files)


def index_of(top: pathlib.Path) -> bytes:
    """What `find` says of the sources and programs: path, bytes, times and number. Empty if there is no such `find`. The script evacplan asks the same."""
    beside = [f"{place}{end}" for place in (PROVED_PLACE, UNPROVED_PLACE) for end in ("", ".json", ".sources")]
    parts = sorted(str(it.relative_to(top)) for part in PARTS for it in top.glob(f"crates/*/{part}"))
    words = ["find", "-L", "README.md", "crates.txt", *beside, *parts, "-printf", r"%p %s %T@ %C@ %i\n"]
    try:
        lines = subprocess.run(words, cwd=top, stdin=subprocess.DEVNULL, stdout=subprocess.PIPE, stderr=subprocess.DEVNULL).stdout
    except OSError:
        return b""
    return b"".join(sorted(lines.splitlines(True)))


def keep_index(program: pathlib.Path, listed: bytes) -> None:
    """Keeps an index, if it can be written and no source is so young that one more change could bear the same time."""
    if listed and not changed_after(listed, time.time() - 1):
        with contextlib.suppress(OSError):
            program.with_suffix(".index").write_bytes(listed)


def changed_after(listed: bytes, moment: float) -> str:
    """A source in an index whose name, place or content changed after a moment (seconds since 1970); empty if none did."""
    sources = (line.rsplit(None, 4) for line in listed.splitlines() if b"/out/" not in line)
    return next((os.fsdecode(parts[0]) for parts in sources if len(parts) < 5 or float(parts[3]) > moment), "")


def bytes_of(file: pathlib.Path) -> bytes:
    """The bytes of a file; none if it can't be read."""
    try:
        return file.read_bytes()
    except OSError:
        return b""
