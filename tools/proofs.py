"""The proofs of the crates that the program is built on: several side by side, each kept by the sum of what it was made from."""
from __future__ import annotations

import contextlib
import fcntl
import hashlib
import os
import pathlib
import subprocess
import time
from dataclasses import dataclass, field
from typing import List, Optional

import sources
from kit import TOP, Kit, NotBuilt, end, say, show, start

PROGRAM = TOP / sources.PROVED_PLACE
LIBRARIES, WORK = PROGRAM.parent / "rlib", TOP / "out/build"
SILENCE = 50  # the most seconds without a line


@dataclass
class Crate:
    """A crate: all that it is built on, what of that is the program's own, the sum of what it is made from, and how far its proof is."""

    name: str
    below: List[str]
    own: List[Crate] = field(default_factory=list)
    row: int = 0  # the longest row of crates from it up to the program
    sum: str = ""
    is_proved: bool = False
    has_waited: bool = False
    check: Optional[subprocess.Popen[bytes]] = None
    folder: int = -1  # held open during a check, as rt holds it

    @property
    def made(self) -> pathlib.Path:
        return LIBRARIES / f"{self.name}.{'o' if self.name == 'evacplan' else 'rlib'}"

    @property
    def kept_sum(self) -> pathlib.Path:
        return LIBRARIES / f"{self.name}.sum"

    @property
    def is_ready(self) -> bool:
        return all(it.is_proved for it in self.own)

    @property
    def is_kept(self) -> bool:
        return self.is_ready and self.made.exists() and sources.bytes_of(self.kept_sum) == self.sum.encode()

    def raise_row(self, row: int) -> None:
        if row > self.row:
            self.row = row
            for it in self.own:
                it.raise_row(row + 1)


def crates_in(top: pathlib.Path, kit: Kit) -> List[Crate]:
    """The crates of a tree with their sums, each after those that it is built on; those with the longest row above them come first."""
    crates = {name: Crate(name, below) for name, below in sources.crates_of(top).items()}
    for crate in crates.values():
        crate.own = [crates[it] for it in crate.below if it in crates]
    crates["evacplan"].raise_row(1)
    ordered = sorted(crates.values(), key=lambda it: (-it.row, it.name))
    for crate in ordered:
        digests = sources.digests_of_files(top, sources.files_of(top, crate.name))
        crate.sum = hashlib.sha256(
            f"{kit.name}: {crate.below} {[it.sum for it in crate.own]}\n{digests}".encode("utf-8", "surrogateescape")
        ).hexdigest()
    return ordered


class Proofs:
    """The proofs of the crates in a copy of the sources."""

    def __init__(self, kit: Kit, crates: List[Crate]):
        self.kit, self.crates = kit, crates

    @property
    def count(self) -> str:
        return f"{sum(it.is_proved for it in self.crates)} of {len(self.crates)}"

    def keep(self) -> None:
        """Passes over the crates that need no proof, since they are kept, and all that they are built on."""
        for crate in self.crates:
            crate.is_proved = crate.is_kept

    def prove(self, at_once: int) -> None:
        """Proves the crates that aren't kept, so many side by side. After a failure what runs is finished, and nothing is begun. Raises NotBuilt."""
        failed, spoke = False, time.monotonic()
        while True:
            ended = [it for it in self.crates if it.check and it.check.poll() is not None]
            failed = not all([self.finish(it) for it in ended]) or failed
            waits = not failed and self.begin_ready(at_once)
            running = [it.name for it in self.crates if it.check]
            if not running and not waits:
                break
            spoke = time.monotonic() if ended else spoke
            if running and time.monotonic() - spoke >= SILENCE:
                say(f"{self.count} are done, and rattle is at work on {' '.join(running)}")
                spoke = time.monotonic()
            time.sleep(0.2)
        if failed:
            raise NotBuilt("the program was not built")

    def begin_ready(self, at_once: int) -> bool:
        """Begins with as many crates as may go on side by side. Whether one of them waits for its folder."""
        waits = False
        for crate in self.crates:
            has_turn = crate.is_ready and not crate.is_proved and not crate.check and sum(it.check is not None for it in self.crates) < at_once
            if has_turn and self.takes_folder(crate):
                self.begin(crate)
            elif has_turn:
                waits = True
        return waits

    def takes_folder(self, crate: Crate) -> bool:
        """Takes a crate's folder as rt does. If a check by hand is at work there, that is said once."""
        crate.folder = os.open(TOP / "crates" / crate.name, os.O_RDONLY)
        with contextlib.suppress(OSError):
            fcntl.flock(crate.folder, fcntl.LOCK_EX | fcntl.LOCK_NB)
            return True
        os.close(crate.folder)
        if not crate.has_waited:
            say(f"waiting for rt to finish in crates/{crate.name}")
        crate.has_waited = True
        return False

    def begin(self, crate: Crate) -> None:
        """Begins to prove a crate and to make its library, or the object file of the program. It is one job: more took more processor time in all."""
        kit, kept, own = self.kit.folder, TOP / "crates" / crate.name / "out/incremental", {it.name: it for it in crate.own}
        kept.parent.mkdir(parents=True, exist_ok=True)
        crate.kept_sum.unlink(missing_ok=True)
        words = ["--crate-name", crate.name, "--links", f"{crate.name}=", "--jobs", "1", "--incremental", f"{kept}"]
        words += ["--antt-project", f"{kit}/rattle/logic/antt-project.json", "--logic-built", f"{kit}/logic_built"]
        words += ["-L", f"dependency={kit}/rlibs", "-L", f"dependency={LIBRARIES}", "--extern", f"std={kit}/rlibs/std.rlib"]
        for name in crate.below:
            words += ["--extern", f"{name}={own[name].made if name in own else f'{kit}/rlibs/{name}.rlib'}"]
        is_program = crate.name == "evacplan"
        words += ["src/main.rt", "--backend", "llvm", "--toolchain", f"{kit}/toolchain"] if is_program else ["src/lib.rt"]
        crate.check = start([f"{kit}/bin/rattle", "build", *words, "-o", f"{crate.made}"], WORK / "crates" / crate.name, WORK / f"{crate.name}.log")

    def finish(self, crate: Crate) -> bool:
        """Whether a check that has ended proved its crate."""
        status, crate.check = crate.check.returncode if crate.check else 0, None
        os.close(crate.folder)
        if status:
            show(WORK / f"{crate.name}.log")
            say(f"{crate.name} is not proved: rattle ended with {status if status > 0 else 128 - status}")
            return False
        crate.kept_sum.write_text(crate.sum)
        crate.is_proved = True
        say(f"{self.count}: {crate.name}")
        return True

    def end(self) -> None:
        """Ends what still runs."""
        for crate in self.crates:
            if crate.check:
                end(crate.check)
