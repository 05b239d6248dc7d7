"""The kit that proves and compiles, and how its commands are run: apart from the terminal, ended with all that they started, heard if they fail."""
from __future__ import annotations

import contextlib
import os
import pathlib
import re
import shutil
import signal
import subprocess
import sys
import tempfile
import time
from typing import Iterator, List, Optional

TOP = pathlib.Path(__file__).resolve().parent.parent
sys.path.insert(0, str(TOP / "companion/src/evacask/client"))
import sources  # noqa: E402

SAYS_WELL = re.compile(r"(statements |library |logic |crate |so far|only=|[a-z]+ [^ ]+: proved)")


class NotBuilt(Exception):
    """Why nothing was built, in one line."""


def say(text: str) -> None:
    with contextlib.suppress(OSError):
        os.write(2, f"evacplan: {text}\n".encode("utf-8", "surrogateescape"))


class Kit:
    """The kit on the path: its name, which has the number of its logic, and its folder. The number must be README's."""

    def __init__(self) -> None:
        try:
            self.name, page = (
                subprocess.run(["rt", word], stdin=subprocess.DEVNULL, stdout=subprocess.PIPE, text=True).stdout.strip()
                for word in ("version", "doc")
            )
        except OSError:
            raise NotBuilt("the command rt isn't on the path: it comes with the kit that README.md names") from None
        self.folder = pathlib.Path(page).parent
        here, wanted = re.search(r"logic [0-9a-f]{16}", self.name), f"logic {sources.logic_of(TOP)}"
        if not here or here[0] != wanted:
            named = here[0] if here else "no logic number"
            raise NotBuilt(f"this machine's kit has {named}, and the program is proved with {wanted}: README.md names the kit to take")

    def link(self, made: pathlib.Path, program: pathlib.Path, room: pathlib.Path) -> None:
        """Links an object file with the kit's C library, and sees that the program runs."""
        words = ["--target", "x86_64-unknown-linux-gnu", "--toolchain", f"{self.folder}/toolchain", "-o", f"{program}", f"{made}"]
        run(
            [f"{self.folder}/bin/rattle-link", *words, f"{self.folder}/c/libos_c.a", f"{self.folder}/c/liblibc_c.a"],
            room,
            "the program is not linked",
        )
        run([f"{program}", "drill", "--number", "1"], room, "the program doesn't run")


def start(words: List[str], folder: pathlib.Path, said: pathlib.Path) -> "subprocess.Popen[bytes]":
    """Starts a command in a folder, with nothing to read. What it prints goes to the file `said`."""
    with open(said, "wb") as log:
        return subprocess.Popen(words, cwd=folder, stdin=subprocess.DEVNULL, stdout=log, stderr=log, start_new_session=True)


def end(process: "subprocess.Popen[bytes]") -> None:
    """Ends a command and all that it started."""
    for number in (signal.SIGTERM, signal.SIGKILL):
        with contextlib.suppress(ProcessLookupError, subprocess.TimeoutExpired):
            os.killpg(process.pid, number)
            process.wait(5)


def run(words: List[str], room: pathlib.Path, fault: str = "", folder: Optional[pathlib.Path] = None) -> None:
    """Runs a command to its end; what it says goes to `said` in the room. If it fails, shows that and raises NotBuilt with the fault, if one is named."""
    process, began = start(words, folder or room, room / "said"), time.monotonic()
    try:
        while process.poll() is None:
            with contextlib.suppress(subprocess.TimeoutExpired):
                process.wait(1)
            if os.isatty(2) and time.monotonic() - began > 1:
                os.write(2, f"{time.monotonic() - began:4.0f} s\r".encode())
    finally:
        end(process)
    if process.returncode and fault:
        show(room / "said")
        raise NotBuilt(fault)


def show(said: pathlib.Path) -> None:
    """Shows the end of what a command of the kit said, but for what is well."""
    lines = [it for it in sources.bytes_of(said).decode("utf-8", "replace").splitlines() if not SAYS_WELL.match(it)]
    os.write(2, "".join(f"{it}\n" for it in lines[-40:]).encode())


@contextlib.contextmanager
def room_for_files() -> Iterator[pathlib.Path]:
    """A folder for temporary files, for as long as it is needed. NotBuilt says if there is no room, at first or as the cause of another fault."""
    folder = os.environ.get("TMPDIR") or "/tmp"
    try:
        room = pathlib.Path(tempfile.mkdtemp(prefix="evacplan-", dir=folder))
    except OSError as fault:
        raise NotBuilt(f"there is no room for temporary files in {folder}: {fault.strerror}") from None
    try:
        fill(room)
        yield room
    except (NotBuilt, OSError):
        fill(room)
        raise
    finally:
        shutil.rmtree(room, ignore_errors=True)


def fill(room: pathlib.Path) -> None:
    """Sees that there is room for temporary files."""
    try:
        (room / "filled").write_bytes(bytes(10_000))
        (room / "filled").unlink()
    except OSError as fault:
        raise NotBuilt(f"there is no room for temporary files in {room.parent}: {fault.strerror}") from None


def copy_sources(to: pathlib.Path) -> None:
    """Copies what the program is made from, so that it may change meanwhile."""
    (to / "crates.txt").write_text(sources.rows_of(TOP))
    for crate in sources.crates_of(TOP):
        for file in sources.files_of(TOP, crate):
            copied = to / file.relative_to(TOP)
            copied.parent.mkdir(parents=True, exist_ok=True)
            shutil.copyfile(file, copied)


def put(new: pathlib.Path, program: pathlib.Path, kit: Kit, digests: str) -> None:
    """Puts a program in its place, with what it is and what it was made from. The sources' index is kept by the next look."""
    program.parent.mkdir(parents=True, exist_ok=True)
    shutil.copy(new, program.with_suffix(".new"))
    program.with_suffix(".new").replace(program)
    sources.record(TOP, program, kit.name, digests)
