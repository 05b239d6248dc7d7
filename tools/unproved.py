"""Builds the program without a proof, in about a minute, and keeps it: an ordinary program, for as long as ./build hasn't made the proved one.

`rt try` hands its module to the kit's clang and keeps nothing. Here it gets a view of the kit whose clang keeps that module and stops, and the kit's
linker compiles it, on several processors. What `rt try` adds stays in the program: it tests for overflow, bounds and unwraps, and ends the run if one fails.
"""
from __future__ import annotations

import contextlib
import fcntl
import os
import pathlib
import shutil
from typing import Iterator

import sources
from kit import TOP, Kit, NotBuilt, copy_sources, put, room_for_files, run, say, show

PROGRAM = TOP / sources.UNPROVED_PLACE
# Keeps the program's module, which has more than 100 KB: what comes before it is a trial of the toolchain.
KEEPING_CLANG = """#!/bin/sh
for it; do case $it in *.bc) if [ "$(wc -c <"$it")" -gt 100000 ]; then cp "$it" '{module}'; exit 1; fi ;; esac done
exec '{clang}' "$@"
"""
# Stands for the prover, which `rt try` runs beside only to hint at names that a proof would refuse. Without it half of the processor time is saved.
NO_PROVER = "#!/bin/sh\n"
# One round of inlining and simplifying: a third of the time that clang's -O1 takes, and programs that are at most twice as slow on large buildings.
PASSES = (
    "function(sroa,early-cse<memssa>,simplifycfg),"
    "cgscc(inline,function(sroa,early-cse<memssa>,instcombine<no-verify-fixpoint>,simplifycfg)),globaldce"
)
# The linker drops what the program doesn't reach, and compiles four parts side by side: on any number of processors the same four, and the same bytes.
COMPILES = ("-r", f"--lto-newpm-passes={PASSES}", "--lto-CGO1", "--lto-partitions=4", "-mllvm", "-relocation-model=pic")


def unproved() -> pathlib.Path:
    """The program of these sources; if there is none, an unproved one is made. Raises NotBuilt."""
    found = sources.found(TOP)
    if found.is_current:
        return found.program
    kit = Kit()
    with turn(), room_for_files() as room:
        for attempt in ("first", "second"):  # (the second one if a source changed meanwhile)
            found = sources.found(TOP)
            if found.is_current:
                return found.program
            say(f"{found.why or 'no program is built yet'}; making one without a proof takes about a minute, once")
            build(kit, room / attempt)
    found = sources.found(TOP)
    if not found.is_current:
        raise NotBuilt(f"the program can't be taken: {found.why or f'{PROGRAM} can not be run'}")
    return found.program


def build(kit: Kit, room: pathlib.Path) -> None:
    """Builds the unproved program of a copy of the sources, and puts it in its place."""
    kit.link(object_made(kit, room), room / "evacplan", room)
    put(room / "evacplan", PROGRAM, kit, sources.digests_of(room / "copy"))


def object_made(kit: Kit, room: pathlib.Path) -> pathlib.Path:
    """The object file of the unproved program, made of a copy of the sources. Raises NotBuilt."""
    (room / "copy").mkdir(parents=True)
    copy_sources(room / "copy")
    words = [f"{kit.folder}/toolchain/bin/ld.lld", *COMPILES, f"{module_of(kit, room)}", "-o", f"{room}/evacplan.o"]
    run(words, room, "the program is not compiled")
    return room / "evacplan.o"


def module_of(kit: Kit, room: pathlib.Path) -> pathlib.Path:
    """The module that `rt try` makes of the program."""
    module, view = room / "module.bc", view_of(kit.folder, room)
    run([f"{view}/bin/rt", "try", "--", "drill", "--number", "1"], room, folder=room / "copy/crates/evacplan")  # (its clang stops it)
    if not module.exists():
        show(room / "said")
        raise NotBuilt("the program could not be built")
    return module


def view_of(kit: pathlib.Path, room: pathlib.Path) -> pathlib.Path:
    """A folder like the kit's, of links to it, whose clang keeps the program's module and whose prover does nothing. (rt finds its kit by its own place.)"""
    view, toolchain = room / "kit", room / "toolchain"
    made_here = (kit / "bin", kit / "bin/rattle", kit / "toolchain", kit / "toolchain/bin", kit / "toolchain/bin/clang")
    for folder, seen in ((kit, view), (kit / "bin", view / "bin"), (kit / "toolchain", toolchain), (kit / "toolchain/bin", toolchain / "bin")):
        seen.mkdir()
        for it in folder.iterdir():
            if it.name in ("rt", "rtlib.py"):
                shutil.copy(it, seen)
            elif it not in made_here:
                (seen / it.name).symlink_to(it)
    (view / "toolchain").symlink_to(toolchain)
    write_script(view / "bin/rattle", NO_PROVER)
    write_script(toolchain / "bin/clang", KEEPING_CLANG.format(module=room / "module.bc", clang=kit / "toolchain/bin/clang"))
    return view


def write_script(file: pathlib.Path, text: str) -> None:
    file.write_text(text)
    file.chmod(0o755)


@contextlib.contextmanager
def turn() -> Iterator[None]:
    """One such build at a time in a copy: who comes second waits, and then finds the program."""
    try:
        PROGRAM.parent.mkdir(parents=True, exist_ok=True)
        folder = os.open(PROGRAM.parent, os.O_RDONLY)
    except OSError as fault:
        raise NotBuilt(f"nothing can be written to {PROGRAM.parent}, so no program can be kept: {fault.strerror}") from None
    try:
        fcntl.flock(folder, fcntl.LOCK_EX | fcntl.LOCK_NB)
    except OSError:
        say("another first run is at work in this copy; waiting for its program")
        fcntl.flock(folder, fcntl.LOCK_EX)
    try:
        yield
    finally:
        os.close(folder)
