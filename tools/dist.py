#!/usr/bin/env python3
"""Makes a release of the proved program and its companion: the same bytes each time, in whatever folder and time zone.

    tools/dist.py [FOLDER]        (make dist: into out/dist)

It writes a tar.gz, a Debian package and a wheel, each with the program and evacask, the page if web/build made it, and MANIFEST.json and SHA256SUMS. The program is linked statically, so
it needs nothing of the system that it runs on. A release is made of a commit: nothing else may be in the tree, and the program must be that of its sources
and bear the mark of a proof. Making it takes gcc, strip and git.
"""
from __future__ import annotations

import json
import os
import pathlib
import re
import subprocess
import sys
from typing import Dict, List, Optional

from kit import TOP, Kit, NotBuilt, room_for_files, run, say

sys.path.insert(0, str(TOP / "web"))
import pack  # noqa: E402
from packing import File, Files, deb_of, digest, tar_of, wheel_of
import sources

NOT_BUILT, WRONG_WORDS = 70, 64
OBJECTS = ("crates/evacplan/out/rlib/evacplan.o", "crates/evacplan/out/evacplan.o")  # of ./build, and of rt ci
PACKAGE = TOP / "companion/src"
STARTER = """#!{python}
import os
import sys

sys.path.insert(0, os.path.join(os.path.dirname(os.path.realpath(__file__)), "{lib}"))
from evacask_start import main

sys.exit(main())
"""


def version() -> str:
    found = re.search(r'VERSION = "([0-9.]+)"', (PACKAGE / "evacask/version.py").read_text("utf-8"))
    if not found:
        raise NotBuilt("companion/src/evacask/version.py names no version")
    return found[1]


def git(*words: str) -> str:
    """What git says of the repository. Raises NotBuilt."""
    ran = subprocess.run(["git", "-C", str(TOP), *words], stdin=subprocess.DEVNULL, capture_output=True, text=True)
    if ran.returncode:
        raise NotBuilt(f"git {words[0]} fails, and a release is made of a commit: {ran.stderr.strip()}")
    return ran.stdout.strip()


def commit() -> str:
    """The commit of which the release is made. Raises NotBuilt if there is more in the tree."""
    changed = git("status", "--porcelain")
    if changed:
        raise NotBuilt(f"a release is made of a commit, and {changed.split()[1]} isn't in it")
    return git("rev-parse", "HEAD")


def proved_program(kit: Kit, room: pathlib.Path) -> bytes:
    """The proved program of these sources, linked statically from the object file that it was linked from. Raises NotBuilt."""
    found = sources.found(TOP)
    if found.state is not sources.State.PROVED:
        raise NotBuilt(f"the program isn't proved, or not of these sources{f' ({found.why})' if found.why else ''}: ./build proves it")
    program = static_program(kit, object_of(kit, found.program, room), room)
    if sources.mark_of(program) != sources.logic_of(TOP):
        raise NotBuilt("the program that gcc linked has no mark of a proof")
    return program


def static_program(kit: Kit, made: pathlib.Path, room: pathlib.Path) -> bytes:
    """The program of an object file, linked statically. Raises NotBuilt."""
    libraries = [f"{kit.folder}/c/libos_c.a", f"{kit.folder}/c/liblibc_c.a"]
    linked = room / "static"
    run(
        ["gcc", "-static", "-Wl,--gc-sections", "-Wl,--build-id=none", "-o", f"{linked}", f"{made}", *libraries],
        room,
        "gcc doesn't link the program statically",
    )
    run(["strip", "-s", f"{linked}"], room, "strip fails")
    run([f"{linked}", "drill", "--number", "1"], room, "the program that gcc linked doesn't run")
    return linked.read_bytes()


def object_of(kit: Kit, program: pathlib.Path, room: pathlib.Path) -> pathlib.Path:
    """The object file that a program was linked from: linked again, it is that program. Raises NotBuilt."""
    for made in (TOP / name for name in OBJECTS):
        if made.exists():
            kit.link(made, room / "again", room)
            if (room / "again").read_bytes() == program.read_bytes():
                return made
    raise NotBuilt("the object file of the program isn't there any more: ./build makes it anew")


def gate_passed(made_of: str) -> Optional[str]:
    """The commit on which the gate passed here, if that is the commit of the release."""
    passed = sources.bytes_of(TOP / "out/gate").decode("utf-8", "replace").strip()
    return passed if passed == made_of else None


def page_files(man: str, bash: str, zsh: str, fish: str) -> Files:
    """The man pages and completions, in these folders."""
    pages = {f"{man}/man{file.suffix[1:]}/{file.name}": File(file.read_bytes()) for file in sorted((TOP / "docs/man").glob("*.[15]"))}
    for shell, to, name in (("evacask.bash", bash, "evacask"), ("_evacask", zsh, "_evacask"), ("evacask.fish", fish, "evacask.fish")):
        pages[f"{to}/{name}"] = File((TOP / "docs/completion" / shell).read_bytes())
    return pages


def document_files(to: str) -> Files:
    """The documents and examples, in a folder."""
    names = ["README.md", "CHANGELOG.md", *git("ls-files", "docs/*.md", "docs/users/*.png", "examples").splitlines()]
    return {f"{to}/{name}": File((TOP / name).read_bytes()) for name in names}


def packages(program: bytes, said: bytes, at: str, time: int) -> Dict[str, bytes]:
    """The three packages by name, of a program and a manifest, in a version, with a time for each file."""
    package = {name: File((PACKAGE / name).read_bytes()) for name in git("-C", str(PACKAGE), "ls-files").splitlines()}
    package["evacask/MANIFEST.json"] = File(said)
    runs, manifest = File(program, 0o755), File(said)
    top = f"evacplan-{at}-linux-x86_64"
    tree: Files = {"evacplan": runs, "lib/evacask/bin/evacplan": File(link="../../../evacplan"), "MANIFEST.json": manifest}
    tree["evacask"] = File(STARTER.format(python="/usr/bin/env python3", lib="lib").encode(), 0o755)
    tree.update({f"lib/{name}": it for name, it in package.items()})
    tree.update(page_files("man", "completion/bash", "completion/zsh", "completion/fish"))
    tree.update(document_files("."))
    lib, share = "usr/lib/python3/dist-packages", "usr/share"
    deb: Files = {"usr/bin/evacplan": runs, f"{lib}/evacask/bin/evacplan": File(link="../../../../../bin/evacplan")}
    deb["usr/bin/evacask"] = File(STARTER.format(python="/usr/bin/python3", lib="../lib/python3/dist-packages").encode(), 0o755)
    deb.update({f"{lib}/{name}": it for name, it in package.items()})
    deb.update(
        page_files(f"{share}/man", f"{share}/bash-completion/completions", f"{share}/zsh/vendor-completions", f"{share}/fish/vendor_completions.d")
    )
    deb.update({**document_files(f"{share}/doc/evacplan"), f"{share}/doc/evacplan/MANIFEST.json": manifest})
    wheel: Files = {**package, "evacask/bin/evacplan": runs}
    wheel.update(
        page_files(
            f"evacask-{at}.data/data/share/man",
            *(f"evacask-{at}.data/data/share/{it}" for it in ("bash-completion/completions", "zsh/site-functions", "fish/vendor_completions.d")),
        )
    )
    made = {
        f"{top}.tar.gz": tar_of({f"{top}/{os.path.normpath(name)}": it for name, it in tree.items()}, time),
        f"evacplan_{at}_amd64.deb": deb_of(deb, at, time),
    }
    name, data = wheel_of(wheel, at, time)
    return {**made, name: data}


def page_of(at: str, kit: Kit) -> Dict[str, bytes]:
    """The page of the proved program by its name in a version, if what web/build left is that of these sources; else none, which is said."""
    page, module = (sources.bytes_of(TOP / "web/out" / name) for name in ("evacplan.html", "evacplan.wasm"))
    if page and page == pack.page_of(module, pack.CLAIM, pack.origin(sources.digests_of(TOP), kit.name, module)).encode():
        return {f"evacplan-{at}.html": page}
    say("the release is without the page, which isn't there or isn't of these sources: web/build makes it")
    return {}


def release(to: pathlib.Path, made_of: str, time: int) -> None:
    """Writes the release of a commit, with a time for each file, into a folder. Raises NotBuilt and OSError."""
    kit = Kit()
    with room_for_files() as room:
        write(to, made_of, time, kit, proved_program(kit, room))


def write(to: pathlib.Path, made_of: str, time: int, kit: Kit, program: bytes) -> None:
    """Writes the packages of a program, their manifest and their sums. Raises OSError."""
    at, logic = version(), sources.mark_of(program)
    linker = subprocess.run(["gcc", "--version"], stdin=subprocess.DEVNULL, capture_output=True, text=True).stdout.partition("\n")[0]
    manifest = {
        "version": at,
        "commit": made_of,
        "program": {"sha256": digest(program), "proved": logic is not None, "logic": logic, "kit": kit.name, "linked_by": linker},
        "gate_passed_on": gate_passed(made_of),
    }
    said = json.dumps(manifest, indent=1).encode() + b"\n"
    made = {**packages(program, said, at, time), **page_of(at, kit), "MANIFEST.json": said}
    to.mkdir(parents=True, exist_ok=True)
    for name, data in made.items():
        (to / name).write_bytes(data)
    (to / "SHA256SUMS").write_text("".join(f"{digest(data)}  {name}\n" for name, data in sorted(made.items())))


def main(words: List[str]) -> int:
    if len(words) > 1 or words[:1] and words[0].startswith("-"):
        say("tools/dist.py takes the folder to write to, or nothing")
        return WRONG_WORDS
    to = pathlib.Path(words[0]) if words else TOP / "out/dist"
    try:
        made_of = commit()
        release(to, made_of, int(git("log", "-1", "--format=%ct")))
        if gate_passed(made_of) is None:
            say("no gate passed here on this commit, and the manifest says so: .ci/run is the gate")
        say(f"version {version()} is in {to}")
    except NotBuilt as fault:
        say(f"no release is made: {fault}")
        return NOT_BUILT
    except OSError as fault:
        say(f"no release is made: {fault.filename or 'a file'} can't be read or written: {fault.strerror}")
        return NOT_BUILT
    return 0


if __name__ == "__main__":
    sys.exit(main(sys.argv[1:]))
