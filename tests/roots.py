#!/usr/bin/env python3
"""Makes a release of the proved program twice, and tries its packages in root folders: an empty one, one of busybox, and Debian 11 and 12.

    python3 tests/roots.py [--as-can-be-made]

In each root the three packages are unpacked, and their programs must plan the office byte for byte as the program of these sources does. It takes root's
rights, a static busybox, and debootstrap with a mirror of Debian. The status is 1 if a program doesn't, or if a root can't be made. With --as-can-be-made it
is enough if one root could be made: what couldn't is said. Nor does it take the proved program's object file then, which `rt ci` doesn't always leave: the
packages that are tried then have the unproved program.
"""
from __future__ import annotations

import concurrent.futures
import functools
import os
import pathlib
import shutil
import subprocess
import sys
import tempfile
import time
from typing import Callable, Dict, List, Optional

TOP = pathlib.Path(__file__).resolve().parent.parent
sys.path[:0] = [str(TOP / "tools"), str(TOP / "companion/src/evacask/client")]
import dist  # noqa: E402
import unproved  # noqa: E402
from kit import Kit, NotBuilt, room_for_files  # noqa: E402
from packing import digest  # noqa: E402

OFFICE = (TOP / "examples/office.evac").read_bytes()
MIRROR, PATIENCE = "http://deb.debian.org/debian", 1800
DEBIANS = {"Debian 11": "bullseye", "Debian 12": "bookworm"}
# What unpacks each package in the root of busybox, below /in, and where the program is then.
UNPACKED = {
    ".tar.gz": ("mkdir -p /tar && tar xzf /in/*.tar.gz -C /tar --strip-components 1", "/tar/evacplan"),
    ".deb": ("mkdir -p /deb && cd /deb && ar x /in/*.deb && tar xzf data.tar.gz", "/deb/usr/bin/evacplan"),
    ".whl": ("mkdir -p /whl && cd /whl && unzip -q /in/*.whl && chmod +x evacask/bin/evacplan", "/whl/evacask/bin/evacplan"),
}


def say(text: str) -> None:
    print(f"roots: {text}", flush=True)


def ran(*words: object, given: bytes = b"", seconds: int = 60, **env: str) -> "subprocess.CompletedProcess[bytes]":
    return subprocess.run([str(it) for it in words], input=given, capture_output=True, timeout=seconds, env={**os.environ, **env})


def program_of(kit: Kit, is_any_enough: bool, room: pathlib.Path) -> bytes:
    """The proved program of these sources, linked statically; or else, if any is enough, the unproved one. Raises NotBuilt."""
    try:
        return dist.proved_program(kit, room)
    except NotBuilt as fault:
        if not is_any_enough:
            raise
        say(f"the release that is tried has the unproved program, since {fault}")
        return dist.static_program(kit, unproved.object_made(kit, room), room)


def release(to: pathlib.Path, is_any_enough: bool) -> Dict[str, pathlib.Path]:
    """Makes the release twice, in two time zones, and gives its packages by the ends of their names. Raises NotBuilt."""
    kit = Kit()
    for zone in ("UTC", "Pacific/Auckland"):
        os.environ["TZ"] = zone
        time.tzset()
        with room_for_files() as room:
            dist.write(to / zone, "0" * 40, 1_700_000_000, kit, program_of(kit, is_any_enough, room))
    sums = [(to / zone / "SHA256SUMS").read_text() for zone in ("UTC", "Pacific/Auckland")]
    if sums[0] != sums[1]:
        raise NotBuilt(f"two releases of the same sources differ:\n{sums[0]}{sums[1]}")
    return {end: next((to / "UTC").glob(f"*{end}")) for end in UNPACKED}


def empty_root(root: pathlib.Path, packages: Dict[str, pathlib.Path]) -> List[str]:
    """The program alone."""
    ran("tar", "xzf", packages[".tar.gz"], "-C", root, "--strip-components", "1")
    (root.parent / "alone").mkdir()
    shutil.move(root / "evacplan", root.parent / "alone/evacplan")
    return faults(root.parent / "alone", "tar.gz", "/evacplan")


def busybox_root(root: pathlib.Path, packages: Dict[str, pathlib.Path]) -> Optional[List[str]]:
    """Busybox and no C library, each package unpacked by busybox."""
    busybox = shutil.which("busybox")
    if not busybox or b"statically linked" not in ran("ldd", busybox).stderr + ran("ldd", busybox).stdout and ran("ldd", busybox).returncode == 0:
        return None
    (root / "bin").mkdir()
    (root / "in").mkdir()
    shutil.copy(busybox, root / "bin/busybox")
    found = []
    for end, (unpack, program) in UNPACKED.items():
        shutil.copy(packages[end], root / "in")
        done = ran("chroot", root, "/bin/busybox", "sh", "-c", f"set -e; export PATH=/bin; /bin/busybox --install /bin; {unpack}")
        found += [f"{end}: {done.stderr.decode()}"] if done.returncode else faults(root, end, program)
    return found


def debian_root(root: pathlib.Path, packages: Dict[str, pathlib.Path], suite: str) -> Optional[List[str]]:
    """Debian with Python, the package installed by dpkg, the wheel by this machine's pip."""
    if not shutil.which("debootstrap"):
        return None
    # (in name spaces of its own, so that all its processes and mounts go with it)
    apart = ("unshare", "--mount", "--pid", "--fork", "--kill-child", "--")
    try:
        if ran(*apart, "debootstrap", "--variant=minbase", "--include=python3", suite, root, MIRROR, seconds=PATIENCE).returncode:
            return None
    except subprocess.TimeoutExpired:
        return None
    for package in packages.values():
        shutil.copy(package, root / "tmp")
    found = [f"dpkg: {it.stderr.decode()}" for it in [ran("chroot", root, "sh", "-c", "dpkg -i /tmp/*.deb")] if it.returncode]
    ran("chroot", root, "sh", "-c", "mkdir /opt/evacplan && tar xzf /tmp/*.tar.gz -C /opt/evacplan --strip-components 1")
    pip = ran(sys.executable, "-m", "pip", "install", "-q", "--no-index", "--no-deps", "--target", root / "opt/wheel", packages[".whl"], seconds=120)
    found += [f"pip: {pip.stderr.decode()}"] if pip.returncode else []
    found += (
        faults(root, "deb", "/usr/bin/evacplan")
        + faults(root, "tar.gz", "/opt/evacplan/evacplan")
        + faults(root, "wheel", "/opt/wheel/evacask/bin/evacplan")
    )
    packed = digest((root / "usr/bin/evacplan").read_bytes())[:16].encode()
    for name, words in (
        ("deb", ["evacask"]),
        ("tar.gz", ["/opt/evacplan/evacask"]),
        ("wheel", ["env", "PYTHONPATH=/opt/wheel", "python3", "-m", "evacask_start"]),
    ):
        asked = ran("chroot", root, *words, "--version")
        found += [f"evacask of the {name}: {asked.stderr.decode()}"] if asked.returncode or packed not in asked.stdout else []
    return found


def faults(root: pathlib.Path, package: str, program: str) -> List[str]:
    """What is wrong with the program of a package in a root."""
    wanted = ran(unproved.unproved(), "solve", given=OFFICE).stdout
    done = ran("chroot", root, program, "solve", given=OFFICE)
    if done.returncode or done.stdout != wanted:
        return [f"the program of the {package} ends with {done.returncode} and another plan: {done.stderr.decode()[:300]}"]
    return []


def said_of(name: str, wrong: Optional[List[str]]) -> str:
    """What came of a root: None if it couldn't be made, else what is wrong."""
    if wrong is None:
        return f"{name}: could not be made here"
    return f"{name}: {'; '.join(wrong) or ('the program answers' if 'empty' in name else 'the three packages answer')}"


def status_of(found: Dict[str, Optional[List[str]]], is_any_enough: bool) -> int:
    """1 if a root has faults, if none could be made, or if one couldn't and all are wanted."""
    made = [it for it in found.values() if it is not None]
    return 1 if any(made) or not made or not is_any_enough and len(made) < len(found) else 0


def main(words: List[str]) -> int:
    if words not in ([], ["--as-can-be-made"]):
        say("it takes --as-can-be-made, or nothing")
        return 2
    with tempfile.TemporaryDirectory() as room:
        try:
            packages = release(pathlib.Path(room, "release"), bool(words))
        except NotBuilt as fault:
            say(f"no release was tried: {fault}")
            return 1
        say("a release was made twice, with the same sums")
        if os.getuid():
            say("no root was tried: it takes the rights of root")
            return 1
        tries: Dict[str, Callable[[pathlib.Path, Dict[str, pathlib.Path]], Optional[List[str]]]] = {
            "an empty root": empty_root,
            "a root of busybox": busybox_root,
        }
        for name, suite in DEBIANS.items():
            tries[name] = functools.partial(debian_root, suite=suite)
        found: Dict[str, Optional[List[str]]] = {}
        with concurrent.futures.ThreadPoolExecutor(len(tries)) as pool:
            roots = {name: pathlib.Path(room, str(number), "root") for number, name in enumerate(tries)}
            for root in roots.values():
                root.mkdir(parents=True)
            running = {name: pool.submit(tries[name], roots[name], packages) for name in tries}
            found = {name: it.result() for name, it in running.items()}
        for name, wrong in found.items():
            say(said_of(name, wrong))
        return status_of(found, bool(words))


if __name__ == "__main__":
    sys.exit(main(sys.argv[1:]))
