#!/usr/bin/env python3
"""Prints the bodies that are the dearest to prove, of the crates that are built, the dearest first.

    bench/dearest.py [--count N] [--kept FOLDER | CRATE ..]

The time of a proof follows the code that the compiler makes of a body, and not its contract or its lemmas. So each body is printed with the length
of that code in characters, and with the drops in it: each `?` and each early return drops what is owned there, field by field. A body that is long
for its drops gets shorter where it is taken apart, or where less is owned at a `?`. The code is that of the last `./build` or `rt lib`.

With --kept the seconds of each function are printed instead, as one check took them that kept its modules in an empty folder (`rt check` keeps them
in crates/*/out/incremental): the time from one module's file to the next. That shows tests too. It is no part of any test.
"""
import argparse
import collections
import json
import pathlib
import re

TOP = pathlib.Path(__file__).resolve().parent.parent
DROP = re.compile(r'::drop"')
# What is made of a function has a module each, whose name begins with the function's path.
PART = re.compile(r"[.-](?:Answers|Calls|Cases|Code|Given|Goals|Invariants|Kinds|Layout|Lts|Met|Named|Proof|Reads|Statement|Tie)\b.*")


def bodies(crate):
    """The length, the drops and the name of each body of a crate, as its newest library has them."""
    built = sorted(TOP.glob(f"crates/*/out/rlib/{crate}.rlib/toolchain/mir.json"), key=lambda path: path.stat().st_mtime)
    for path in built[-1:]:
        for name, body in json.loads(path.read_text()):
            code = json.dumps(body, separators=(",", ":"))
            yield len(code), len(DROP.findall(code)), name


def seconds(folder):
    """The seconds of each function whose modules a check kept in a folder."""
    kept = sorted((path.stat().st_mtime, path.name) for path in folder.rglob("*.oantt") if ".decls" not in path.name)
    found = collections.Counter()
    for (before, _), (after, name) in zip(kept, kept[1:]):
        found[PART.sub("", name.removesuffix(".oantt"))] += after - before
    return found.most_common()


def main():
    options = argparse.ArgumentParser(description="Prints the bodies that are the dearest to prove.")
    options.add_argument("--count", type=int, default=30, help="how many are printed")
    options.add_argument("--kept", type=pathlib.Path, metavar="FOLDER", help="where one check from nothing kept its modules")
    options.add_argument("crates", metavar="CRATE", nargs="*", help="of these crates alone")
    options = options.parse_args()
    if options.kept:
        for name, took in seconds(options.kept)[: options.count]:
            print(f"{took:7.1f} seconds  {name}")
        return
    crates = options.crates or [path.name for path in (TOP / "crates").iterdir()]
    found = sorted((body for crate in crates for body in bodies(crate)), reverse=True)
    if not found:
        print("no library is built: ./build makes those of the program, and rt lib in a crate's folder makes it")
    for length, drops, name in found[: options.count]:
        print(f"{length:7} characters {drops:3} drops  {name}")


if __name__ == "__main__":
    main()
