#!/usr/bin/env python3
"""Counts what the trials of a study take: each exit that `exits` does without, and each rate that `least` tries.

    bench/studies.py [--program PATH] [--most N] [--only NAME,..] [FILE.evac ..]

A trial's instructions, counted with valgrind, are divided by those of a whole run of `solve`: of the building without that exit, or of the building as it
stands or with that rate, whichever is dearer. So a number doesn't depend on how busy a machine is. `least` is asked of two arcs, one into an exit and
one inside, at the moment by which everybody is out and a tenth later. Of a building with many exits, `--most` of them are divided so. It is no
part of any test: it prints two tables in Markdown.
"""
import argparse
import pathlib
import re
import statistics
import subprocess
import tempfile

import buildings
import edits
import measure

RATE_LIMIT = 10_000
DOUBLINGS = 2


def trials_of(program, text, line):
    """Returns how many millions of instructions each trial of a study line takes, up to the next call of the session or the end of the run."""
    with tempfile.TemporaryDirectory() as folder:
        calls = [f"--dump-before=*Session::{name}*" for name in ("trial", "edit::")]
        counter = [*edits.COUNTER, *calls, f"--callgrind-out-file={folder}/counts"]
        given = "\n".join([text.rstrip("\n"), line, "quit", ""])
        subprocess.run([*counter, program, "study"], input=given.encode(), capture_output=True, check=True)
        numbered = sorted(pathlib.Path(folder).glob("counts.*"), key=lambda it: int(it.suffix[1:]))
        # the first dump has what comes before the first trial, and what comes after the last call stands in the file with no number
        dumps = [*numbered[1:], pathlib.Path(folder) / "counts"] if numbered else []
        return [int(re.search(r"^(?:totals|summary): (\d+)", it.read_text(), re.M)[1]) / 1e6 for it in dumps]


def solved(program, text):
    """Returns the moment by which everybody is out of a building, or none."""
    wrote = measure.run([program, "solve"], text.encode())[1]
    found = re.search(rb"^cleared (\d+)", wrote, re.M)
    return int(found[1]) if found else None


def with_rate(text, arc, rate):
    """Returns a building in which an arc has another rate."""
    return edits.with_fields(text, "arc", arc, lambda travel, _: (travel, rate))


def rates_of(program, text, arc, rate, by):
    """Returns the rates that a search for the least one tries, as exit_study does."""
    low, high = (0, rate) if solved(program, text) <= by else (rate + 1, RATE_LIMIT + 1)
    tried, doublings = [], DOUBLINGS
    while low < high:
        middle = (low + high) // 2
        tried.append(min(middle, 2 * low) if high > RATE_LIMIT and doublings > 0 else middle)
        cleared = solved(program, with_rate(text, arc, tried[-1]))
        if cleared is not None and cleared <= by:
            high = tried[-1]
        else:
            low = tried[-1] + 1
        doublings = max(0, doublings - 1)
    return tried


class Plans:
    """The instructions of fresh plans, each counted once."""

    def __init__(self, program):
        self.program, self.known = program, {}

    def of(self, text):
        if text not in self.known:
            self.known[text] = measure.instructions_of([self.program, "solve"], text.encode())
        return self.known[text]


def exits_of(plans, text, most):
    """Returns for some exits of a building the share of a fresh plan that the trial of each takes, and how many exits there are."""
    doors = buildings.exits_of(text)
    costs = trials_of(plans.program, text, "exits")
    if len(costs) != len(doors):
        raise SystemExit(f"{len(costs)} trials of {len(doors)} exits")
    chosen = range(0, len(doors), -(-len(doors) // most))
    return [costs[at] / plans.of(buildings.without(text, doors[at])) for at in chosen], len(doors)


def rate_ratios(plans, text):
    """Returns the share of a fresh plan that each rate takes that `least` tries."""
    program, cleared = plans.program, solved(plans.program, text)
    arcs = [(fields[:2], int(fields[3])) for fields in buildings.statements(text, "arc") if int(fields[3]) > 0]
    doors = set(buildings.exits_of(text))
    into, inside = ([it for it in arcs if (it[0][1] in doors) == out] for out in (True, False))
    ratios = []
    for arc, rate in (into[0], inside[len(inside) // 2]) if cleared is not None else ():
        for by in (cleared, cleared + cleared // 10):
            tried = rates_of(program, text, arc, rate, by)
            costs = trials_of(program, text, f"least {' '.join(arc)} {by}")[: len(tried)]
            fresh = [max(plans.of(text), plans.of(with_rate(text, arc, it))) for it in tried]
            ratios += [cost / plan for cost, plan in zip(costs, fresh)]
    return ratios


def main():
    parser = argparse.ArgumentParser(description=__doc__.split("\n")[0])
    parser.add_argument("--program", default=str(measure.TOP / "crates/evacplan/out/evacplan"))
    parser.add_argument("--most", type=int, default=12)
    parser.add_argument("--only")
    parser.add_argument("files", nargs="*", type=pathlib.Path)
    given = parser.parse_args()
    names = given.only.split(",") if given.only else list(buildings.ALL)
    texts = {name: buildings.ALL[name]() for name in names if name in buildings.ALL}
    texts |= {file.stem: file.read_text() for file in given.files}
    print("| building | exits | of these divided | median | most | rates tried | median | most |\n|---|" + "--:|" * 7)
    for name, text in texts.items():
        plans = Plans(given.program)
        doors, count = exits_of(plans, text, given.most)
        rates = rate_ratios(plans, text)
        cells = [count, len(doors), f"{statistics.median(doors):.2f}", f"{max(doors):.2f}", len(rates)]
        cells += [f"{statistics.median(rates):.2f}", f"{max(rates):.2f}"] if rates else ["-", "-"]
        print("| " + " | ".join(map(str, [name, *cells])) + " |", flush=True)


if __name__ == "__main__":
    main()
