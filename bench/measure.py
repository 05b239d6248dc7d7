#!/usr/bin/env python3
"""Times the built program on large buildings, whole runs of it, and beside it another solver where one is given.

    bench/measure.py [--program PATH] [--by-hand PATH] [--rounds N] [--only NAME,..] [--instructions] [--edits] [--routes] [FILE.evac ..]

Without files the buildings of `buildings.py` are measured, each by its name; files are measured beside them. A round runs
every command once, and a ratio is the median over the rounds of two times of one round, so that a busy machine slows
both alike. `--by-hand PATH` is the program that `run` builds from `by_hand/`: `PATH --path` writes each path out step by
step, and `PATH` doesn't. It knows no windows and no entrants, so a building that has some gets a dash in
place of its numbers. `--instructions` counts instructions with valgrind in place of these times, once each: they don't
depend on how busy a machine is. `--edits` makes edits of every kind in a session in place of all that, each undone again, and
divides the instructions of each by those of a fresh solve: of the building before it or after it, whichever is dearer. `--routes` counts
the instructions of `solve`, `solve --routes` and `cards`. It is no part of any test: it prints a table in Markdown and fails for nothing
but a run that fails, or two solvers that differ. `run` measures all of this and writes the tables of the page on speed.
"""
import argparse
import os
import pathlib
import re
import statistics
import subprocess
import sys
import tempfile
import time

import buildings
import edits

TOP = pathlib.Path(__file__).resolve().parent.parent
KINDS = {"by hand, writing paths": ["--path"], "by hand": []}
COUNTER = (*edits.COUNTER, "--callgrind-out-file=/dev/null", "--log-fd=1")


def run(command, text):
    """Returns the milliseconds that a command takes on a text, what it wrote and its status."""
    with tempfile.TemporaryFile() as given, tempfile.TemporaryFile() as wrote:
        given.write(text)
        given.seek(0)
        begin = time.perf_counter()
        ended = subprocess.run(command, stdin=given, stdout=wrote, stderr=subprocess.DEVNULL)
        took = (time.perf_counter() - begin) * 1e3
        wrote.seek(0)
        return took, wrote.read(), ended.returncode


def memory_of(command, text):
    """Returns the most memory in MB that a command holds on a text, as often as it can be looked at."""
    most = 0
    with tempfile.TemporaryFile() as given:
        given.write(text)
        given.seek(0)
        child = subprocess.Popen(command, stdin=given, stdout=subprocess.DEVNULL, stderr=subprocess.DEVNULL)
        status = pathlib.Path(f"/proc/{child.pid}/status")
        while child.poll() is None:
            try:
                own = os.readlink(f"/proc/{child.pid}/exe") == os.path.realpath(command[0])
                held = [line.split()[1] for line in status.read_text().split("\n") if line.startswith("VmHWM")]
            except OSError:
                continue
            if own and held:
                most = max(most, int(held[0]) / 1024)
    return most


def instructions_of(command, text):
    """Returns how many millions of instructions a command takes on a text."""
    wrote = run([*COUNTER, *command], text)[1]
    return int(re.search(rb"== Collected : (\d+)", wrote)[1]) / 1e6


def rounds_of(commands, count):
    """Returns for each command and text its times, one for each round."""
    times = [[] for _ in commands]
    for _ in range(count):
        for own, (command, text) in zip(times, commands):
            own.append(run(command, text)[0])
    return times


def machine():
    """Returns the name of this machine's processor, and how many there are."""
    lines = pathlib.Path("/proc/cpuinfo").read_text().split("\n")
    names = [line.split(":", 1)[1].strip() for line in lines if line.startswith("model name")]
    return f"{names[0] if names else 'an unnamed processor'}, {os.cpu_count()} of them"


def ratio(times, others):
    """Returns the median of the ratios within a round."""
    return statistics.median(a / b for a, b in zip(times, others))


def commands_of(given, text):
    """Returns the commands that solve a building: the program's, and of each kind the other solver's where it can read it."""
    is_read = given.by_hand and not any(buildings.statements(text.decode(), it) for it in ("window", "entrant"))
    return [[given.program, "solve"], *([given.by_hand, *words] for words in KINDS.values() if is_read)]


def compare(name, commands, text):
    """Ends the run where a command fails on a text, or where not as many people are out at each period by one as by another."""
    curves = []
    for command in commands:
        _, answer, status = run(command, text)
        if status not in (0, 1):
            sys.exit(f"{name}: {command[0]} ended with status {status}: {answer[:80]!r}")
        curves.append([line for line in answer.split(b"\n") if line.startswith((b"cleared ", b"out ", b"most "))])
    if any(it != curves[0] for it in curves):
        sys.exit(f"{name}: the two solvers differ")


def print_head(given, columns, unit):
    """Prints the head of a table: columns of the program's own, and those of the other solver."""
    kinds = KINDS if given.by_hand else ()
    print(f"| building | {' | '.join(columns)} |" + "".join(f" {kind}, {unit} | ratio |" for kind in kinds))
    print("|---|" + "--:|" * (len(columns) + 2 * len(kinds)))


def print_row(given, name, own, others):
    """Prints a row of it: the program's own numbers, and for each kind the other solver's number and the ratio to it."""
    cells = [name, *(f"{it:.1f}" for it in own)]
    for other, ratio_to_it in others:
        cells += [f"{other:.1f}", f"{ratio_to_it:.2f}"]
    if given.by_hand and not others:
        cells += ["-"] * (2 * len(KINDS))
    print("| " + " | ".join(cells) + " |", flush=True)


def solving(given, texts):
    """Prints how long whole runs of `solve` take."""
    print_head(given, ["MB", "solve, ms"], "ms")
    for name, text in texts.items():
        commands = commands_of(given, text)
        compare(name, commands, text)
        memory = memory_of(commands[0], text)
        own, *others = rounds_of([(it, text) for it in commands], given.rounds)
        print_row(given, name, [memory, min(own)], [(min(it), ratio(own, it)) for it in others])


def counting(given, texts):
    """Prints how many millions of instructions whole runs of `solve` take."""
    print_head(given, ["solve, M"], "M")
    for name, text in texts.items():
        commands = commands_of(given, text)
        compare(name, commands, text)
        own, *others = [instructions_of(it, text) for it in commands]
        print_row(given, name, [own], [(it, own / it) for it in others])


def routing(given, texts):
    """Prints how many millions of instructions a plan takes, the plan with its routes, and the plan with its cards."""
    print("| building | solve, M | solve --routes, M | cards, M | routes to cards |\n|---|--:|--:|--:|--:|")
    for name, text in texts.items():
        plan, routes, cards = [instructions_of([given.program, *words], text) for words in (["solve"], ["solve", "--routes"], ["cards"])]
        print(f"| {name} | {plan:.1f} | {routes:.1f} | {cards:.1f} | {routes / cards:.2f} |", flush=True)


def possible_edits(given, text):
    """Returns edits of a building that a session can make after those before them, each with whether it accepts them."""
    tried = []
    for edit in edits.edits_of(text, given.each):
        if not edit.before or edits.are_accepted(given.program, text, edit.before):
            tried.append((edit, edits.are_accepted(given.program, text, [*edit.before, edit.command])))
    return tried


def ratios_of(given, text):
    """Returns for each edit of a building, and for each undo, what it is and its instructions, divided by those of the dearer fresh plan."""
    tried, commands, ratios, fresh = possible_edits(given, text), [], [], {}
    for edit, accepted in tried:
        commands += [*edit.before, edit.command, *["undo"] * (len(edit.before) + accepted)]
    spent = iter(edits.spent_on(given.program, text, commands))
    for edit, accepted in tried:
        for made in (edit.stood, edit.made):
            fresh[made] = fresh.get(made) or instructions_of([given.program, "solve"], made.encode())
        own = [next(spent) for _ in range(2 * len(edit.before) + 1 + accepted)]
        dearer, at = max(fresh[edit.stood], fresh[edit.made]), len(edit.before)
        ratios.append((edit.kind if accepted else "refused", edit.command, own[at] / dearer))
        if accepted:
            ratios.append(("undo", f"undo of {edit.command}", own[at + 1] / dearer))
    return ratios


def editing(given, texts):
    """Prints what edits of every kind take, each with its undo, as ratios to the dearer fresh plan of the building before it and after."""
    print("| building | edits: median, most | undone: median, most | refused: median, most | the dearest |")
    print("|---|--:|--:|--:|---|")
    kinds = {}
    for name, text in texts.items():
        ratios = ratios_of(given, text.decode())
        columns = {"edits": [], "undo": [], "refused": []}
        for kind, _, it in ratios:
            columns[kind if kind in columns else "edits"].append(it)
            kinds.setdefault(kind, []).append(it)
        cells = [f"{statistics.median(it):.2f}, {max(it):.2f}" if it else "-" for it in columns.values()]
        _, dearest, most = max(ratios, key=lambda it: it[2])
        print(f"| {name} | {' | '.join(cells)} | `{dearest}` {most:.2f} |", flush=True)
    print("\n| kind | edits | median | most |\n|---|--:|--:|--:|")
    for kind, all_of_it in kinds.items():
        print(f"| {kind} | {len(all_of_it)} | {statistics.median(all_of_it):.2f} | {max(all_of_it):.2f} |")


def main():
    parser = argparse.ArgumentParser(description=__doc__.split("\n")[0])
    parser.add_argument("--program", default=str(TOP / "crates/evacplan/out/evacplan"))
    parser.add_argument("--by-hand", help="the solver by hand, as bench/run builds it")
    parser.add_argument("--rounds", type=int, default=9)
    parser.add_argument("--each", type=int, default=1, help="how many edits of each kind --edits tries")
    parser.add_argument("--only")
    parser.add_argument("--instructions", action="store_true")
    parser.add_argument("--edits", action="store_true")
    parser.add_argument("--routes", action="store_true")
    parser.add_argument("files", nargs="*", type=pathlib.Path)
    given = parser.parse_args()
    names = given.only.split(",") if given.only else list(buildings.ALL)
    texts = {name: buildings.ALL[name]().encode() for name in names if name in buildings.ALL}
    texts |= {file.stem: file.read_bytes() for file in given.files}
    if given.edits:
        editing(given, texts)
    elif given.routes:
        routing(given, texts)
    elif given.instructions:
        counting(given, texts)
    else:
        print(f"Measured on {machine()}; {given.rounds} rounds.\n")
        solving(given, texts)


if __name__ == "__main__":
    main()
