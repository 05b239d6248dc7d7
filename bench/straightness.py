#!/usr/bin/env python3
"""Shows how straight the plans of the built program are: people who come to a place twice, move lines, and walking beside the least there is.

    bench/straightness.py [--program PATH] [--only NAME,..] [--least] [--edits] [--each N] [FILE.evac ..]

The buildings are those of `buildings.py` and `two_way_halls.py`; files are measured beside them. A person comes to a place twice if two of the
nodes on the way are the same: by the cards, and by the routes. Walking is people times travel, summed over the moves. `--least` divides it by the least walking of any plan with the same arrival curve: `least_walking.cpp`, built by g++ with
the package liblemon-dev, which shares nothing with the planner; some seconds a building. `--edits` makes edits in sessions in place of all that: of each
kind some, each undone again, and shows the share of people who come to a place twice after it beside that of a fresh plan of the edited building;
as sessions print no cards, there who comes into a room first leaves it first.
It is no part of any test.
"""
import argparse
import collections
import dataclasses
import pathlib
import subprocess
import sys
import tempfile

import buildings
import edits
import two_way_halls

TOP = pathlib.Path(__file__).resolve().parent.parent
EDITED = ("ring", "concert", "hospital", "mall", "ship", "hotel")
KINDS = ("shutexit", "openexit", "shift", "rate")


@dataclasses.dataclass
class Plan:
    """A plan as printed: people, moves as (moment, tail, head, people), and the nodes of each route, or of each card, with its people."""

    people: int
    moves: list
    ways: list


def read_plan(lines):
    """Returns the plan of a block and of the routes or cards after it, and leaves the lines behind them; None where there was no block."""
    plan = Plan(0, [], [])
    for line in lines:
        fields = line.split()
        if fields[0] == "refused":
            return None
        if fields[0] == "people":
            plan.people = int(fields[1])
        elif fields[0] == "move":
            plan.moves.append((int(fields[1]), fields[2], fields[3], int(fields[4])))
        elif fields[0] == "end":
            break
    for line in lines:
        fields = line.split()
        if fields[0] in ("route", "card"):
            plan.ways.append((int(fields[1]) if fields[0] == "route" else 1, [fields[2]]))
        elif fields[0] == "step":
            plan.ways[-1][1].append(fields[3])
        elif fields[0] == "end":
            break
    return plan


def plan_of(program, command, text):
    """Returns the plan of a building that a command prints, or None where it is refused."""
    wrote = subprocess.run([program, *command], input=text.encode(), stdout=subprocess.PIPE).stdout
    return read_plan(iter(wrote.decode().split("\n")))


def twice_by_ways(plan):
    """Returns how many people's routes, or cards, come to a node twice."""
    return sum(people for people, nodes in plan.ways if len(set(nodes)) < len(nodes))


def arrivals_from_outside(text):
    """Returns who comes in from outside: at each moment the nodes, each with how many people."""
    coming = collections.defaultdict(list)
    for name, *numbers in buildings.statements(text, "node"):
        if numbers and int(numbers[1]):
            coming[0].append((name, int(numbers[1])))
    for name, moment, people in buildings.statements(text, "entrant"):
        coming[int(moment)].append((name, int(people)))
    return coming


def twice_in_turn(text, plan):
    """Returns how many people come to a node twice, where who comes into a room first leaves it first."""
    travels = {(tail, head): int(travel) for tail, head, travel, _ in buildings.statements(text, "arc")}
    coming, moving = arrivals_from_outside(text), collections.defaultdict(list)
    for moment, tail, head, people in plan.moves:
        moving[moment].append((tail, head, people))
    waiting, walking, seen = collections.defaultdict(collections.deque), collections.defaultdict(list), []
    for moment in range(max([*coming, *moving], default=0) + 1):
        for person, node in walking.pop(moment, []):
            waiting[node].append(person)
        for node, people in coming[moment]:
            waiting[node].extend(range(len(seen), len(seen) + people))
            seen += [[node] for _ in range(people)]
        for tail, head, people in moving[moment]:
            for _ in range(people):
                person = waiting[tail].popleft()
                seen[person].append(head)
                walking[moment + travels[tail, head]].append((person, head))
    return sum(len(set(nodes)) < len(nodes) for nodes in seen)


def walking_of(text, plan):
    """Returns the walking of a plan: people times travel, summed over its moves."""
    travels = {(tail, head): int(travel) for tail, head, travel, _ in buildings.statements(text, "arc")}
    return sum(people * travels[tail, head] for _, tail, head, people in plan.moves)


def session(program, text, commands):
    """Returns the plan of a building in a session, and that after each command, or None where a command is refused."""
    given = [text.rstrip("\n"), "routes"]
    for command in commands:
        given += [command, "routes"]
    given = "\n".join([*given, "quit", ""]).encode()
    wrote = subprocess.run([program, "session"], input=given, stdout=subprocess.PIPE, check=True).stdout
    lines = iter(wrote.decode().split("\n"))
    return [read_plan(lines) for _ in range(len(commands) + 1)]


def build_least(folder):
    """Builds the program that finds the least walking. Returns its path."""
    program = pathlib.Path(folder) / "least_walking"
    source = pathlib.Path(__file__).with_name("least_walking.cpp")
    if subprocess.run(["g++", "-O2", "-o", str(program), str(source)]).returncode != 0:
        sys.exit("least_walking.cpp needs g++ and the package liblemon-dev")
    return program


def least_walking(program, solver, text):
    """Returns the least walking of any plan with the arrival curve of the planner's."""
    block = subprocess.run([solver, "solve"], input=text.encode(), stdout=subprocess.PIPE, check=True).stdout.decode()
    wrote = subprocess.run([program], input=(text + block).encode(), stdout=subprocess.PIPE, check=True).stdout
    return int(wrote.split()[1])


def openings(given, texts):
    """Prints how straight the plan of each building is."""
    print("| building | people | twice: cards | twice: routes | move lines | walking | walking / least |\n|---|--:|--:|--:|--:|--:|--:|")
    with tempfile.TemporaryDirectory() as folder:
        program = build_least(folder) if given.least else None
        for name, text in texts.items():
            plan = plan_of(given.program, ["solve", "--routes"], text)
            if plan is None:
                print(f"| {name} | refused | | | | | |")
                continue
            walking = walking_of(text, plan)
            ratio = f"{walking / least_walking(program, given.program, text):.2f}" if program and walking else "-"
            cards = plan_of(given.program, ["cards"], text)
            cells = [plan.people, twice_by_ways(cards), twice_by_ways(plan), len(plan.moves), walking]
            print(f"| {name} | {' | '.join(f'{it:,}' for it in cells)} | {ratio} |", flush=True)


def share(text, plan):
    """Returns of 100 people how many come to a place twice, in turn or by routes, whichever are more."""
    return 100 * max(twice_in_turn(text, plan), twice_by_ways(plan)) / max(plan.people, 1)


def edited(given, texts):
    """Prints the share of people who come to a place twice after edits of each kind, beside that of a fresh plan of the edited building."""
    print("| building | edit | after it | fresh | after its undo | before |\n|---|---|--:|--:|--:|--:|")
    for name, text in texts.items():
        for edit in edits.edits_of(text, given.each):
            if edit.kind not in KINDS:
                continue
            plans = session(given.program, text, [*edit.before, edit.command, "undo"])
            if None in plans:
                print(f"| {name} | `{edit.command}` | refused | | | |")
                continue
            *_, stood, made, undone = plans
            fresh = session(given.program, edit.made, [])[0]
            cells = share(edit.made, made), share(edit.made, fresh), share(edit.stood, undone), share(edit.stood, stood)
            print(f"| {name} | `{edit.command}` | {' | '.join(f'{it:.1f}' for it in cells)} |", flush=True)


def main():
    parser = argparse.ArgumentParser(description=__doc__.split("\n")[0])
    parser.add_argument("--program", default=str(TOP / "crates/evacplan/out/evacplan"))
    parser.add_argument("--only")
    parser.add_argument("--least", action="store_true")
    parser.add_argument("--edits", action="store_true")
    parser.add_argument("--each", type=int, default=4, help="how many edits of each kind --edits tries")
    parser.add_argument("files", nargs="*", type=pathlib.Path)
    given = parser.parse_args()
    every = {**buildings.ALL, **two_way_halls.ALL}
    names = given.only.split(",") if given.only else list(EDITED) if given.edits else list(every)
    texts = {name: every[name]() for name in names if name in every}
    texts |= {file.stem: file.read_text() for file in given.files}
    (edited if given.edits else openings)(given, texts)


if __name__ == "__main__":
    main()
