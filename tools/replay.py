#!/usr/bin/env python3
"""Runs each command that the documents for users show, on the built program, and compares what it prints with what is shown below it.

    python3 tools/replay.py [--program PATH] [DOCUMENT ..]

The first word of a fence says what its block is, and a block without one of these words is a fault:

- `console`: a transcript. A line `$ COMMAND` is run, `\\` at its end goes on in the next line. Lines `> ..` below it are typed into the command, and
  all others are what it prints. The last command ends with status 0, or with N where the fence says `console status=N`; all others with 0. The
  status of a pipe is that of the last part of it that isn't 0.
- `evac NAME`: lines of a building. Where NAME is an example, they are lines of that file. Else they are written into a file of this name, which the
  commands below may read.
- `python NAME`, `rust NAME`: lines of that file.
- `sh`: commands that prove, build or measure. They are not run here.
- `antt`: definitions, which check_promises.py looks up.
- `text`: anything else. It isn't compared with anything.

A line `..` is in place of lines that are left out; between two of them all lines must be there, in order and side by side. The left column of a table
that is headed `Line` or `Command`, right below a block, has lines of that block. In a table that is headed `Question | Command | Answer` each command
is run, ends with status 0 or 1, and what is in code in the last column must be in the first ten lines that it prints.

The tables and answers of modelling.md are computed by figures.py, which is called here. Each difference is printed with its document and line, and the
status is 1 where there is one.
"""
import argparse
import os
import pathlib
import re
import subprocess
import sys
import tempfile
from dataclasses import dataclass, field

sys.dont_write_bytecode = True
import figures

TOP = pathlib.Path(__file__).resolve().parent.parent
USERS = ("start", "guide", "modelling", "formats", "assumptions")
DOCUMENTS = ("README.md", *(f"docs/users/{it}.md" for it in USERS), "docs/maintainers/laws.md")
# What the commands find in their folder, besides the program.
LINKED = ("examples", "docs", "evacask", "companion")
KINDS = ("console", "evac", "python", "rust", "antt", "sh", "text")
GAP = ".."


@dataclass
class Item:
    """A code block with the words of its fence, a table, or another line of text; and the number of its first line."""

    kind: str
    line: int
    words: list = field(default_factory=list)
    lines: list = field(default_factory=list)


def items_of(text):
    """The code blocks and tables of a document, in order, and a text item for what is between them."""
    found, is_fenced = [], False
    for number, line in enumerate(text.split("\n"), 1):
        if line.startswith("```"):
            is_fenced = not is_fenced
            if is_fenced:
                found.append(Item("block", number + 1, line[3:].split()))
        elif is_fenced:
            found[-1].lines.append(line)
        elif line.startswith("    ") and (not found or found[-1].kind != "text"):
            found.append(Item("block", number, [], [line]))
        elif line.startswith("|"):
            if not found or found[-1].kind != "table":
                found.append(Item("table", number))
            found[-1].lines.append(line)
        elif line.strip():
            found.append(Item("text", number, [], [line]))
        elif found and found[-1].kind == "text":
            found.append(Item("blank", number))
    return [it for it in found if it.kind != "blank"]


def runs_of(shown):
    """The longest runs of lines between gaps, each with the number of its first line, from 0."""
    runs = [(0, [])]
    for number, line in enumerate(shown):
        if line == GAP:
            runs.append((number + 1, []))
        else:
            runs[-1][1].append(line)
    return runs


def first_missing(shown, there):
    """Which of the lines that are shown isn't there where it should be, from 0, or None."""
    runs, start = runs_of(shown), 0
    for number, (first, run) in enumerate(runs):
        is_last = number == len(runs) - 1
        places = range(start, len(there) - len(run) + 1)
        if number == 0:
            places = places[:1]
        if is_last and run:
            places = [it for it in places if it == len(there) - len(run)]
        at = next((it for it in places if there[it : it + len(run)] == run), None)
        if at is None or is_last and number == 0 and len(run) != len(there):
            fits = (next((k for k, (one, other) in enumerate(zip(run, there[it:])) if one != other), len(run)) for it in places)
            return min(first + max(fits, default=0), len(shown) - 1)
        start = at + len(run)
    return None


def numbered(item):
    """The lines of a block, each with its number in the document."""
    return list(enumerate(item.lines, item.line))


def is_statement(line):
    """Whether a line of a building is neither blank nor a comment."""
    return bool(line.strip()) and not line.startswith("#")


def cells_of(row):
    """The cells of a row of a table."""
    return [it.strip().replace("\\|", "|") for it in re.split(r"(?<!\\)\|", row.strip().strip("|"))]


class Reader:
    """Goes through a document in a folder that has the program and the examples."""

    def __init__(self, program, folder, name):
        self.folder, self.name, self.faults, self.above = pathlib.Path(folder), name, [], None
        (self.folder / "evacplan").symlink_to(program)
        for it in LINKED:
            if (TOP / it).exists():
                (self.folder / it).symlink_to(TOP / it)
        self.environment = {**os.environ, "EVACPLAN": str(program), "PYTHONDONTWRITEBYTECODE": "1"}

    def fault(self, line, why):
        self.faults.append(f"{self.name}:{line}: {why}")

    def run(self, line, command, typed="", statuses=(0,)):
        """The lines that a command prints. Its status must be one of those given."""
        ran = subprocess.run(
            ["bash", "-o", "pipefail", "-c", command], cwd=self.folder, env=self.environment, input=typed.encode(), timeout=120,
            stdout=subprocess.PIPE, stderr=subprocess.STDOUT,
        )
        if ran.returncode not in statuses:
            self.fault(line, f"{command}: status {ran.returncode} and not {statuses[0]}")
        lines = ran.stdout.decode(errors="replace").split("\n")
        return lines if lines[-1] else lines[:-1]

    def compare(self, shown, there, what):
        """Looks for lines, each with its number, among those that are there."""
        wrong = first_missing([text for _, text in shown], there)
        if wrong is not None:
            self.fault(shown[wrong][0], f"{shown[wrong][1]!r} isn't there in what {what} has: {' / '.join(there[:3])}")

    def block(self, item):
        kind = item.words[0] if item.words else "none"
        if kind not in KINDS:
            self.fault(item.line, f"the fence says {kind}, which is none of {', '.join(KINDS)}")
        elif kind == "console":
            self.transcript(item)
        elif kind == "evac":
            self.building(item)
        elif kind in ("python", "rust"):
            self.compare(numbered(item), (TOP / item.words[1]).read_text().split("\n")[:-1], item.words[1])
        self.above = item

    def building(self, item):
        """Compares lines with those of an example, or writes them into a file."""
        name = item.words[1]
        if name.startswith("examples/"):
            shown = [(number, it) for number, it in numbered(item) if is_statement(it)]
            self.compare(shown, [it for it in (TOP / name).read_text().split("\n") if is_statement(it)], name)
        else:
            (self.folder / name).write_text("\n".join(item.lines) + "\n")

    def transcript(self, item):
        """Runs each command of a transcript, with what is typed below it, and compares what it prints."""
        lines, last = numbered(item), int(item.words[1].partition("=")[2]) if len(item.words) > 1 else 0
        if not item.lines[:1] or not item.lines[0].startswith("$ "):
            self.fault(item.line, "a transcript begins with a command")
        while lines:
            number, command = lines.pop(0)
            command = command.removeprefix("$ ")
            while command.endswith("\\"):
                command = command[:-1] + lines.pop(0)[1].strip()
            end = next((at for at, (_, it) in enumerate(lines) if it.startswith("$ ")), len(lines))
            below, lines = lines[:end], lines[end:]
            typed = "".join(it[2:] + "\n" for _, it in below if it.startswith("> "))
            printed = self.run(number, command, typed, (0 if lines else last,))
            shown = [it for it in below if not it[1].startswith("> ")]
            if shown or printed:
                self.compare(shown or [(number, "nothing")], printed, command)

    def table(self, item):
        head = cells_of(item.lines[0])
        if head == ["Question", "Command", "Answer"]:
            self.questions(item)
        elif head[0] in ("Line", "Command") and self.above:
            there = [re.sub(r"^[$>] ", "", it) for it in self.above.lines]
            for at, row in enumerate(item.lines[2:], 2):
                for code in re.findall(r"`([^`]*)`", cells_of(row)[0]):
                    if code not in there:
                        self.fault(item.line + at, f"{code!r} isn't there in the block above")
        self.above = None

    def questions(self, item):
        """Runs the command of each row, and looks for the answer in the first lines that it prints."""
        for at, row in enumerate(item.lines[2:], item.line + 2):
            _, command, answer = cells_of(row)
            printed = self.run(at, command.strip("`"), statuses=(0, 1))[:10]
            for code in re.findall(r"`([^`]*)`", answer):
                if not any(code in it for it in printed):
                    self.fault(at, f"{code!r} isn't there in the first ten lines of {command}: {' / '.join(printed)}")

    def text(self, item):
        self.above = None

    def read(self, text):
        """Goes through the whole document, and returns what differs."""
        for item in items_of(text):
            getattr(self, item.kind)(item)
        return self.faults


def main():
    parser = argparse.ArgumentParser(description=__doc__.split("\n")[0])
    parser.add_argument("--program", type=pathlib.Path, default=figures.PROGRAM)
    parser.add_argument("documents", nargs="*", default=[TOP / it for it in DOCUMENTS], type=pathlib.Path)
    given = parser.parse_args()
    program = given.program.resolve()
    if not program.is_file():
        sys.exit(f"replay: there is no program {program}: ./build makes it")
    found = []
    for path in given.documents:
        with tempfile.TemporaryDirectory(prefix="evacplan-replay-") as folder:
            found += Reader(program, folder, path.name).read(path.read_text())
    figures.ANSWERS.program = program
    found += figures.differences(figures.PAGE.read_text())
    print("\n".join(found) if found else "what the documents show is what is printed")
    return 1 if found else 0


if __name__ == "__main__":
    sys.exit(main())
