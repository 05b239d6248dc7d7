#!/usr/bin/env python3
"""Prints each clause of each public function and trait method, one a line, so that a change can be compared with what was before it.

    python3 tools/clauses.py [COPY] > FILE

COPY is the top of a copy of the repository; without it this one is read. A line is `CRATE OWNER FUNCTION KIND {TEXT}`: without the label of the
clause and its line breaks, and sorted, so that a file that moved and a label that changed don't show.
"""
import pathlib
import re
import sys
from typing import Iterator, List, NamedTuple, Tuple

TOP = pathlib.Path(__file__).resolve().parent.parent
CLAUSE = re.compile(r"\s*(requires|ensures)(\*?)(?: +\w+)? *\{")
FUNCTION = re.compile(r"(\s*)(pub(?:\([a-z]+\))? )?(?:const )?(?:unsafe )?fn (\w+)")
OWNER = re.compile(r"(?:pub(?:\([a-z]+\))? )?(?:impl|struct|enum|trait)\b")


class Clause(NamedTuple):
    """A clause in a file: whose it is, whether callers outside the crate read it, and its words from `requires` or `ensures` on."""

    crate: str
    file: str
    owner: str
    function: str
    is_public: bool
    text: str

    @property
    def unlabelled(self) -> str:
        return re.sub(r"^(requires|ensures)(\*?) +\w+ *\{", r"\1\2 {", self.text)


def whole(lines: List[str], start: int) -> Tuple[str, int]:
    """The clause that begins at a line, in one line, and the number of its last line."""
    depth, at = 0, start
    while True:
        depth += lines[at].count("{") - lines[at].count("}")
        if depth <= 0 or at + 1 == len(lines):
            return " ".join(line.strip() for line in lines[start : at + 1]), at
        at += 1


def clauses_of(file: pathlib.Path, top: pathlib.Path) -> Iterator[Clause]:
    """The clauses of a file, in order."""
    place = file.relative_to(top / "crates")
    lines, owner, function, is_public, last = file.read_text().split("\n"), "", "", False, -1
    for number, line in enumerate(lines):
        if OWNER.match(line):
            owner = re.sub(r"<[^<>]*>", "", line.split("{")[0]).strip()
        elif line == "}":
            owner = ""
        if head := FUNCTION.match(line):
            function, is_public = head[3], head[2] == "pub " or bool(re.match(r"(pub )?trait ", owner))
        if number > last and function and CLAUSE.match(line):
            text, last = whole(lines, number)
            yield Clause(place.parts[0], str(place), owner, function, is_public, text)


def all_clauses(top: pathlib.Path) -> Iterator[Clause]:
    """The clauses of a copy of the repository, file by file."""
    for file in sorted((top / "crates").glob("*/src/**/*.rt")):
        yield from clauses_of(file, top)


def main(words: List[str]) -> int:
    top = pathlib.Path(words[0]) if words else TOP
    for line in sorted(f"{it.crate} {it.owner} {it.function} {it.unlabelled}" for it in all_clauses(top) if it.is_public):
        print(line)
    return 0


if __name__ == "__main__":
    sys.exit(main(sys.argv[1:]))
