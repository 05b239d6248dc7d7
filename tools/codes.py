#!/usr/bin/env python3
"""Writes the tables of formats.md from the codes that evacask has in its code, and from the tables of the language.

    python3 tools/codes.py --write      writes the tables
    python3 tools/codes.py --check      prints the lines that differ; the status is 1 if some do

A table of codes stands below its line `<!-- codes: NAME -->`. The name is a place (building, session, study, replan, check, words) or `commands`, whose
table has the codes of each command of a session, a study and a replan. They come from companion/src/evacask/model/codes.json. Below a line
`<!-- language: NAME -->` stands a table of tools/language.json, from which the man pages and the page in the browser are made too, or the statements.
"""
from __future__ import annotations

import difflib
import json
import pathlib
import re
import sys
from typing import Dict, List

TOP = pathlib.Path(__file__).resolve().parent.parent
CODES, PAGE = TOP / "companion/src/evacask/model/codes.json", TOP / "docs/users/formats.md"
LANGUAGE = TOP / "tools/language.json"
MARK = re.compile(r"(?<=<!-- )(codes|language)(: )(\w+)( -->\n\n)(?:\|.*\n)*")
COMMAND = "command "
Table = Dict[str, Dict[str, Dict[str, str]]]


def row(cells: List[str]) -> str:
    return f"| {' | '.join(cells)} |\n"


def whole_table(head: List[str], rows: List[List[str]]) -> str:
    return row(head) + "|" + "---|" * len(head) + "\n" + "".join(map(row, rows))


def language_rows(name: str) -> List[List[str]]:
    """The rows of a table of the language, each as its cells."""
    rows: List[List[str]] = json.loads(LANGUAGE.read_text(encoding="utf-8"))[name]["rows"]
    return rows


def statement_rows(codes: Table) -> List[List[str]]:
    """The rows of the statements: form, ranges, and how often each may come."""
    often = {row[0].strip("`"): row[1] for row in language_rows("often")}
    return [[f"`{form}`", said["ranges"], often[form]] for form, said in codes["statements"].items()]


def language_table(name: str, codes: Table) -> str:
    """A table of the language, or that of the statements."""
    if name == "statements":
        return whole_table(["Statement", "Ranges", "How often"], statement_rows(codes))
    head: List[str] = json.loads(LANGUAGE.read_text(encoding="utf-8"))[name]["head"]
    return whole_table(head, language_rows(name))


def codes_table(name: str, codes: Table) -> str:
    """The table of a place, or that of the commands."""
    if name == "commands":
        words = [key for key in codes if key.startswith(COMMAND)]
        rows = [[f"`{key[len(COMMAND):]}`", code, it["meaning"], it["remedy"]] for key in words for code, it in codes[key].items()]
        return whole_table(["Command", "Code", "Meaning", "What to do"], rows)
    rows = [[code, it["meaning"], it["remedy"]] for code, it in codes[name].items()]
    return whole_table(["Code", "Meaning", "What to do"], rows)


def without_links(text: str) -> str:
    """A text without the targets of its links."""
    return re.sub(r"\[([^]]*)\]\([^)]*\)", r"\1", text)


def written(page: str) -> str:
    """The page with its tables anew. A row whose words are right keeps its links."""
    codes: Table = json.loads(CODES.read_text(encoding="utf-8"))
    rows = {without_links(line): line for line in page.splitlines(True)}

    def table(found: "re.Match[str]") -> str:
        if found[1] == "language":
            return "".join(found.groups()) + language_table(found[3], codes)
        return "".join(found.groups()) + "".join(rows.get(it, it) for it in codes_table(found[3], codes).splitlines(True))

    return MARK.sub(table, page)


def main(words: List[str]) -> int:
    if words not in (["--write"], ["--check"]):
        print(__doc__, file=sys.stderr)
        return 2
    page = PAGE.read_text(encoding="utf-8")
    wanted = written(page)
    if words == ["--write"]:
        PAGE.write_text(wanted, encoding="utf-8")
        return 0
    sys.stdout.writelines(difflib.unified_diff(page.splitlines(True), wanted.splitlines(True), "docs/users/formats.md", "as codes.json has it"))
    return int(page != wanted)


if __name__ == "__main__":
    sys.exit(main(sys.argv[1:]))
