#!/usr/bin/env python3
"""Looks names up, and makes the parts of the documents that come from the sources.

    python3 tools/tables.py --write      makes these parts of docs/maintainers anew
    python3 tools/tables.py --check      prints which of them aren't as the sources are, and which definitions have no words above them
    python3 tools/tables.py WORD..       prints the definitions and public items whose name and words have all of these
    python3 tools/tables.py --clauses CRATE      prints the public calls of a crate, with their words and their clauses

A definition of specs/ has the words of the comment above it or above its group, and an item of src/ those of its `///` lines. `made_parts.py` says
which parts there are. The status is 1 if a check finds something.
"""
import pathlib
import re
import sys

TOP = pathlib.Path(__file__).resolve().parent.parent
DEFINITION = re.compile(r"(?:(?:abbrev|unfoldable) )?pub (?:(?:record|data) )?(?!use |mod )(\S+)")
ITEM = re.compile(r" *pub (?:const )?(?:fn|struct|enum|trait|type|const) (\w+)")
CLAUSE = re.compile(r" +ensures (?:(\w+) )?\{")


def crates():
    """The crates of crates.txt, each with those that it uses."""
    lines = (line.partition("#")[0].partition(":") for line in (TOP / "crates.txt").read_text().splitlines())
    return [(name.strip(), below.split()) for name, colon, below in lines if colon]


def first_paragraph(crate):
    """The first paragraph of a crate's root file."""
    for name in ("lib.rt", "main.rt"):
        root = TOP / "crates" / crate / "src" / name
        if root.is_file():
            return " ".join(re.match(r"(?://! .+\n)*", root.read_text())[0].replace("//! ", "").split())
    return "It has no root file."


def definitions(text):
    """The definitions of a file of specs/, each with the words above it or above its group."""
    words, fresh = [], False
    for line in text.splitlines():
        if line.startswith("-- ---- "):
            words, fresh = [line[8:]], False
        elif line.startswith("-- "):
            words = words + [line[3:]] if fresh else [line[3:]]
            fresh = True
        elif found := DEFINITION.match(line):
            yield found[1], " ".join(words), []
            fresh = False
        elif line.startswith(("use ", "pub use ")):
            words, fresh = [], False


def items(text):
    """The public items of a source file, each with its words and the names of its clauses."""
    words, found = [], None
    for line in text.splitlines():
        if line.strip().startswith("///"):
            words.append(line.strip()[3:].strip())
        elif new := ITEM.match(line):
            found = (new[1], " ".join(words).replace("  ", " "), [])
            yield found
            words = []
        elif clause := CLAUSE.match(line):
            if found:
                found[2].append(clause[1] or "its contract")
        elif not line.lstrip().startswith("#["):
            words = []
            found = None if line.strip() in ("", "{") else found


def named():
    """All definitions and public items: the file of each, its name, its words and its clauses."""
    for crate, _ in crates():
        for part, read in (("specs/*.antt", definitions), ("src/**/*.rt", items)):
            for path in sorted((TOP / "crates" / crate).glob(part)):
                for name, words, clauses in list(read(path.read_text())):
                    yield path.relative_to(TOP), name, words, clauses


def wordless():
    """What a check finds: definitions with no words above them."""
    return [f"{path}: no words above {name}" for path, name, words, _ in named() if path.suffix == ".antt" and not words]


def show(rows):
    """Prints names with their files, their words and their clauses."""
    for path, name, words, clauses in rows:
        print(f"{name}  {path}\n    {words}" + (f"\n    clauses: {', '.join(clauses)}" if clauses else ""))


def wanted(words):
    """The names whose words have all of some, those first that are one of them."""
    rows = [row for row in named() if all(word.lower() in f"{row[1]} {row[2]}".lower() for word in words)]
    return sorted(rows, key=lambda row: row[1] not in words)


def calls(crate):
    """The public calls of a crate that have a clause."""
    return [row for row in named() if row[0].parts[1] == crate and row[3]]


def main(words):
    import made_parts  # which reads the names of this module

    if words == ["--write"]:
        made_parts.write()
    elif words == ["--check"]:
        found = [*made_parts.differences(), *wordless()]
        print("\n".join(found) or "each part is as the sources are")
        return 1 if found else 0
    elif words[:1] == ["--clauses"] and len(words) == 2:
        show(calls(words[1]))
    elif words and not words[0].startswith("-"):
        show(wanted(words))
    else:
        print(__doc__)
        return 2
    return 0


if __name__ == "__main__":
    sys.exit(main(sys.argv[1:]))
