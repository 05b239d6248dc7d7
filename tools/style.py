#!/usr/bin/env python3
"""Counts in each document what the house wants less of, and compares the counts with tools/style.txt.

    python3 tools/style.py            prints what grew; the status is 1 then
    python3 tools/style.py --counts   prints the counts too
    python3 tools/style.py --write    writes smaller counts into style.txt; what grew stays as it was

A line of style.txt has a document and its bounds: words by hand, `where`, sentences of more than 25 words, odd words, and riddles. All are counted outside of
blocks of code and of generated parts, and all but the words outside of code in a line. An odd word is one in a sense that needs a glossary. A
riddle is a contrast that is joined by `and no`, or an `alone` behind its noun. A bound may only shrink, but for that of the words, which is chosen.
"""
import argparse
import pathlib
import re
import sys

sys.dont_write_bytecode = True
from evidence import MADE

TOP = pathlib.Path(__file__).resolve().parent.parent
BOUNDS = TOP / "tools/style.txt"
HEADS = ("words", "where", "long", "odd", "riddles")
LONGEST = 25
ODD = re.compile(r"\b(?:doubts?|talks?|any rate|goes about|besides|just these|as far as|whoever|\d+ of 100)\b", re.I)
RIDDLE = re.compile(r", and (?:no|not|nobody|nothing|none|never)\b|\balone\b")
ENDS = re.compile(r"\n\s*\n|\n(?=\s*[-|>] )|\n(?=\s*\d+\. )|\n(?=\|)| \| ")


def documents():
    """The documents that are counted."""
    return [TOP / "README.md", *sorted((TOP / "docs").glob("*/*.md"))]


def prose_of(text):
    """A document without blocks of code and generated parts."""
    return re.sub(r"(?ms)^```.*?^```", "\n\n", MADE.sub("", text))


def counted(text):
    """The counts of a document, in the order of the heads."""
    prose = prose_of(text)
    plain = re.sub(r"\]\([^)]*\)", "]", re.sub(r"`[^`]*`", "x", prose))
    sentences = [it for block in ENDS.split(plain) for it in re.split(r"(?<=[.?!:;])\s+", " ".join(block.split()))]
    found = (len(prose.split()), len(re.findall(r"\b[Ww]here\b", plain)), sum(len(it.split()) > LONGEST for it in sentences))
    return (*found, len(ODD.findall(plain)), len(RIDDLE.findall(plain)))


def bounds_in(text):
    """The bounds by the name of the document."""
    rows = [line.split() for line in text.splitlines() if line and not line.startswith("#")]
    return {name: tuple(map(int, numbers)) for name, *numbers in rows}


def differences(counts, bounds):
    """What grew, documents without bounds, and bounds of no document."""
    for name, found in counts.items():
        if name not in bounds:
            yield f"{name} has no line in style.txt: {' '.join(map(str, found))}"
            continue
        yield from (f"{name}: {head}: {has}, and at most {most} may be" for head, has, most in zip(HEADS, found, bounds[name]) if has > most)
    yield from (f"style.txt: there is no {name}" for name in bounds if name not in counts)


def written(counts, bounds):
    """The lines of style.txt with smaller counts. The bound of the words stays."""
    for name, most in bounds.items():
        if name in counts:
            yield " ".join([name, str(most[0]), *(str(min(pair)) for pair in zip(counts[name][1:], most[1:]))])


def main():
    parser = argparse.ArgumentParser(description=__doc__.split("\n")[0])
    parser.add_argument("--counts", action="store_true")
    parser.add_argument("--write", action="store_true")
    given = parser.parse_args()
    counts = {str(path.relative_to(TOP)): counted(path.read_text()) for path in documents()}
    said = BOUNDS.read_text()
    if given.write:
        heads = [line for line in said.splitlines() if line.startswith("#")]
        BOUNDS.write_text("\n".join([*heads, *written(counts, bounds_in(said))]) + "\n")
        return 0
    if given.counts:
        rows = [*counts.items(), ("all", tuple(map(sum, zip(*counts.values()))))]
        print("\n".join(f"{name:32} {' '.join(f'{it:6}' for it in found)}" for name, found in [("document", HEADS), *rows]))
    found = list(differences(counts, bounds_in(said)))
    print("\n".join(found) or "no document has more of what the house wants less of")
    return 1 if found else 0


if __name__ == "__main__":
    sys.exit(main())
