#!/usr/bin/env python3
"""Counts the clauses that only say that a value is one of its kind, wide clauses, and imports.

    python3 tools/facts.py [COPY]

COPY is the top of a copy of the repository; without it this one is read. Crates of tests don't count. A clause that says several facts counts in
each of their rows, and once in the sum. Each number is there to be compared with that of another commit: none of them is a limit.
"""
import pathlib
import re
import sys
from collections import Counter
from typing import Dict, List, Set

sys.dont_write_bytecode = True
from clauses import TOP, Clause, all_clauses

OF_TESTS = ("worked_", "tests_")
WIDE = 160  # columns
FACTS: Dict[str, str] = {
    "IsValid": r"\bIsValid\b",
    "IsTableOf": r"\bIsTableOf\b",
    "Fits, Stands": r"\b(Fits|Stands)\b",
    "sizes": r"\.sizes ≡|≡ (self|net|residual)[\w.]*\.sizes|length cells",
    "IsFlooding, IsGrown": r"\bIsFlooding\b|\bIsGrown\b",
    "IsDesk": r"\bIsDesk\b",
    "IsReady": r"\bIsReady\b",
    "IsWithinLimits, IsNet": r"\bIsWithinLimits\b|\bIsNet\b",
    "IsGrid": r"\bIsGrid\b",
    "NamesFit": r"\bNamesFit\b",
    "IsName": r"\bIsName\b",
    "others": r"\b(IsSmall|IsDraft|IsSameSite|KeepsSink|IsMarks|AreBuffers|KeepsBuffers|IsSummable|AreTrueCounts)\b|input_limit",
    "read faults": r"ReadFault.*\b(Rose|faults)\b",
}
OF_A_BOUND = re.compile(r"\b[A-Z]\w*\.(held|faults|left)\b")
IMPORT = re.compile(r"\s*(pub |unfoldable )*use ")


def facts(clauses: List[Clause]) -> None:
    """Prints how many clauses say each fact, and in how many files."""
    seen: Set[int] = set()
    for name, pattern in FACTS.items():
        found = [place for place, clause in enumerate(clauses) if re.search(pattern, clause.text)]
        seen.update(found)
        print(f"  {name:24}{len(found):5} in {len({clauses[place].file for place in found}):3} files")
    print(f"  {'all, each once':24}{len(seen):5}")


def wide(clauses: List[Clause]) -> None:
    """Prints the crates with clauses that are too wide to be read in one line."""
    all_of = Counter(clause.crate for clause in clauses)
    for crate, count in Counter(clause.crate for clause in clauses if len(clause.text) > WIDE).most_common():
        print(f"  {crate:24}{count:5} of {all_of[crate]}")


def imports(top: pathlib.Path, kind: str) -> None:
    """Prints the lines of all definitions, or of all proofs, and how many of them are imports."""
    lines = [line for file in (top / "crates").glob(f"*/{kind}/**/*.antt") for line in file.read_text().splitlines()]
    print(f"{kind}: {len(lines)} lines, {sum(bool(IMPORT.match(line)) for line in lines)} imports")


def main(words: List[str]) -> int:
    top = pathlib.Path(words[0]) if words else TOP
    clauses = [clause for clause in all_clauses(top) if not clause.crate.startswith(OF_TESTS)]
    print(f"{len(clauses)} clauses; those that say a fact of a type:")
    facts(clauses)
    print(f"with a bound's held, faults or left: {sum(bool(OF_A_BOUND.search(clause.text)) for clause in clauses)}")
    print(f"past {WIDE} columns:")
    wide(clauses)
    imports(top, "proofs")
    imports(top, "specs")
    return 0


if __name__ == "__main__":
    sys.exit(main(sys.argv[1:]))
