#!/usr/bin/env python3
"""Prints for each promise of proved.md and algorithm.md where it is carried, and the must-fail edits that its clauses refuse.

    python3 tools/edits_of_promises.py [--missing]

Which clauses refuse an edit is in refused.txt. An edit of a crate of the promise's section goes with the promise if all names of one of its clauses
are in the promise's row, and an edit of another crate if they are definitions there. A law is a function without a body, so no edit can turn
it. refused.txt lists the other promises that no body can turn. With --missing only the promises with no edit are printed, and lines of that list that
aren't needed; the status is 1 if there are any.
"""
import collections
import re
import sys

from check_promises import EDITS, NAME, REFUSED, ROWS, TOP, code_of

NO_EDIT, NO_BODY, A_LAW = ["no edit"], ["no body can turn it"], ["a law"]


def parts(name):
    """Whose a name is, and its last part: of `Record.field` or `Type::function` both, and else the name alone."""
    return re.fullmatch(r"(?:(.*)(?:::|\.))?(\w+)", name).groups()


def is_law(crates, name):
    """Whether a name is that of a function with an empty body."""
    law = rf"(?ms)^pub fn {re.escape(name)}\(\)\n[^}}]*\{{[^}}]*\}}\n\{{\n?\}}"
    return any(re.search(law, text) for crate in crates for text in code_of(crate))


def clauses_of_edits():
    """The edits of refused.txt, each with its crate and the names of each clause that refuses it."""
    for crate, edit, refused in REFUSED.findall(EDITS.read_text()):
        yield from ((crate, edit, NAME.findall(clause)) for clause in refused.split("; "))


def without_body():
    """The names that carry the promises that no body can turn, by refused.txt."""
    return [NAME.findall(names) for names in re.findall(r"(?m)^no body: (.*?): [^`]", EDITS.read_text())]


def is_in(name, names):
    """Whether a name is in a row, which names an owner once for all that is the owner's."""
    owner, member = parts(name)
    if owner is None:
        return any(parts(other)[1] == member for other in names)
    return name in names or member in names and any(parts(other)[0] == owner for other in names)


def is_shown(crate, clause, spoken_of, names):
    """Whether a clause of a crate is one of a promise that these names carry, in a section that speaks of some crates."""
    if crate not in spoken_of and not all(name[0].isupper() and "::" not in name for name in clause):
        return False
    return all(is_in(name, names) for name in clause)


def promises(proved):
    """Each promise of a document, with the names where it is carried, and what shows it."""
    clauses, bodiless = list(clauses_of_edits()), without_body()
    for section in re.split(r"(?m)^### ", proved)[1:]:
        spoken_of = re.findall(r"\w+", section.split("\n")[0].split(":")[0])
        crates = [crate for crate in spoken_of if (TOP / "crates" / crate / "src").is_dir()]
        for row in re.findall(r"(?m)^\|.*\|$", section.partition("| Promise |")[2])[1:]:
            promise, names = row.strip("| ").split(" | ")[0], NAME.findall(row.rpartition(" | ")[2])
            calls = [name for name in names if name[0].islower()]
            shown = [f"{crate}/{edit}" for crate, edit, clause in clauses if is_shown(crate, clause, spoken_of, names)]
            if not shown and calls and all(is_law(crates, name) for name in calls):
                shown = A_LAW
            yield promise, names, list(dict.fromkeys(shown)) or (NO_BODY if names in bodiless else NO_EDIT)


def main():
    found = [promise for document in ROWS for promise in promises((TOP / "docs/maintainers" / document).read_text())]
    missing = [f"no edit for the promise in {', '.join(names)}" for _, names, shown in found if shown == NO_EDIT]
    needed = [names for _, names, shown in found if shown == NO_BODY]
    missing += [f"refused.txt: no promise needs the line {', '.join(names)}" for names in without_body() if names not in needed]
    if sys.argv[1:] != ["--missing"]:
        for promise, names, shown in found:
            print(f"{promise}\n    {', '.join(names)}\n    {', '.join(shown)}")
        counts = collections.Counter(shown[0] if shown in (NO_EDIT, NO_BODY, A_LAW) else "an edit" for _, _, shown in found)
        print(f"{len(found)} promises: " + ", ".join(f"{count} with {what!r}" for what, count in counts.items()))
    print("\n".join(missing) if missing else "each promise has an edit, is a law, or is one that no body can turn")
    return 1 if missing else 0


if __name__ == "__main__":
    sys.exit(main())
