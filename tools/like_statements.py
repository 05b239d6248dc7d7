#!/usr/bin/env python3
"""Prints the lemmas that are stated more than once, whatever their variables are called.

    python3 tools/like_statements.py [CRATE ..]

The variables of a statement are numbered as they come, with those of the modules around it that it or its proof speaks of. Statements that
then have the same words are printed with their files and lines, those first whose lowest crate is first in crates.txt; with crates those alone that
are in one of them. Answers and invariants belong to one function, and what speaks of the variables of a proof to that proof: neither is compared.
The status is 1 where something is printed.
"""
import collections
import re
import sys

sys.dont_write_bytecode = True
from tables import TOP, crates

OF_A_FUNCTION = {"Answers.antt", "Invariants.antt", "Proof.antt", "Lib.antt"}
STATEMENT = re.compile(r"(?:pub )?([^\s:(){}|]+) : (.*)")
MODULE = re.compile(r"(?:pub )?module \S+ (.*)")
GROUP = re.compile(r"[({]([^\s:(){}λ→]+(?: [^\s:(){}λ→]+)*) : ")
WORD = re.compile(r"[^\s(){},.;]+|[(){},.;]")
PLAIN = re.compile(r"[^\W\d_#][\w'-]*")
USED = re.compile(r"(?m)^(?:pub )?use \S*?\{(.*?)\}", re.S)


def closing(text, start):
    """The place of the bracket that closes the one at a place."""
    depth = 0
    for place in range(start, len(text)):
        depth += (text[place] in "({") - (text[place] in ")}")
        if depth == 0:
            return place
    return len(text)


def variables(text):
    """The text of a statement with each group of variables one by one, and these variables, each with its type."""
    found, place = [], 0
    while group := GROUP.search(text, place):
        end = closing(text, group.start())
        kind, rest = text[group.end() : end], text[end + 1 :].lstrip()
        rest = rest[1:] if rest.startswith("→") else rest
        each = [f"({name} : {kind}) " for name in group[1].split()]
        found += [(name, kind) for name in group[1].split()]
        text, place = text[: group.start()] + "".join(each) + rest, group.start() + len(f"({group[1].split()[0]} : ")
    return text, found


class Item:
    """A statement: its place, its name, its words and those of its proof, and the variables of the modules around it."""

    def __init__(self, line, indent, name, statement, around):
        self.line, self.indent, self.name, self.around, self.is_local = line, indent, name, around, False
        self.statement, self.words = statement, set(WORD.findall(statement))


def items(text):
    """The statements of a file."""
    modules, found, last, record = [], [], None, None
    for number, line in enumerate(text.split("\n"), 1):
        words, indent = line.strip(), len(line) - len(line.lstrip())
        if not words or words.startswith(("--", "use ", "pub use ")):
            continue
        if last and indent > last.indent and last.is_open and not STATEMENT.match(words):
            last.statement += " " + words
        modules = [it for it in modules if it[0] < indent]
        record = None if record is not None and indent <= record else record
        if head := MODULE.match(words):
            modules.append((indent, variables(head[1])[1]))
        elif words.startswith(("record ", "pub record ", "data ", "pub data ")):
            record = indent
        elif record is None and (head := STATEMENT.match(words)):
            last = Item(number, indent, head[1], head[2], [it for _, given in modules for it in given])
            last.is_open, last.is_local = True, indent > (modules[-1][0] + 2 if modules else 0)
            found.append(last)
            continue
        elif last and indent <= last.indent:
            last.is_open = False
        if last:
            last.words |= set(WORD.findall(line))
    return found


def spoken_of(item, named):
    """The variables of the modules around a statement that it, its proof or a lemma of these speaks of."""
    words, seen, new = set(item.words), set(), set(item.words) & set(named)
    while new:
        seen |= new
        words |= {word for name in new for word in named[name].words}
        new = words & set(named) - seen
    needed = []
    for name, kind in reversed(item.around):
        if name in words:
            needed.insert(0, f"({name} : {kind}) ")
            words |= set(WORD.findall(kind))
    return "".join(needed)


def like(statement):
    """A statement with its variables numbered, and without the names of those that it doesn't speak of again."""
    text, bound = variables(statement)
    names = {name for name, _ in bound} | {name for group in re.findall(r"λ ([^.(]+)\.", text) for name in group.split()}
    numbers = {}
    text = " ".join(f"#{numbers.setdefault(word, len(numbers))}" if word in names else word for word in WORD.findall(text))
    once = {name for name, count in collections.Counter(re.findall(r"#\d+", text)).items() if count == 1}
    return re.sub(r"#\d+", lambda word: "#" if word[0] in once else word[0], text)


def statements():
    """Each statement of the crates' lemmas, with its place."""
    for crate, _ in crates():
        for path in sorted((TOP / "crates" / crate / "proofs").rglob("*.antt")):
            if path.name in OF_A_FUNCTION:
                continue
            text = path.read_text()
            found = items(text)
            named = {item.name: item for item in found if not item.is_local}
            known = {name.strip() for names in USED.findall(text) for name in names.split(",")} | set(named) | {"Type"}
            for item in found:
                shown = like(spoken_of(item, named) + item.statement)
                if re.search(r"#|⊥|≡", shown.rpartition("→")[2]) and (not item.is_local or set(PLAIN.findall(re.sub(r"\.\s\w+", "", shown))) <= known):
                    yield shown, f"{path.relative_to(TOP)}:{item.line} {item.name}"


def main(wanted):
    found = collections.defaultdict(list)
    for statement, place in statements():
        found[statement].append(place)
    twice = [places for places in found.values() if len(places) > 1]
    if wanted:
        twice = [places for places in twice if any(place.split("/")[1] in wanted for place in places)]
    print("\n".join("; ".join(places) for places in twice) or "no lemma is stated twice")
    return 1 if twice else 0


if __name__ == "__main__":
    sys.exit(main(sys.argv[1:]))
