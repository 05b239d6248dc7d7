#!/usr/bin/env python3
"""Gives crates one file proofs/Words.antt that passes on what their proofs name of other modules.

    python3 tools/words.py CRATE ..      rewrites the proofs of these crates
    python3 tools/words.py --all         and of all crates

Each proof file then has one `use` line for all of these names. A name that two modules share, or that a file takes under another name, stays where
it is. A name that a proof unfolds is passed on by `unfoldable pub use`. A second run finds nothing to do; words that no file names any more go.
"""
import collections
import pathlib
import re
import sys
from typing import Dict, List, Set, Tuple

TOP = pathlib.Path(__file__).resolve().parent.parent
USE = re.compile(r"use (Rattle\.[\w.+]+)\.\{([^{}]*)\}\s*$")
PASSED_ON = re.compile(r"(?:unfoldable )?pub use (Rattle\.[\w.+]+)\.\{([^{}]*)\}\s*$")
NOT_REWRITTEN = {"Lib.antt", "Words.antt"}


def names_of(text: str) -> List[str]:
    return [name.strip() for name in text.split(",")]


def homes_in(words: pathlib.Path) -> Dict[str, str]:
    """The module that each word of an earlier run comes from."""
    found = (PASSED_ON.match(line) for line in words.read_text().splitlines()) if words.exists() else ()
    return {name: line[1] for line in found if line for name in names_of(line[2])}


class Proofs:
    """The proof files of a crate, and where each name that they take from another crate or from its own specs comes from."""

    def __init__(self, crate: str):
        self.folder = TOP / "crates" / crate / "proofs"
        self.own = f"Rattle.{crate}.proofs"
        self.files = [file for file in sorted(self.folder.rglob("*.antt")) if file.name not in NOT_REWRITTEN]
        self.earlier = homes_in(self.folder / "Words.antt")
        self.shared: Set[str] = set()
        self.words: Dict[str, Set[str]] = collections.defaultdict(set)
        self.unfolded: Set[str] = set()

    def find_shared(self) -> None:
        """Finds the names that two modules share."""
        home: Dict[str, Tuple[str, str]] = {name: (module, name) for name, module in self.earlier.items()}
        for file in self.files:
            for line in file.read_text().split("\n"):
                found = USE.match(line)
                if found and not found[1].startswith(self.own):
                    for name in names_of(found[2]):
                        key = name.split(" as ")[-1].strip()
                        if home.setdefault(key, (found[1], name)) != (found[1], name):
                            self.shared.add(key)

    def take(self, module: str, names: str) -> Tuple[List[str], List[str]]:
        """Takes the names of an import, and gives those that are words now, and those that stay."""
        taken, stay = [], []
        for name in names_of(names):
            if " as " in name or name in self.shared:
                stay.append(name)
                continue
            self.words[module].add(name)
            taken.append(name)
        return taken, stay

    def rewrite(self, file: pathlib.Path) -> None:
        """Writes one import in place of those of other modules."""
        kept: List[str] = []
        named: List[str] = []
        at = -1
        for line in file.read_text().split("\n"):
            found = USE.match(line)
            if found and found[1] == f"{self.own}.Words":
                at = len(kept) if at < 0 else at
                for name in names_of(found[2]):
                    self.words[self.earlier[name]].add(name)
                    named.append(name)
            elif found and not found[1].startswith(self.own):
                at = len(kept) if at < 0 else at
                taken, stay = self.take(found[1], found[2])
                named += taken
                if stay:
                    kept.append(f"use {found[1]}.{{{', '.join(stay)}}}")
            else:
                kept.append(line)
        self.note_unfolded(kept)
        if named:
            kept.insert(at, f"use {self.own}.Words.{{{', '.join(dict.fromkeys(named))}}}")
        file.write_text("\n".join(kept))

    def note_unfolded(self, lines: List[str]) -> None:
        """Notes the names that proofs unfold."""
        for line in lines:
            if re.match(r"\s*unfolding ", line):
                self.unfolded.update(line.split()[1:])
            for found in re.finditer(r"\bunfold ([\w◌+\- ]+?) in", line):
                self.unfolded.update(found[1].split())

    def write_words(self) -> None:
        """Writes the file of words, and names it in the crate's list."""
        out = ["-- The words of other modules that this crate's proofs use."]
        for module in sorted(self.words):
            for start, names in (("pub use", self.words[module] - self.unfolded), ("unfoldable pub use", self.words[module] & self.unfolded)):
                if names:
                    out.append(f"{start} {module}.{{{', '.join(sorted(names))}}}")
        (self.folder / "Words.antt").write_text("\n".join(out) + "\n")
        listed = self.folder / "Lib.antt"
        if not re.search(r"(?m)^mod Words$", listed.read_text()):
            listed.write_text("mod Words\n" + listed.read_text())


def main(wanted: List[str]) -> int:
    if wanted == ["--all"]:
        wanted = sorted(folder.parent.name for folder in (TOP / "crates").glob("*/proofs"))
    for crate in wanted:
        proofs = Proofs(crate)
        proofs.find_shared()
        for file in proofs.files:
            proofs.rewrite(file)
        proofs.write_words()
    return 0 if wanted else 64


if __name__ == "__main__":
    sys.exit(main(sys.argv[1:]))
