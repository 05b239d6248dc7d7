"""The parts of the documents for maintainers that are made from the sources.

A part stands between `<!-- from: KIND NAME .. -->` and `<!-- end -->`. Its kind is one of these:

- `crates`: each crate of crates.txt with those that it uses, and the first sentence of its root file.
- `definitions CRATE: NAME ..`: the words above definitions of a crate, and above its public items; several crates are parted by `;`. A name is
  `*` for all definitions of specs/ that no law is.
- `laws NAME ..`: the statements of laws, each with its file. A law of another crate than building_laws is written `CRATE:NAME`.
"""
import functools
import re

import tables
from tables import TOP

FOLDER = TOP / "docs/maintainers"
PART = re.compile(r"(?ms)^<!-- from: (crates|definitions|laws)\b ?(.*?) -->$.*?^<!-- end -->$")
LAW = re.compile(r"(?m)^pub fn (\w+)\(\)\n +ensures \{ (\w+) \}\n\{\}")
MOST_WORDS, ENOUGH_WORDS = 15, 5


class NotThere(Exception):
    """A part asks for a name that the sources don't have."""


def shortened(sentence):
    """A sentence of at most so many words: a longer one ends before a colon that says enough, or else before the last comma or `and` that fits."""
    sentence = sentence.rstrip(".")
    ends = {mark: [it.start() for it in re.finditer(mark, sentence)] + [len(sentence)] for mark in (":", "[,;:]", " and ")}
    for mark, least in ((":", ENOUGH_WORDS), ("[,;:]", 1), (" and ", 1)):
        fitting = [sentence[:end] for end in ends[mark] if least <= len(sentence[:end].split()) <= MOST_WORDS]
        if fitting:
            return fitting[-1] + "."
    return sentence + "."


def crates_part(_):
    """The table of crates."""
    rows = []
    for name, below in tables.crates():
        first = re.split(r"(?<=\.) (?=[A-Z])", tables.first_paragraph(name))[0]
        rows.append(f"| `{name}` | {', '.join(below) or 'none'} | {shortened(first)} |")
    return "\n".join(["| Crate | Uses | What it is |", "|---|---|---|", *rows])


def link(path):
    """A link to a file of a crate, from the folder of the documents."""
    return f"[{path.name}](../../{path})"


@functools.cache
def words_of(crate):
    """The definitions and public items of a crate: for each name its file and its words. A definition goes before an item of the same name."""
    found = {}
    for path, name, words, _ in tables.named():
        if path.parts[1] == crate and words and (name not in found or path.suffix == ".antt" and found[name][0].suffix != ".antt"):
            found[name] = (path, words)
    return found


def names_of(crate, names):
    """The names that a part lists of a crate: all of its specs/ that aren't laws for `*`."""
    if names != ["*"]:
        return names
    statements = {statement for _, statement in LAW.findall(laws_text(crate))}
    return [name for name, (path, _) in words_of(crate).items() if path.suffix == ".antt" and name not in statements]


def definitions_part(words):
    """A table of definitions with the words above them."""
    rows = []
    for listed in words.split(";"):
        crate, _, names = listed.partition(":")
        for name in names_of(crate.strip(), names.split()):
            if name not in words_of(crate.strip()):
                raise NotThere(f"{crate.strip()} has no words above {name}")
            path, said = words_of(crate.strip())[name]
            said = re.sub(r"`([^`]*)`", r"*\1*", said).replace("|", r"\|")
            rows.append(f"| [`{name}`](../../{path}) | {said} |")
    return "\n".join(["| In the code | What it is |", "|---|---|", *rows])


def laws_text(crate):
    """The file of a crate's laws, or nothing."""
    path = TOP / "crates" / crate / "src/laws.rt"
    return re.sub(r"(?m)^#\[.*\]\n", "", path.read_text()) if path.is_file() else ""


def statement_of(crate, law):
    """The file that states a law, and its lines there with the words above."""
    statement = dict(LAW.findall(laws_text(crate))).get(law)
    for path in sorted((TOP / "crates" / crate / "specs").glob("*.antt")):
        found = re.search(rf"(?m)(?:^-- .*\n)*^(?:abbrev )?pub {statement} : Type 0\n(?:.+\n?)+", path.read_text()) if statement else None
        if found:
            return path.relative_to(TOP), found[0].rstrip("\n")
    raise NotThere(f"{crate} has no law {law}")


def laws_part(words):
    """The names of laws, the files that state them, and their statements."""
    found = [(law, *statement_of(crate or "building_laws", law)) for crate, _, law in (it.rpartition(":") for it in words.split())]
    files = list(dict.fromkeys(path for _, path, _ in found))
    names = ", ".join(f"`{law}`" for law, _, _ in found)
    shown = "\n\n".join(text for _, _, text in found)
    return f"{names}, in {' and '.join(map(link, files))}:\n\n```antt\n{shown}\n```"


KINDS = {"crates": crates_part, "definitions": definitions_part, "laws": laws_part}


def made(text):
    """A document with its parts made anew. Raises NotThere."""
    return PART.sub(lambda it: f"<!-- from: {' '.join(it.groups()).strip()} -->\n\n{KINDS[it[1]](it[2])}\n\n<!-- end -->", text)


def pages():
    """The documents that may have such parts."""
    return sorted(FOLDER.glob("*.md"))


def unshown_laws():
    """Laws of building_laws that no part of laws.md shows, by their names."""
    shown = {name for words in re.findall(r"(?m)^<!-- from: laws (.*?) -->$", (FOLDER / "laws.md").read_text()) for name in words.split()}
    return [name for name, _ in LAW.findall(laws_text("building_laws")) if name not in shown]


def differences():
    """What a check finds."""
    for page in pages():
        try:
            if made(page.read_text()) != page.read_text():
                yield f"{page.name}: a part isn't made from the sources as they are: python3 tools/tables.py --write"
        except NotThere as fault:
            yield f"{page.name}: {fault}"
    yield from (f"laws.md: {name} isn't read aloud" for name in unshown_laws())
    if not re.search(r"(?m)^<!-- from: definitions .*\bbuilding_laws: \* -->$", (FOLDER / "definitions.md").read_text()):
        yield "definitions.md: no part has all definitions of building_laws"


def write():
    """Makes the parts of all documents anew."""
    for page in pages():
        page.write_text(made(page.read_text()))
