#!/usr/bin/env python3
"""Checks that what the documents name is there.

- In proved.md each name in backticks after a link to a file must be defined there. A name that is no function of a source file is a clause of the
  function named before it.
- In the tables below a heading that names crates each name in the right column must be a definition, a function, a clause or a field of one of them.
- In definitions.md each name must be defined in a file that its row links.
- refused.txt must have just the edits of each crate's must-fail/, and each name there must be in that crate, or be a definition.
- In laws.md each block of definitions must be in the file that is linked last before it. All of building_laws must be in one, or in definitions.md.
- The files of lemmas that contributing.md maps must be in `proofs/` of the crate named before them.
- In every document each link must lead to a file, and to a heading of it; and the numbers of a list must count up by one.
- The tables of codes and of statuses in formats.md must have just the numbers of `Code` and of `Status`, and these have each number once.
- names_of_two.txt must have just the names that two modules of definitions define, and the types of two crates.
- The numbers in the prose of some pages must be shown by something (`shown_numbers.py`).
- The parts of documents that are made from the sources must be as these are (`made_parts.py`), and the tables of speed.md as what `bench/run` keeps.

And it checks what can be told from the text alone:

- Each definition must have words above it (`tables.py`).
- A crate of `crates.txt` must use each crate that its line lists.
- A source file must have at most 400 lines, and a function's body at most 50, but for those that are listed here as too long.

    python3 tools/check_promises.py

It prints what is missing, and its status is 1 where something is.
"""
import collections
import functools
import pathlib
import re
import sys

TOP = pathlib.Path(__file__).resolve().parent.parent
sys.dont_write_bytecode = True
sys.path.append(str(TOP / "bench"))
import made_parts
import shown_numbers
import speed_page
import tables

MAINTAINERS = TOP / "docs/maintainers"
EDITS, SHARED_NAMES = TOP / "tools/refused.txt", TOP / "tools/names_of_two.txt"
REFUSED = re.compile(r"(?m)^(\w+)/(\w+): (.*)$")
LINK = re.compile(r"\[[^\[\]]*\]\(([^)\s]+)\)")
NAME = re.compile(r"`([A-Za-z_][\w:.]*)`")
ROWS = ("proved.md", "algorithm.md")
FILE_LIMIT, BODY_LIMIT = 400, 50
LONG_FILES = {"building_table/src/builder.rt", "residual_net/src/net.rt"}
LONG_BODIES = {"building_table/src/commands.rt: edit_of"}
PUBLIC = re.compile(r"(?m)^(?:(?:abbrev|unfoldable) )?pub (?:(?:record|data) )?(?!use |mod )(\S+)")
DEFINED = re.compile(r"(?m)^\s*(?:(?:abbrev|unfoldable|record|data|pub(?:\(crate\))?|struct|enum|trait|const|fn|type|ghost)\s+)+(\w+)")

USES = [re.compile(form) for form in (r"\bRattle\.(\w+)\.", r"\b(\w+)::", r"\buse (\w+)\b")]


@functools.cache
def read(path):
    """The text of a file, which is read once."""
    return path.read_text()


@functools.cache
def defined_in(text):
    """The names that a file defines."""
    return set(DEFINED.findall(text))


@functools.cache
def clauses_in(text):
    """The names of the clauses of each function of a source file."""
    clauses, function = collections.defaultdict(set), None
    for line in text.splitlines():
        if head := re.match(r"\s*(?:pub(?:\(crate\))? )?fn (\w+)", line):
            function = head[1]
            clauses[function].add("")
        elif clause := re.match(r"\s+ensures (\w+) \{", line):
            clauses[function].add(clause[1])
    return clauses


@functools.cache
def fields_in(text):
    """The fields of each record of a specification."""
    blocks = re.findall(r"(?ms)^(?:pub )?record (\w+)\b(.*?)(?=\n\S|\Z)", text)
    return {owner: set(re.findall(r"(?m)^\s+pub (\w+)\s*:", block)) for owner, block in blocks}


@functools.cache
def owners_in(text):
    """The words of the heads of the `impl` blocks of a source file."""
    return {word for head in re.findall(r"(?m)^impl\b.*", text) for word in re.findall(r"\w+", head)}


def clause_of(text, function, clause):
    """Whether a function of a source file has a clause of this name."""
    return clause in clauses_in(text).get(function, ())


def member_of(text, owner, member):
    """Whether a record of a specification, or an impl of a source file, has a member of this name."""
    return member in fields_in(text).get(owner, ()) or (owner in owners_in(text) and member in clauses_in(text))


def is_defined(text, name):
    """Whether a file defines a name, which may be a member as `Record.field` or `Type::function`."""
    parts = re.split(r"::|\.", name)
    if len(parts) == 2:
        return member_of(text, *parts)
    return name in defined_in(text)


def text_of(document, target):
    """The text of a linked file of the code, or nothing."""
    path = (document.parent / target.split("#")[0]).resolve()
    return read(path) if path.suffix in (".rt", ".antt") and path.is_file() else None


def missing_promises(document):
    """Names of proved.md that the file linked before them doesn't have."""
    for number, line in enumerate(document.read_text().split("\n"), 1):
        links = list(LINK.finditer(line))
        for link, after in zip(links, links[1:] + [None]):
            text, function = text_of(document, link[1]), None
            for name in NAME.findall(line[link.end() : after.start() if after else None]) if text else []:
                if is_defined(text, name):
                    function = re.split(r"::", name)[-1]
                elif not (function and clause_of(text, function, name)):
                    yield f"{document.name}:{number}: {link[1]} has no {name}"


def missing_definitions(document):
    """Names of a row of definitions.md that no file linked there has."""
    for row in document.read_text().splitlines():
        texts = [text for text in (text_of(document, link) for link in LINK.findall(row)) if text]
        for name in NAME.findall(row) if texts else []:
            if not any(is_defined(text, name) or re.search(rf"(?m)^\s+(?:pub )?{name}\b", text) for text in texts):
                yield f"{document.name}: no file of its row has {name}"


def missing_lemmas(document):
    """Files of lemmas that contributing.md maps, and their crate doesn't have."""
    table = document.read_text().partition("| Statement | Files |")[2].partition("\n\n")[0]
    for row in table.splitlines()[2:]:
        for crate, files in re.findall(r"(\w+): ((?:`\w+`[, ]*)+)", row):
            for name in NAME.findall(files):
                if not (TOP / "crates" / crate / "proofs" / f"{name}.antt").is_file():
                    yield f"{document.name}: {crate} has no lemmas {name}"


def code_of(crate):
    """The source files and specifications of a crate, as texts."""
    return [read(path) for part in ("src/**/*.rt", "specs/*.antt") for path in sorted((TOP / "crates" / crate).glob(part))]


def is_named(texts, name, before):
    """Whether some files define a name, or have it as a clause or a field of what a row named before it."""
    owners = [re.split(r"::|\.", other) for other in before]
    return any(
        is_defined(text, name)
        or any(clause_of(text, owner[-1], name) or member_of(text, owner[0], name) for owner in owners)
        for text in texts
    )


def missing_rows(document):
    """Names in the right column of a document's tables of promises that no crate of the section's heading has, nor one that the cell speaks of.

    A name that begins with a capital may be of any crate.
    """
    crates = {path.name: code_of(path.name) for path in (TOP / "crates").iterdir() if (path / "src").is_dir()}
    everywhere = [text for texts in crates.values() for text in texts]
    for section in re.split(r"(?m)^### ", document.read_text())[1:]:
        heading = section.split("\n")[0].split(":")[0]
        for row in (line for line in section.split("\n") if line.startswith("|")):
            cell = row.rstrip("|").split("|")[-1]
            spoken_of = [crate for crate in crates if re.search(rf"\b{crate}\b", heading) or f" of {crate} " in cell]
            texts = [text for crate in spoken_of for text in crates[crate]]
            names = NAME.findall(cell) if texts else []
            for place, name in enumerate(names):
                if not is_named(texts, name, names[:place]) and not (name[0].isupper() and is_named(everywhere, name, [])):
                    yield f"{document.name}: no {name} in the row {row[:60]}"


def missing_statements(document, definitions):
    """Parts of blocks in laws.md that the file linked last before them doesn't have, and definitions of building_laws that no block and no row has."""
    before, *blocks = document.read_text().split("```antt\n")
    for block in blocks:
        shown, _, after = block.partition("\n```")
        files = [text for text in (text_of(document, link) for link in LINK.findall(before)) if text]
        yield from (f"{document.name}: no {part[:60]!r}" for part in shown.split("\n\n") if not files or part not in files[-1])
        before += after
    shown = PUBLIC.findall("\n".join(block.partition("\n```")[0] for block in blocks))
    rows = NAME.findall("\n".join(line for line in definitions.read_text().splitlines() if "/building_laws/" in line))
    laws = [read(path) for path in sorted((TOP / "crates/building_laws/specs").glob("*.antt"))]
    missing = [name for text in laws for name in PUBLIC.findall(text) if name not in {*shown, *rows}]
    yield from (f"{document.name}: {name} isn't read aloud" for name in missing)


def edits_of(document):
    """For each crate of refused.txt its edits, each with the names of what refuses it."""
    listed = collections.defaultdict(dict)
    for crate, edit, refused in REFUSED.findall(document.read_text()):
        listed[crate][edit] = NAME.findall(refused)
    return dict(listed)


def wrong_edits(document):
    """Edits of crates that refused.txt doesn't have, those that no crate has, and names that aren't there."""
    listed = edits_of(document)
    everywhere = [text for path in (TOP / "crates").iterdir() for text in code_of(path.name)]
    for crate in sorted({path.parent.parent.name for path in TOP.glob("crates/*/must-fail/*.edit")} | set(listed)):
        edits, texts = listed.get(crate, {}), code_of(crate)
        there = {path.stem for path in (TOP / "crates" / crate).glob("must-fail/*.edit")}
        yield from (f"{document.name}: no edit {edit} of {crate}" for edit in sorted(there - set(edits)))
        yield from (f"{document.name}: {crate} has no edit {edit}" for edit in sorted(set(edits) - there))
        for edit, names in edits.items():
            for place, name in enumerate(names):
                if not is_named(texts, name, names[:place]) and not (name[0].isupper() and is_named(everywhere, name, [])):
                    yield f"{document.name}: no {name} for the edit {edit} of {crate}"


def headings(path):
    """The anchors of a document's headings."""
    return {re.sub(r"[^\w\- ]", "", line.lower()).replace(" ", "-") for line in re.findall(r"(?m)^#+ (.*)$", path.read_text())}


def missing_links(document):
    """Links of a document that lead nowhere."""
    for target in LINK.findall(re.sub(r"(?ms)^```.*?^```|`[^`\n]*`", "", document.read_text())):
        if "://" in target:
            continue
        name, _, anchor = target.partition("#")
        path = (document.parent / name).resolve() if name else document
        if not path.exists() or anchor and anchor not in headings(path):
            yield f"{document.name}: no {target}"


def misnumbered(document):
    """Numbers of a list that aren't one more than that before."""
    before, text = 0, re.sub(r"(?ms)^```.*?^```", "", document.read_text())
    for line in text.splitlines():
        if found := re.match(r"(\d+)\. ", line):
            if int(found[1]) not in (1, before + 1):
                yield f"{document.name}: {found[1]} after {before} in a list"
            before = int(found[1])
        elif line.strip() and not line.startswith(" "):
            before = 0


def rows_of(document, title):
    """The numbers in the first column of a document's tables whose first heading is this, or in the second one after `Command`."""
    tables = re.findall(rf"(?m)^\| (?:Command \| )?{title} \|.*\n\|[-| :]+\|\n((?:\|.*\n)*)", document.read_text())
    return [int(number) for table in tables for number in re.findall(r"(?m)^\| (?:`\w+` \| )?(\d+) \|", table)]


def wrong_numbers(title, specification, function, document):
    """What differs between the numbers that a definition gives by cases and those of a document's tables with this heading."""
    cases = [int(number) for number in re.findall(rf"(?m)^{function} \w+ = (\d+)$", (TOP / "crates" / specification).read_text())]
    if not cases:
        yield f"{specification}: no number of {function}"
    yield from (f"{specification}: {number} is twice in {function}" for number in sorted(set(cases)) if cases.count(number) > 1)
    rows = rows_of(document, title)
    yield from (f"{document.name}: no row {number} in a table headed {title}" for number in sorted(set(cases) - set(rows)))
    yield from (f"{document.name}: {function} has no {number}, which a table headed {title} has" for number in sorted(set(rows) - set(cases)))


def sources(part):
    """The files of a part of all crates, as their crate, their name below `crates/` and their text."""
    for path in sorted((TOP / "crates").glob(f"*/{part}")):
        name = path.relative_to(TOP / "crates")
        yield name.parts[0], name.as_posix(), read(path)


def names_of_two():
    """The names that two modules of definitions define, and the types of two crates without those of tests, each with its crates."""
    modules, types = collections.defaultdict(set), collections.defaultdict(set)
    for crate, file, text in sources("specs/*.antt"):
        for name in PUBLIC.findall(text):
            modules[name].add((crate, file))
    for crate, _, text in sources("src/**/*.rt"):
        if not crate.startswith("worked_"):
            for name in re.findall(r"(?m)^(?:pub(?:\(crate\))? )?(?:struct|enum|trait|type) (\w+)", text):
                types[name].add((crate, crate))
    return {
        name: {crate for crate, _ in places}
        for names in (types, modules)
        for name, places in names.items()
        if len(places) > 1
    }


def wrong_names(document):
    """What differs between these names and the lines of names_of_two.txt."""
    listed = {}
    for names, crates in re.findall(r"(?m)^(`.*`): (.*)$", document.read_text()):
        listed.update((name, set(crates.replace(",", " ").split())) for name in re.findall(r"`([^`]+)`", names))
    found = names_of_two()
    for name in sorted(set(found) | set(listed)):
        if found.get(name) != listed.get(name):
            where = f"is in {', '.join(sorted(found[name]))}" if name in found else "has one module"
            yield f"{document.name}: {name} {where}, and the list of names says otherwise"


def unused_crates():
    """Crates that a line of `crates.txt` lists and no file of its crate names."""
    for line in (TOP / "crates.txt").read_text().splitlines():
        crate, _, below = line.split("#")[0].partition(":")
        folder = TOP / "crates" / crate.strip()
        files = [path for part in ("src", "specs", "proofs") for path in (folder / part).rglob("*") if path.suffix in (".rt", ".antt")] if below else []
        used = {name for path in files for form in USES for name in form.findall(read(path))}
        yield from (f"crates.txt: {crate.strip()} doesn't use {name}" for name in below.split() if name not in used)


def bodies(text):
    """The functions of a source file that have a body, each with the number of its lines."""
    lines = text.split("\n")
    heads = {place: head for place, line in enumerate(lines) if (head := re.match(r"( *)(?:pub(?:\(crate\))? )?(?:const )?fn (\w+)", line))}
    for start, head in heads.items():
        for place in range(start, len(lines)):
            line = lines[place]
            if line == head[1] + "{" or line.endswith(" {") and (place == start or line.startswith(head[1] + ")")):
                yield head[2], lines.index(head[1] + "}", place) - place - 1
                break
            if place > start and place in heads:
                break


def too_long():
    """Source files and bodies that are longer than the house allows, and what is listed as too long and isn't."""
    found = set()
    for _, file, text in sources("src/**/*.rt"):
        if len(text.splitlines()) > FILE_LIMIT:
            found.add(file)
        found.update(f"{file}: {name}" for name, length in bodies(text) if length > BODY_LIMIT)
    allowed = LONG_FILES | LONG_BODIES
    yield from (f"crates/{name} is too long" for name in sorted(found - allowed))
    yield from (f"crates/{name} isn't too long any more: take it off the list" for name in sorted(allowed - found))


def main():
    documents = [TOP / "README.md", *sorted((TOP / "docs").glob("*/*.md"))]
    missing = [fault for document in documents for fault in (*missing_links(document), *misnumbered(document))]
    missing += missing_promises(MAINTAINERS / "proved.md")
    missing += missing_definitions(MAINTAINERS / "definitions.md")
    missing += [row for name in ROWS for row in missing_rows(MAINTAINERS / name)]
    missing += missing_lemmas(MAINTAINERS / "contributing.md")
    missing += missing_statements(MAINTAINERS / "laws.md", MAINTAINERS / "definitions.md")
    missing += wrong_edits(EDITS)
    missing += wrong_numbers("Code", "evac_law/specs/Codes.antt", "code_number", TOP / "docs/users/formats.md")
    missing += wrong_numbers("Status", "talk/specs/Statuses.antt", "status_number", TOP / "docs/users/formats.md")
    missing += wrong_names(SHARED_NAMES)
    missing += [*made_parts.differences(), *tables.wordless(), *speed_page.differing(is_written=False)]
    missing += shown_numbers.differences(MAINTAINERS)
    missing += unused_crates()
    missing += too_long()
    print("\n".join(missing) if missing else "all that is named is there")
    return 1 if missing else 0


if __name__ == "__main__":
    sys.exit(main())
