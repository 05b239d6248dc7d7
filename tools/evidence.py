#!/usr/bin/env python3
"""Compares sentences of the documents with what the program and the sources say.

    python3 tools/evidence.py [--program PATH] [--counts]

tools/evidence.txt has, below the name of a document, sentences of it and what shows each:

    docs/users/guide.md
    > A sentence, word for word, or a part of one with all its numbers. Line breaks and the signs of links and bold text don't count.
    $ COMMAND
    a line that the command must print, whole or as a part of a line

A line `- WHY` in place of the command says that the numbers were measured or taken from elsewhere, and nothing is run.

- Each sentence must be in its document, and each line in what its commands print.
- Each number of a sentence must be in its commands or in the lines below them, or have a line `-`.
- Each sentence of a listed document for users that has a number outside of code must be in the file. Blocks, headings, generated tables, and tables
  whose commands replay.py runs are left out.

What fails is printed, and the status is 1 then. With `--counts` the sentences of each document are counted too.
"""
import argparse
import os
import pathlib
import re
import subprocess
import sys
import tempfile
from concurrent.futures import ThreadPoolExecutor
from dataclasses import dataclass, field

sys.dont_write_bytecode = True

TOP = pathlib.Path(__file__).resolve().parent.parent
EVIDENCE, PROGRAM = TOP / "tools/evidence.txt", TOP / "crates/evacplan/out/evacplan"
NUMBER = re.compile(r"(?<![\w.:-])\d[\d,]*(?:\.\d+)?(?![\w.:]*\w)")
MADE = re.compile(r"(?ms)^<!-- from: .*?^<!-- end -->|^<!-- (?:codes|language|validation|figures): \w+ -->\n\n?(?:\|[^\n]*\n)+")
RUN = re.compile(r"(?m)^\| Question \| Command \|.*\n(?:\|.*\n)+")


@dataclass
class Entry:
    """A sentence of a document, the number of its line in the file of evidence, and what shows it."""

    document: str
    line: int
    sentence: str
    commands: list = field(default_factory=list)
    shown: list = field(default_factory=list)
    why: str = ""


def flat(text):
    """A text without line breaks and without signs of layout."""
    return " ".join(re.sub(r"\]\([^)]*\)", "]", text).replace("**", "").replace("[", "").replace("]", "").split())


def numbers(text):
    """The numbers of a text outside of code, without the signs between their digits."""
    return {it.replace(",", "") for it in NUMBER.findall(re.sub(r"`[^`]*`", "", text))}


def parted(text):
    """The sentences of a flat text; a row of a table is at least one."""
    return [it.strip("| ") for it in re.split(r"(?<=[.?!:]) +(?=[A-Z0-9`])|(?<=\|) (?=\|)", text)]


def sentences(text):
    """The sentences of a document that aren't in code, headings, generated parts or tables whose commands are run elsewhere; a row of a table is one."""
    text = re.sub(r"(?ms)^```.*?^```", "\n\n", RUN.sub("", MADE.sub("", text)))
    for block in re.split(r"\n\s*\n|\n(?=\s*[-|>] )|\n(?=\s*\d+\. )|\n(?=\|)", text):
        block = re.sub(r"^\s*(?:\d+\.|[-|>])\s|\|\s*$", "", block.strip())
        if not block.startswith("#"):
            yield from (it for it in parted(flat(block)) if re.search("[a-z]{2}", it))


def entries(text):
    """What a file of evidence has."""
    document, found = "", []
    for number, line in enumerate(text.split("\n"), 1):
        if line.startswith("> "):
            found.append(Entry(document, number, flat(line[2:])))
        elif line.startswith("$ "):
            found[-1].commands.append(line[2:])
        elif line.startswith("- "):
            found[-1].why = line[2:]
        elif re.fullmatch(r"[\w/]+\.md", line):
            document = line
        elif line and not line.startswith("# "):
            found[-1].shown.append(line)
    return found


class Runner:
    """Runs commands in a folder that has the repository and the program. What a command printed once is kept."""

    def __init__(self, program, folder):
        self.folder, self.kept = folder, {}
        self.settings = {**os.environ, "EVACPLAN": str(program), "PYTHONPYCACHEPREFIX": str(folder / ".compiled")}
        self.settings.pop("PYTHONDONTWRITEBYTECODE", None)
        for it in TOP.iterdir():
            if it.name != "evacplan":
                (folder / it.name).symlink_to(it)
        (folder / "evacplan").symlink_to(program)

    def printed(self, command):
        """What a command prints, with one space in place of blanks and line ends."""
        if command not in self.kept:
            ran = subprocess.run(["bash", "-c", command], cwd=self.folder, capture_output=True, env=self.settings)
            self.kept[command] = " ".join(ran.stdout.decode().split())
        return self.kept[command]


def wrong_entry(entry, text, runner):
    """What is wrong about an entry: its sentence isn't in the text of its document, or what should show it doesn't."""
    if entry.sentence not in flat(text):
        yield f"evidence.txt:{entry.line}: {entry.document} doesn't say: {entry.sentence}"
    if entry.why:
        return
    printed = runner.printed("\n".join(entry.commands))
    yield from (f"evidence.txt:{entry.line}: not printed: {it}" for it in entry.shown if " ".join(it.split()) not in printed)
    there = {it.replace(",", "") for it in re.findall(r"\d[\d,]*(?:\.\d+)?", " ".join(entry.commands + entry.shown))}
    yield from (f"evidence.txt:{entry.line}: nothing shows the {it} of: {entry.sentence}" for it in sorted(numbers(entry.sentence) - there))


def parts_of(quotes):
    """The sentences of quotes, or the parts of sentences."""
    return [part for it in quotes for part in parted(it) if re.search("[a-z]{2}", part)]


def is_shown(sentence, parts):
    return any(it in sentence or sentence.rstrip(".:") in it for it in parts)


def bare(text, quotes):
    """The sentences of a document with a number that no quote has."""
    parts = parts_of(quotes)
    for sentence in sentences(text):
        shown = set().union(*(numbers(it) for it in parts if it in sentence or sentence.rstrip(".:") in it))
        if numbers(sentence) - shown:
            yield sentence


def differences(listed, texts, runner):
    """What a check finds: about each entry, and each sentence without one."""
    for entry in listed:
        yield from wrong_entry(entry, texts[entry.document], runner)
    for document, text in texts.items():
        quotes = [it.sentence for it in listed if it.document == document]
        if not document.startswith("docs/maintainers/"):
            yield from (f"{document}: no evidence for: {it}" for it in bare(text, quotes))


def counts(listed, texts):
    """A line for each document: its sentences, those with a number, and those with evidence."""
    for document, text in texts.items():
        quotes = [it.sentence for it in listed if it.document == document]
        found = list(sentences(text))
        shown = [it for it in found if is_shown(it, parts_of(quotes))]
        yield f"{document}: {len(found)} sentences, {sum(map(bool, map(numbers, found)))} with a number, {len(shown)} with evidence"


def main():
    parser = argparse.ArgumentParser(description=__doc__.split("\n")[0])
    parser.add_argument("--program", type=pathlib.Path, default=PROGRAM)
    parser.add_argument("--counts", action="store_true")
    given = parser.parse_args()
    program = given.program.resolve()
    if not program.is_file():
        sys.exit(f"evidence: there is no program {program}: ./build makes it")
    listed = entries(EVIDENCE.read_text())
    texts = {it.document: (TOP / it.document).read_text() for it in listed}
    if given.counts:
        print("\n".join(counts(listed, texts)))

    def found_in(document):
        """What a document's check finds, in a folder of its own."""
        with tempfile.TemporaryDirectory(prefix="evacplan-evidence-") as folder:
            runner = Runner(program, pathlib.Path(folder))
            return list(differences([it for it in listed if it.document == document], {document: texts[document]}, runner))

    with ThreadPoolExecutor(os.cpu_count()) as pool:
        found = [it for part in pool.map(found_in, texts) for it in part]
    print("\n".join(found) or "what the documents say is what the program and the sources say")
    return 1 if found else 0


if __name__ == "__main__":
    sys.exit(main())
