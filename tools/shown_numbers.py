"""Compares the numbers in the prose of some pages for maintainers with what shows them.

A number of laws.md must be in a block of its section, in a building that the section names, or in shown_numbers.txt. All other numbers of the pages listed
here must be in shown_numbers.txt. A line there is `PAGE, SECTION: NUMBERS: FILE: TEXT; TEXT`: the file must have these texts, and they the numbers. With the
words `by hand` in place of the file the rest says how a number was worked out.
"""
import pathlib
import re

TOP = pathlib.Path(__file__).resolve().parent.parent
SHOWN = TOP / "tools/shown_numbers.txt"
PAGES = ("laws.md", "proved.md", "referees.md", "architecture.md", "decisions.md", "contributing.md")
NUMBER = re.compile(r"(?<![\w.^/-])\d[\d,_]*(?:\.\d+)?(?![\w.]*\w)")
BLOCK = re.compile(r"(?ms)^```(?:evac (\S+))?.*?\n(.*?)^```")
LINE = re.compile(r"(?m)^(\w+\.md), (.*): ([\d,. ]+): (by hand|[\w./]+): (.*)$")


def numbers_in(text):
    """The numbers of a text, without the signs between their digits."""
    return [re.sub("[,_]", "", it).rstrip(".") for it in NUMBER.findall(text)]


def prose_of(section):
    """A section without parts, blocks, code, links, sources and the numbers of a list."""
    text = re.sub(r"(?ms)^<!-- from: .*?^<!-- end -->|^```.*?^```|^\*\*Sources?:\*\*.*?$", "", section)
    return re.sub(r"(?m)`[^`]*`|\]\([^)]*\)|^\d+\. ", "", text)


def sections_of(page):
    """The sections of a page by their headings, with what is before the first one."""
    parts = re.split(r"(?m)^##+ (.*)$", page)
    return {"": parts[0]} | dict(zip(parts[1::2], parts[2::2]))


def buildings_of(page):
    """The buildings that a page shows, by their names, each with the runs on it that come with it."""
    blocks = [*BLOCK.finditer(page)]
    return {it[1]: it[2] + after[2] for it, after in zip(blocks, blocks[1:]) if it[1]}


def shown_in(section, buildings):
    """The numbers that the blocks of a section show, and the buildings that it names."""
    named = re.findall(r"(\w+\.evac)[`)]", section)
    texts = [it[2] for it in BLOCK.finditer(re.sub(r"(?ms)^<!-- from: .*?^<!-- end -->", "", section))]
    texts += [buildings[it] for it in named if it in buildings]
    texts += [(TOP / "examples" / it).read_text() for it in named if (TOP / "examples" / it).is_file()]
    return set(numbers_in("\n".join(texts)))


def differences(folder, listed=None):
    """What a check finds in the pages of a folder."""
    used, lines = set(), LINE.findall(listed if listed is not None else SHOWN.read_text())
    for name in PAGES:
        page = (folder / name).read_text()
        buildings = buildings_of(page) if name == "laws.md" else {}
        for heading, section in sections_of(page).items():
            known = {
                number
                for page_, of, numbers, _, _ in lines
                if (page_, of) == (name, heading or "top")
                for number in numbers_in(numbers.replace(" ", "  "))
            }
            there = shown_in(section, buildings) if name == "laws.md" else set()
            needed = set(numbers_in(prose_of(section))) - there
            used |= {(name, heading or "top", it) for it in needed & known}
            yield from (f"{name}: nothing shows the {it} of the section {heading or 'top'}" for it in sorted(needed - known))
    yield from unneeded(lines, used)


def unneeded(lines, used):
    """Numbers of the list that no page has, and texts that their file hasn't or that don't have the numbers."""
    for name, heading, numbers, file, shown in lines:
        listed = numbers_in(numbers.replace(" ", "  "))
        yield from (f"shown_numbers.txt: {name} doesn't say {it} in the section {heading}" for it in listed if (name, heading, it) not in used)
        if file != "by hand":
            text = (TOP / file).read_text()
            yield from (f"shown_numbers.txt: {file} has no {it}" for it in shown.split("; ") if it not in text)
            yield from (f"shown_numbers.txt: no {it} in {shown}" for it in listed if it not in numbers_in(shown))
