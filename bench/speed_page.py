"""The tables of docs/maintainers/speed.md, made from the numbers that `bench/run` keeps in measured.json."""
import json
import pathlib
import re
import statistics

import two_way_halls

TOP = pathlib.Path(__file__).resolve().parent.parent
KEPT = TOP / "bench/measured.json"
PAGE = TOP / "docs/maintainers/speed.md"
NOT_YET = "Not measured yet. `bench/run --parts {}` measures it."
SLOW = 1.2  # an edit that takes more of a fresh plan is listed
WORDS = ("Building", "Family", "What it is", "Measured", "Of", "Dearest", "On", "Solver by hand", "Date", "Program")
# What some buildings are, of which neither a title nor a docstring says enough.
OTHER_WORDS = {
    "dense1": "A dense net at all limits.",
    "drill40": "A tower of 40 storeys, as `evacplan drill --number 40` plans it.",
    "office": "A small office.",
    "short1": "The tower of 200 nodes with too short a horizon.",
    "stadium": "A stadium.",
    "tower050": "A tower of 50 nodes.",
    "tower200": "A tower of 200 nodes.",
    "tower400": "A tower of 400 nodes.",
    "zigzag_shut": "`zigzag` without its busiest exit.",
    "arena_shut": "`arena` without its busiest exit.",
    "tower_shut": "A tower of 39 storeys and a horizon of 1,200 without one of its two exits.",
    "tower_late": "The same tower with both exits; half of the people come in later.",
    "ladder": "Two rows of halls with rungs.",
    "ladder_short": "The same with more people than can get out.",
}


def kept():
    """The numbers that are kept, by parts."""
    return json.loads(KEPT.read_text()) if KEPT.exists() else {}


def table(head, rows):
    """A table in Markdown: words to the left, and all other columns to the right."""
    rule = "".join("---|" if column in WORDS else "--:|" for column in head)
    drawn = [f"| {' | '.join(map(str, cells))} |" for cells in (head, *rows)]
    return "\n".join([drawn[0], f"|{rule}", *drawn[1:]])


def ratios(row):
    """The ratios of a row to both forms of the solver by hand, or dashes if it can't read the building."""
    return [f"{it:.2f}" for it in row["ratios"]] or ["-", "-"]


def spread(numbers):
    """The median of some numbers and the greatest, or dashes."""
    return [f"{statistics.median(numbers):.2f}", f"{max(numbers):.2f}"] if numbers else ["-", "-"]


def solve(rows):
    """How `solve` compares with the solver by hand, building by building."""
    head = ["Building", "What it is", "Nodes", "Arcs", "People", "Cleared", "Million instructions", "Ratio to the solver that writes paths", "Ratio to the other"]
    return table(
        head,
        [
            [it["building"], it["what"], it["nodes"], f"{it['arcs']:,}", f"{it['people']:,}", it["cleared"], f"{it['own']:.1f}", *ratios(it)]
            for it in rows
        ],
    )


def times(rows):
    """The same by the clock."""
    head = ["Building", "Milliseconds", "Ratio to the solver that writes paths", "Ratio to the other"]
    return table(head, [[it["building"], f"{it['own']:.1f}", *ratios(it)] for it in rows])


def summary(parts):
    """The median and the greatest of all ratios to the solver by hand."""
    rows, found = [], {part: parts[part]["rows"] for part in ("solve", "times", "growth") if part in parts}
    for part, how in (("solve", "instructions"), ("times", "the clock")):
        halls = [it for it in found.get(part, []) if it["building"] in two_way_halls.ALL]
        rows += [
            (f"`solve` by {how}, with two-way halls", halls),
            (f"`solve` by {how}, others", [it for it in found.get(part, []) if it not in halls]),
        ]
    rows.append(("families at 4n, by instructions", found.get("growth", [])))
    read = [(what, [it["ratios"] for it in some if it["ratios"]]) for what, some in rows]
    head = ["Of", "Buildings", "Ratio to the solver that writes paths: median", "most", "Ratio to the other: median", "most"]
    return table(head, [[what, len(some), *(cell for column in zip(*some) for cell in spread(column))] for what, some in read if some])


def growth(rows):
    """Instructions for each cell at four sizes that double."""
    head = ["Family", "What it is", "Instructions a cell at n", "2n", "4n", "8n", "Ratio to the solver that writes paths, at 4n", "Ratio to the other"]
    return table(head, [[it["family"], it["what"], *(f"{count:.0f}" for count in it["each"]), *ratios(it)] for it in rows])


def editing(rows):
    """What edits take of a fresh plan."""
    head = ["Building", "Edits: median", "most", "Undos: median", "most", "Refused: most", "Dearest"]
    made = [
        [it["building"], *spread(it["edits"]), *spread(it["undo"]), spread(it["refused"])[1], f"`{it['dearest']}`, {it['most']:.2f}"] for it in rows
    ]
    every = sorted(ratio for it in rows for kind in ("edits", "undo", "refused") for ratio in it[kind])
    slow = sum(it > SLOW for it in every)
    tenth = every[len(every) * 9 // 10] if every else 0
    half = statistics.median(every) if every else 0
    said = f"Half of the {len(every)} edits and undos take at most {half:.2f} of a fresh plan, and nine tenths take at most {tenth:.2f}."
    return f"{table(head, made)}\n\n{said} Only {slow} take more than {SLOW}."


def studying(rows):
    """What the trials of studies take of a fresh plan."""
    head = ["Building", "Exits", "Tried", "Median", "Most", "Rates tried", "Median", "Most"]
    return table(head, [[it["building"], it["exits"], len(it["doors"]), *spread(it["doors"]), len(it["rates"]), *spread(it["rates"])] for it in rows])


def reporting(rows):
    """What routes and cards take beside a plan."""
    head = ["Building", "`solve`", "`solve --routes`", "`cards`"]
    return table(head, [[it["building"], *(f"{count:.1f}" for count in it["own"])] for it in rows])


def circumstances(parts):
    """On what and when each part was measured."""
    head = ["Measured", "On", "Solver by hand", "Date", "Program"]
    return table(head, [[name, it["machine"], it["compiler"], it["date"], f"`{it['program']}`"] for name, it in parts.items()])


def tables():
    """The tables of the page by their names."""
    parts = kept()
    makers = {"solve": solve, "times": times, "growth": growth, "edits": editing, "studies": studying, "reports": reporting}
    made = {f"bench/run {name}": make(parts[name]["rows"]) if name in parts else NOT_YET.format(name) for name, make in makers.items()}
    return made | {"bench/run summary": summary(parts), "bench/run circumstances": circumstances(parts)}


def differing(is_written):
    """The names of the tables of the page that aren't those of what is kept. They are written if that is asked for."""
    text, made, found = PAGE.read_text(), tables(), []

    def replaced(part):
        name = part[1]
        if name not in made:
            found.append(f"speed.md: nothing is kept for {name}")
            return part[0]
        fresh = f"<!-- from: {name} -->\n\n{made[name]}\n\n<!-- end -->"
        if fresh != part[0]:
            found.append(f"speed.md: the table {name} {'is written' if is_written else 'is another one: bench/run --tables'}")
        return fresh

    fresh = re.sub(r"(?ms)^<!-- from: (bench/run [a-z]+) -->$.*?^<!-- end -->$", replaced, text)
    if is_written:
        PAGE.write_text(fresh)
    return found
