#!/usr/bin/env python3
"""Computes the tables, buildings and answers of modelling.md, and compares them with the page.

    python3 tools/figures.py [--program PATH] [--write]

What is on the page below a line `<!-- figures: NAME -->` is what the function of that name puts out here. Every sum on the page, as
`1.3 × 0.60 × 5 = 3.90`, is computed anew too. The answers are those of the built program. It prints each difference with its line, and its
status is 1 where there is one. With --write it writes the tables into the page instead.
"""
import argparse
import math
import pathlib
import re
import subprocess
import sys
from fractions import Fraction

sys.dont_write_bytecode = True
from hydraulic import A, DOOR, FREE_DENSITY, LEAF, LEVEL, STAIR, TREAD, WAITING, WALL, WAYS, density_of, frac, free_speed, rate_of, speed_of
from worked import ESCALATOR_FLOW, FREE_FLOW, GATES, ROOM_DOOR, corridor, metro, nine_storeys, school, tower

TOP = pathlib.Path(__file__).resolve().parent.parent
sys.path.insert(0, str(TOP / "companion/src"))
from evacask.client.talk import Program
from evacask.model.drawn_building import Scale, building_text, drawn_building
from evacask.questions.bracket import bracket

PAGE = TOP / "docs/users/modelling.md"
PROGRAM = TOP / "crates/evacplan/out/evacplan"


def half_up(number, places):
    """A number with so many places, a half rounded up."""
    return f"{math.floor(number * 10**places + Fraction(1, 2)) / 10**places:.{places}f}"


def table(head, rows, align):
    """The lines of a table of Markdown."""
    rule = {"l": "---", "r": "--:"}
    return [f"| {' | '.join(head)} |", f"|{'|'.join(rule[it] for it in align)}|", *(f"| {' | '.join(row)} |" for row in rows)]


# The figures, and tables by width and length


def ways():
    stairs = [(way.split()[1].split("/"), k) for way, (k, _) in WAYS.items() if way != LEVEL]
    rows = [[LEVEL, "", "", f"{float(WAYS[LEVEL][0]):.2f}"]]
    rows += [["stair", f"{riser} mm", f"{tread} mm", f"{float(k):.2f}"] for (riser, tread), k in stairs]
    return table(["Way", "Riser", "Tread", "k"], rows, "lrrr")


def densities():
    k, rows = WAYS[LEVEL][0], [[f"below {float(FREE_DENSITY)}", f"{float(free_speed(LEVEL)):.2f}", "S D"]]
    for density in ("1.0", "1.5", "1.9", "2.5", "3.0", "3.5"):
        speed = k - A * k * Fraction(density)
        rows.append([density, f"{float(speed):.2f}", f"{float(speed * Fraction(density)):.2f}"])
    head = ["Density, people per square metre", "Speed, metres per second", "Specific flow, people per second and metre"]
    return table(head, rows, "rrr")


def greatest():
    rows = []
    for way, (k, most) in WAYS.items():
        free = free_speed(way)
        rows.append([way, f"{float(most):.3g}", *(half_up(it, 2) for it in (free, free * FREE_DENSITY, k / 2))])
    head = ["Way", "Greatest flow, people per second and metre", "Free speed, metres per second"]
    return table([*head, "Flow up to which it holds", "Speed at the greatest flow"], rows, "lrrrr")


def crowding():
    head, rows = ["Flow, people per second and metre", "On the level: density", "speed"], []
    for flow in (Fraction(tenth, 10) for tenth in range(4, 14)):
        row = [f"{float(flow):.1f}"]
        for way, (_, most) in WAYS.items():
            is_queue = flow >= most
            cells = [f"{float(density_of(flow, way)):.2f}"] * (way == LEVEL) + [f"{speed_of(flow, way):.2f}"]
            row += ["queue"] * len(cells) if is_queue and flow > most else cells
        rows.append(row)
    return table([*head, *(way.replace("stair", "Stair") for way in WAYS if way != LEVEL)], rows, "r" * (len(WAYS) + 2))


def merging():
    """A corridor of 2.00 m, and a stair after it, into which several doors of 0.90 m lead."""
    rows = []
    for doors in (1, 2, 3, 4):
        comes, width = doors * ROOM_DOOR, frac("1.60")
        flow = comes / width
        is_queue = flow > WAYS[LEVEL][1]
        sum = " + ".join(["0.78"] * doors)
        shown = f"({sum}) / 1.60" if doors > 1 else f"{sum} / 1.60"
        time = 18 / speed_of(flow, LEVEL)
        cells = [f"{float(density_of(flow, LEVEL)):.2f}", f"{speed_of(flow, LEVEL):.2f} m/s", f"{time:.1f} s", f"{math.ceil(time / 5)}"]
        rows.append([f"{doors}", f"{shown} = {half_up(flow, 2)}" + ", a queue" * is_queue, *cells])
    return table(["Doors", "Comes / width", "Density", "Speed", "18 m take", "Travel"], rows, "rrrrrr")


def doors():
    rows = []
    for width in ("0.75", "0.80", "0.85", "0.90", "1.00", "1.10", "1.20", "1.50", "1.60", "1.80", "2.00"):
        clear = Fraction(width)
        effective, leaves = clear - 2 * DOOR, 1 if clear < Fraction("1.4") else 2
        flow = WAYS[LEVEL][1] * effective
        shut = min(flow, leaves * LEAF)
        cells = [half_up(flow * 5, 2), f"{rate_of(flow, 5)}", f"{leaves}", half_up(shut * 5, 2), f"{rate_of(shut, 5)}"]
        rows.append([f"{width} m", f"{float(effective):.2f} m", *cells])
    head = ["Clear width", "Effective width", "People in 5 s", "Rate, held open", "Leaves", "People in 5 s", "Rate, not held open"]
    return table(head, rows, "rrrrrrr")


def corridors():
    rows = []
    for width in ("1.00", "1.20", "1.50", "1.80", "2.00", "2.40", "3.00"):
        effective = Fraction(width) - 2 * WALL
        flow = WAYS[LEVEL][1] * effective
        rows.append([f"{width} m", f"{float(effective):.2f} m", half_up(flow * 5, 2), f"{rate_of(flow, 5)}"])
    return table(["Clear width", "Effective width", "People in 5 s", "Rate"], rows, "rrrr")


def stairs():
    kinds, rows = [way for way in WAYS if way != LEVEL], []
    for width in ("0.90", "1.00", "1.10", "1.20", "1.30", "1.40", "1.50", "1.60", "1.80", "2.00"):
        effective = Fraction(width) - 2 * TREAD
        flows = [WAYS[way][1] * effective for way in kinds]
        rows.append([f"{width} m", f"{float(effective):.2f} m", *(f"{half_up(flow * 5, 2)}: {rate_of(flow, 5)}" for flow in flows)])
    return table(["Clear width", "Effective width", *(way.split()[1] for way in kinds)], rows, "r" * (len(kinds) + 2))


def travels():
    def cell(length, speed):
        return f"{math.ceil(Fraction(length) / speed / 5)}"

    columns = [(way, speed) for way in (LEVEL, STAIR) for speed in (WAYS[way][0] / 2, free_speed(way))]
    rows = [[f"{length} m", *(cell(length, speed) for _, speed in columns)] for length in (3, 4, 5, 6, 8, 10, 15, 20)]
    names = [f"{'Level' if way == LEVEL else 'Stair 178/279'}, {float(speed):.2f} m/s" for way, speed in columns]
    return table(["Length", *names], rows, "rrrrr")


def rates(doors):
    """The rates of passages and doors, from their widths."""
    rows = [[name, f"{widths} = {float(width):.2f} m", *sum_of(flow, width)] for name, widths, width, flow in doors]
    return table(["Passage", "Effective width", "Flow × width × 5 s", "Rate"], rows, "lrrr")


def sum_of(flow, width):
    people = flow * width * 5
    shown = f"{float(people):.2f}" if people * 100 == int(people * 100) else f"{float(people):.3f}"
    return [f"{float(flow):.3g} × {float(width):.2f} × 5 = {shown}", f"{rate_of(flow * width, 5)}"]


def corridor_rates():
    level, stair = WAYS[LEVEL][1], WAYS[STAIR][1]
    return rates(
        [
            ("door of the room", "0.90 - 0.30", frac("0.60"), level),
            ("corridor", "2.00 - 0.40", frac("1.60"), level),
            ("stair", "1.20 - 0.30", frac("0.90"), stair),
            ("door outside", "1.00 - 0.30", frac("0.70"), level),
        ],
    )


def crowd_of(passage):
    """How many come to a passage for each metre, the flow and the density there."""
    if not passage.widths:
        return ["", "", passage.density]
    comes = f"{float(passage.comes):.4g}" if passage.comes > 2 else f"{float(passage.comes):.3f}".removesuffix("0")
    is_queue = passage.comes / passage.width > passage.flow
    shown = f"{comes} / {float(passage.width):.2f} = {half_up(passage.comes / passage.width, 2)}" + ", a queue" * is_queue
    return [shown, half_up(passage.flow, 2), f"{float(density_of(passage.flow, passage.way)):.2f}"]


def travel_rows(example):
    """How crowded each kind of passage is, and how long people walk on it."""
    rows = []
    for it in example.passages().values():
        length = f"{it.lengths} = {float(it.length):.2f} m" if it.lengths else f"{float(it.length):g} m"
        length += f", and {float(it.landing)} m" if it.landing else ""
        times = [f"{it.speed:.2f} m/s", f"{it.seconds:.1f} s", f"{it.seconds / 5:.2f}", f"{it.travel}"]
        rows.append([it.name, length, *crowd_of(it), *times])
    head = ["Passage", "Length", "Comes / width", "Flow per metre", "Density", "Speed", "Time", "Periods", "Travel"]
    return table(head, rows, "lrrrrrrrr")


def corridor_travels():
    return travel_rows(corridor())


def capacities(example):
    rows = []
    for it in {it.what: it for it in example.places if it.area}.values():
        area = frac(it.area)
        people = area * WAITING
        rows.append([it.what, f"{float(area):g} m²", f"{float(area):g} × 1.9 = {float(people):.1f}", f"{math.floor(people)}"])
    return table(["Node", "Area in which people wait", "Area × 1.9", "Capacity"], rows, "lrrr")


def corridor_capacities():
    return capacities(corridor())


def corridor_lines():
    return ["```evac examples/corridor.evac", *corridor().lines(), "```"]


def school_rates():
    level, stair, two = WAYS[LEVEL][1], WAYS[STAIR][1], 2 * ROOM_DOOR
    found = rates(
        [
            ("door of a classroom", "0.90 - 0.30", frac("0.60"), level),
            ("stair", "1.50 - 0.30", frac("1.20"), stair),
            ("main door, two leaves held open", "1.80 - 0.30", frac("1.50"), level),
        ],
    )
    held = f"| corridor, limited to two classrooms' doors | | 2 × 0.78 × 5 = {float(two * 5):.2f} | {rate_of(two, 5)} |"
    leaf = f"| door at stair 2, one leaf that isn't held open | | 50 / 60 × 5 = {float(LEAF * 5):.2f} | {rate_of(LEAF, 5)} |"
    return [*found[:3], held, *found[3:], leaf]


def metro_rates():
    level, stair, still = WAYS[LEVEL][1], WAYS[STAIR][1], WAYS["stair 191/254"][1]
    found = rates(
        [
            ("four doors of a train, held open", "4 × (1.30 - 0.30)", frac("4.00"), level),
            ("stair", "1.80 - 0.30", frac("1.50"), stair),
            ("escalator out of service", "1.00 - 0.30", frac("0.70"), still),
            ("passage to an exit", "3.00 - 0.40", frac("2.60"), level),
        ],
    )
    half = FREE_FLOW * frac("3.54") * 5
    along = f"| platform, half for each direction | (8.00 - 2 × 0.46) / 2 = 3.54 m | 0.64 × 3.54 × 5 = {float(half):.2f} | {math.floor(half)} |"
    running = f"| running escalator | | 1 × 5 = 5 | {rate_of(ESCALATOR_FLOW, 5)} |"
    gates = f"| six gates | | 6 × 50 / 60 × 5 = {float(GATES * 5):.2f} | {rate_of(GATES, 5)} |"
    return [*found[:3], along, running, *found[3:5], gates, found[5]]


def metro_travels():
    return travel_rows(metro())


def metro_capacities():
    return capacities(metro())


def school_travels():
    return travel_rows(school())


def school_capacities():
    return capacities(school())


# Answers


class Answers:
    """What the built program says of the examples, each building once."""

    def __init__(self, program):
        self.program, self.kept = program, {}

    def of(self, lines):
        """The lines that the reports on a building begin with, by their first word."""
        text = "\n".join(lines) + "\n"
        if text not in self.kept:
            ran = subprocess.run([self.program, "solve", "--reports"], input=text.encode(), capture_output=True)
            if ran.returncode:
                sys.exit(f"figures: {self.program} ended with {ran.returncode}: {ran.stdout[:60]!r}")
            self.kept[text] = ran.stdout.decode().split("\n")
        return self.kept[text]

    def number(self, lines, word):
        return int(next(line.split()[1] for line in self.of(lines) if line.startswith(f"{word} ")))

    def bottlenecks(self, lines):
        """The arcs that hold people up, with their periods."""
        said = self.of(lines)
        at = said.index("bottlenecks 0") + 1
        return said[at : said.index("end", at)]


ANSWERS = Answers(PROGRAM)


def moment(periods):
    """A moment of periods of 5 s, with the seconds that it stands for."""
    return f"{periods} ({5 * periods} to {5 * periods + 5} s)"


def answer_row(lines, periods, *shown):
    """The last row of a reckoning by hand: what the program answers, which is to be the same."""
    answer = ANSWERS.number(lines, "cleared")
    if periods != answer or any(it not in ANSWERS.of(lines) for it in shown):
        sys.exit(f"figures: by hand {periods} periods, and the program says {answer}")
    said = [*shown, f"cleared {answer}", f"seconds {ANSWERS.number(lines, 'seconds')}"]
    return ["`./evacplan solve`", "", ", ".join(f"`{it}`" for it in said)]


def corridor_hand():
    """The seconds until the room is empty and everybody is out."""
    return sum(it.seconds for it in corridor().passages().values()) + float(60 / ROOM_DOOR)


def corridor_by_hand():
    room, *others = corridor().passages().values()
    groups = math.ceil(60 / room.rate)
    rows = [["walk through the room to its door", f"{room.seconds:.1f} s", f"{room.travel}"]]
    in_groups = f"60 / {room.rate} = {groups}, of which the first is at moment 0: {groups - 1}"
    rows.append(["60 people pass the door", f"60 / 0.78 = {float(60 / ROOM_DOOR):.1f} s", in_groups])
    rows += [[it.name, f"{it.seconds:.1f} s", f"{it.travel}"] for it in others]
    periods = room.travel + sum(it.travel for it in others) + groups - 1
    rows.append(["everybody is out", f"{corridor_hand():.0f} s", moment(periods)])
    return table(["", "By hand", "In periods"], [*rows, answer_row(corridor().lines(), periods)], "lrr")


def school_doors():
    """The passages that a reckoning of the school looks at: a classroom, the corridor to its end, a stair, and those to the two doors."""
    by_name = school().passages()
    names = ("classroom, to its door", "corridor, to its end", "stair, with its landing")
    return [by_name[it] for it in (*names, "lobby, to the main door", "foot of stair 2, to its door")]


def school_hand():
    """The seconds until both doors have let all through. Until the first come down stair 1, two classrooms alone use the main door."""
    room, along, stair, lobby, foot = school_doors()
    come = room.seconds + along.seconds
    early = float(2 * ROOM_DOOR) * stair.seconds
    main, side = float(lobby.door), float(foot.door)
    return (200 - early + main * (come + stair.seconds + lobby.seconds) + side * (come + foot.seconds)) / (main + side)


def school_by_hand():
    room, along, stair, lobby, foot = school_doors()
    come = room.travel + along.travel
    above, early = come + stair.travel, 2 * room.rate * stair.travel

    def out(period):
        """The people out by a period, where both doors are always busy."""
        return early + lobby.rate * (period - above) + foot.rate * (period - come)

    periods = next(k for k in range(1, 121) if out(k) >= 200)
    last, two = periods - 1, float(2 * ROOM_DOOR)
    by_last = f"{early} + {lobby.rate} × {last - above} + {foot.rate} × {last - come} = {out(last)}"
    seconds = f"{room.seconds:.1f} + {along.seconds:.1f} = {room.seconds + along.seconds:.1f} s"
    rows = [
        ["the first of the ground floor reach the main door", seconds, f"{room.travel} + {along.travel} = {come}"],
        ["the first of the upper floor reach it", f"{stair.seconds:.2f} s later", f"{come} + {stair.travel} = {above}"],
        [
            "people in between, through two classrooms' doors",
            f"{two:.2f} × {stair.seconds:.2f} = {two * stair.seconds:.1f}",
            f"2 × {room.rate} × {stair.travel} = {early}",
        ],
        ["then the main door lets through", f"{float(lobby.door):.2f} a second", f"{lobby.rate} a period"],
        ["the door at stair 2, once the first reach it, lets through", f"{float(foot.door):.2f} a second", f"{foot.rate} a period"],
        ["from both places to outside", f"{lobby.seconds:.1f} s, {foot.seconds:.1f} s", f"{lobby.travel}, {foot.travel}"],
        [f"out by period {last}", "", by_last],
        ["all 200 are out", f"{school_hand():.0f} s", moment(periods)],
        answer_row(school().lines(), periods, f"out {last} {out(last)}"),
    ]
    return table(["", "By hand", "In periods"], rows, "lrr")


def metro_ways():
    """The passages that a reckoning of the metro looks at: the three ways up, that to the gates, and the shorter one to the street."""
    by_name = metro().passages()
    names = ("stair, with its landing", "running escalator", "escalator out of service", "mezzanine, to the gates", "passage to exit A")
    return [by_name[it] for it in names]


def metro_hand():
    """The seconds until the three ways up have let all through, from moment 0 on."""
    *ups, gates, passage = metro_ways()
    let = [float(it.most) for it in ups]
    return (1090 + sum(flow * (it.seconds + gates.seconds + passage.seconds) for flow, it in zip(let, ups))) / sum(let)


def metro_by_hand():
    stair, running, still, gates, passage = metro_ways()
    on = gates.travel + passage.travel
    by_stair, by_escalator = stair.travel + on, running.travel + on
    both = running.rate + still.rate

    def out(period):
        """The people out by a period, where all three ways are busy from moment 0 on."""
        return stair.rate * (period - by_stair + 1) + both * (period - by_escalator + 1)

    periods = next(k for k in range(1, 201) if out(k) >= 1090)
    last = periods - 1

    def walk(way):
        parts = [way.seconds, gates.seconds, passage.seconds]
        return f"{' + '.join(f'{it:.1f}' for it in parts)} = {sum(float(f'{it:.1f}') for it in parts):.1f} s"

    flows = [float(it.most) for it in (running, still)]
    rows = [
        ["from the foot of the stair to the street", walk(stair), f"{stair.travel} + {gates.travel} + {passage.travel} = {by_stair}"],
        ["from the foot of an escalator", walk(running), f"{running.travel} + {gates.travel} + {passage.travel} = {by_escalator}"],
        ["the stair lets up", f"{float(stair.most):.3f} a second", f"{stair.rate} a period"],
        [
            "both escalators let up",
            f"{flows[0]:.2f} + {flows[1]:.3f} = {sum(flows):.3f} a second",
            f"{running.rate} + {still.rate} = {both} a period",
        ],
        [f"out by period {last}", "", f"{stair.rate} × {last - by_stair + 1} + {both} × {last - by_escalator + 1} = {out(last)}"],
        ["all 1,090 are out", f"{metro_hand():.0f} s", moment(periods)],
        answer_row(metro().lines(), periods, f"out {last} {out(last)}"),
    ]
    return table(["", "By hand", "In periods"], rows, "lrr")


def tower_ways():
    by_name = tower().passages()
    return [by_name[it] for it in ("office, to its door", "corridor, to a stair", "stair, with its landing", "lobby, to the main door")]


def tower_hand():
    """The seconds until both stairs have let all through. Until those of storey 2 come down, two offices alone use them."""
    office, hall, stair, lobby = tower_ways()
    above = office.seconds + hall.seconds + stair.seconds
    early, flow = float(2 * ROOM_DOOR) * stair.seconds, float(stair.most)
    return ((1600 - early) / flow + (above + stair.seconds) + (above + stair.seconds + lobby.seconds)) / 2


def tower_by_hand():
    office, hall, stair, lobby = tower_ways()
    come = office.travel + hall.travel
    above, early = come + stair.travel, 2 * office.rate * stair.travel
    short, long = stair.travel, stair.travel + lobby.travel

    def out(period):
        """The people out by a period, where both stairs are always busy."""
        return early + stair.rate * (period - short - above + 1) + stair.rate * (period - long - above + 1)

    periods = next(k for k in range(1, 401) if out(k) >= 1600)
    last, two, flow = periods - 1, float(2 * ROOM_DOOR), float(stair.most)
    by_last = f"{early} + {stair.rate} × {last - short - above + 1} + {stair.rate} × {last - long - above + 1} = {out(last)}"
    first = [float(f"{it.seconds:.1f}") for it in (office, hall)]
    rows = [
        ["the first reach the landing of storey 1", f"{first[0]} + {first[1]} = {sum(first):.1f} s", f"{office.travel} + {hall.travel} = {come}"],
        ["those of storey 2 reach it", f"{stair.seconds:.1f} s later", f"{come} + {stair.travel} = {above}"],
        [
            "people in between, from two offices",
            f"{two:.2f} × {stair.seconds:.2f} = {two * stair.seconds:.1f}",
            f"2 × {office.rate} × {stair.travel} = {early}",
        ],
        ["then both stairs let through", f"2 × {flow:.2f} = {2 * flow:.2f} a second", f"2 × {stair.rate} = {2 * stair.rate} a period"],
        ["from the landing to outside by stair 2", f"{stair.seconds:.1f} s", f"{short}"],
        [
            "by stair 1, including the lobby",
            f"{stair.seconds:.1f} + {lobby.seconds:.1f} = {stair.seconds + lobby.seconds:.1f} s",
            f"{stair.travel} + {lobby.travel} = {long}",
        ],
        [f"out by period {last}", "", by_last],
        ["all 1,600 are out", f"{tower_hand():.0f} s", moment(periods)],
        answer_row(tower().lines(), periods, f"out {last} {out(last)}"),
    ]
    return table(["", "By hand", "In periods"], rows, "lrr")


def nine_storeys_ways():
    by_name = nine_storeys().passages()
    return by_name["corridor, to the stair's door"], by_name["last flight, with the door"]


def nine_storeys_hand():
    """The seconds until the door at the foot of a stair has let 1,200 people through, from when the first come to it."""
    hall, last = nine_storeys_ways()
    return hall.seconds + last.seconds + float(1200 / last.door)


def nine_storeys_by_hand():
    hall, last = nine_storeys_ways()
    rows = [
        ["people for each stair, of eight storeys", "8 × 150 = 1200"],
        ["the first walk along the corridor", f"{hall.seconds:.1f} s"],
        ["they walk down one storey", f"{last.seconds:.1f} s"],
        ["1,200 people pass the door at its foot", f"1200 / {float(last.door):.3f} = {float(1200 / last.door):.0f} s"],
        ["all are out", f"{nine_storeys_hand():.0f} s"],
    ]
    return table(["", "By hand"], rows, "lr")


# The worked buildings with their time by hand, and the period for which each is compared with it.
HANDS = (
    ("One room", "corridor", corridor_hand, 1),
    ("School", "school", school_hand, 1),
    ("Metro", "metro", metro_hand, 5),
    ("Tower", "tower", tower_hand, 5),
    ("Nine storeys", "nine_storeys", nine_storeys_hand, 5),
)


def bracket_of(file, period, shares=None):
    """The seconds between which a worked building clears, for a period and so many shares of a person."""
    drawn = drawn_building(file, (TOP / f"examples/{file}.plan").read_text())
    return bracket(Program(ANSWERS.program), drawn, period, shares)


def end_text(seconds):
    """The end of a bracket, or a dash if nothing is claimed."""
    return "–" if seconds is None else f"{seconds} s"


def roundings():
    """Between which seconds each building clears, in whole people and in shares."""
    rows = []
    for name, file, by_hand, _ in HANDS:
        for period in (2, 5, 10):
            whole, parts = bracket_of(file, period, 1), bracket_of(file, period)
            ends = [end_text(it) for it in (whole.earliest, whole.latest, parts.earliest, parts.latest)]
            rows.append([name, f"{period} s", *ends[:2], f"{parts.shares.number}", *ends[2:], f"{by_hand():.0f} s"])
    head = ["Building", "Period", "Whole people: not before", "all out before", "Shares", "In shares: not before", "all out before", "By hand"]
    return table(head, rows, "lrrrrrrr")


def shares():
    """The answer in shares of a person beside the time by hand."""
    rows = []
    for name, file, by_hand, period in HANDS:
        number = 100 if period == 1 else 40
        found = bracket_of(file, period, number)
        answer, hand = found.latest - period, by_hand()
        if not found.earliest <= hand < found.latest or abs(answer - hand) > 0.02 * hand:
            sys.exit(f"figures: {name} by hand {hand:.1f} s, and in shares {found.earliest} to {found.latest} s")
        rows.append(
            [
                name,
                f"{period} s",
                f"{number}",
                f"{found.earliest} s",
                f"{answer} to {found.latest} s",
                f"{hand:.0f} s",
                f"{100 * (answer - hand) / hand:+.1f} %",
            ]
        )
    return table(["Building", "Period", "Shares", "Not before", "`cleared`, later side", "By hand", "Difference"], rows, "lrrrrrr")


def room_periods():
    """What rounding makes of the two doors of the one room, and the bottleneck that the program then names."""
    rows, (room, *_, lobby) = [], corridor().passages().values()
    for period in (2, 5, 10):
        rates = [f"{float(it.door):.2f} × {period} = {float(it.door) * period:.2f}: {it.numbers(period)[1]}" for it in (room, lobby)]
        rows.append([f"{period} s", *rates, ", ".join(f"`{line}`" for line in ANSWERS.bottlenecks(corridor().lines(period)))])
    return table(["Period", "Rate of the room's door", "Rate of the door outside", "Bottleneck"], rows, "rrrl")


def school_choices():
    """What the two choices for the corridors come to."""
    rows = []
    for name, is_held in (("rate 7 and the speed of that flow, as above", True), ("the greatest flow and its speed, 0.70 m/s", False)):
        example = school(is_held)
        along, lines = example.passages()["corridor, to its end"], example.lines()
        rows.append([name, f"{along.rate}", f"{along.travel}", moment(ANSWERS.number(lines, "cleared"))])
    return table(["Corridors", "Rate", "Travel, 12 m", "Cleared"], rows, "lrrr")


NAMED = {
    it.__name__: it
    for it in (
        *(ways, densities, greatest, crowding, merging, doors, corridors, stairs, travels),
        *(corridor_rates, corridor_travels, corridor_capacities, corridor_lines, corridor_by_hand),
        *(school_rates, school_travels, school_capacities, school_by_hand, school_choices),
        *(metro_rates, metro_travels, metro_capacities, metro_by_hand),
        *(tower_by_hand, nine_storeys_by_hand),
        *(roundings, shares, room_periods),
    )
}


# The page


def places_on(page):
    """Yields the name of each marked table or block of the page, and its first and last line, from 0."""
    lines = page.split("\n")
    for number, line in enumerate(lines):
        found = re.fullmatch(r"<!-- figures: (\w+) -->", line)
        if found:
            first = number + 1
            while first < len(lines) and not lines[first]:
                first += 1
            last = first
            while last < len(lines) and lines[last]:
                last += 1
            yield found[1], first, last


SUM = re.compile(r"(?<![\w.])((?:\d[\d.,]*|[()√²])(?:\s*(?:[×/+()√²]|-)\s*|\d[\d.,]*)*?) = (\d[\d.]*)")


def wrong_sums(page):
    """Yields what is wrong about the sums on the page."""
    for number, line in enumerate(page.split("\n"), 1):
        for found in SUM.finditer(line):
            words = found[1].strip().replace(",", "").replace("×", "*").replace("²", "**2").replace("√", "math.sqrt")
            if not re.search(r"[*/+-]|sqrt", words) or not re.fullmatch(r"[\d.*/+()\s-]*(?:math\.sqrt[\d.*/+()\s-]*)*", words):
                continue
            places = len(found[2].rstrip(".").partition(".")[2])
            try:
                value = eval(words, {"math": math})  # (numbers and operators alone)
            except SyntaxError:
                continue
            if abs(value - float(found[2].rstrip("."))) > 0.5001 * 10**-places:
                yield f"modelling.md:{number}: {found[0]}: it is {value:.{places + 2}f}"


def wrong_plan(example, wanted):
    """Yields what differs between the arcs of an example and those of its plan in metres."""
    name = f"{example.file.partition('.')[0]}.plan"
    made = building_text(drawn_building(name, (TOP / "examples" / name).read_text()), Scale(5))
    arcs, others = ([line for line in lines if line.startswith("arc ")] for lines in (wanted, made.split("\n")))
    yield from (
        f"examples/{name}: it makes {other}, and figures.py computes {arc}" for arc, other in zip(sorted(arcs), sorted(others)) if arc != other
    )


def wrong_files():
    """Yields what differs between an example's lines and its file."""
    for example in (corridor(), school(), metro(), tower(), nine_storeys()):
        wanted = example.lines()
        yield from wrong_plan(example, wanted)
        path = TOP / "examples" / example.file
        if path.suffix == ".plan":
            continue
        said = [line for line in path.read_text().split("\n") if line and not line.startswith("#")] if path.exists() else []
        if said != wanted:
            line = next((one for one, other in zip(wanted, [*said, *[""] * len(wanted)]) if one != other), "a line more")
            yield f"examples/{example.file}: it isn't what figures.py computes: {line}"


def differences(page):
    """Yields each table and sum of the page that isn't the computed one."""
    lines, seen = page.split("\n"), set()
    for name, first, last in places_on(page):
        seen.add(name)
        if name not in NAMED:
            yield f"modelling.md:{first}: figures.py has no {name}"
            continue
        wanted = NAMED[name]()
        for number in range(max(last - first, len(wanted))):
            has = lines[first + number] if first + number < last else None
            new = wanted[number] if number < len(wanted) else None
            if has != new:
                yield f"modelling.md:{first + number + 1}: {has or 'a line is missing'}; computed: {new or 'no such line'}"
    yield from (f"modelling.md: no table is marked {name}" for name in NAMED if name not in seen)
    yield from wrong_sums(page)
    yield from wrong_files()


def written(page):
    """The page with its tables computed anew."""
    lines = page.split("\n")
    for name, first, last in reversed(list(places_on(page))):
        lines[first:last] = NAMED[name]()
    return "\n".join(lines)


def main():
    parser = argparse.ArgumentParser(description=__doc__.split("\n")[0])
    parser.add_argument("--program", type=pathlib.Path, default=PROGRAM)
    parser.add_argument("--write", action="store_true")
    given = parser.parse_args()
    ANSWERS.program = given.program
    page = PAGE.read_text()
    if given.write:
        PAGE.write_text(written(page))
        return 0
    found = list(differences(page))
    print("\n".join(found) if found else "the tables, sums and answers of modelling.md are as computed")
    return 1 if found else 0


if __name__ == "__main__":
    sys.exit(main())
