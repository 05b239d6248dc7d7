"""The buildings that modelling.md works out: their places, and their passages with widths and lengths, as lines of a building."""
from __future__ import annotations

import math
from dataclasses import dataclass
from fractions import Fraction

from hydraulic import A, LEAF, LEVEL, STAIR, WAYS, frac, rate_of, speed_of

# The people a second that a door of 0.90 m lets through.
ROOM_DOOR = frac("1.3") * frac("0.60")


@dataclass
class Passage:
    """A way of a building: its effective width, its length, and the most people a second that can come to it."""

    name: str
    width: Fraction
    length: Fraction
    comes: Fraction
    way: str = LEVEL
    # The sums of its effective width and of its length.
    widths: str = ""
    lengths: str = ""
    # Whether its rate is the flow that can come, so that people walk at the speed of that flow.
    is_held: bool = False
    # The part of it that is level, on a stair; and the people a second that a door at its end lets through.
    landing: Fraction = Fraction(0)
    door: Fraction | None = None
    # The speed, where it is given and follows from no flow; and the density that is shown where there is no flow for each metre.
    pace: float | None = None
    density: str = ""

    @property
    def flow(self):
        """The people a second for which its speed is taken, over each metre."""
        return min(self.comes / self.width, WAYS[self.way][1])

    @property
    def most(self):
        """The most people a second that its width and its door let in."""
        return self.door if self.door is not None else WAYS[self.way][1] * self.width

    @property
    def speed(self):
        return self.pace or speed_of(self.flow, self.way)

    @property
    def seconds(self):
        return float(self.length) / self.speed + float(self.landing) / speed_of(self.flow, LEVEL)

    def numbers(self, period=5):
        """Travel and rate for periods of so many seconds: travel rounded up, rate rounded down."""
        lets_in = min(self.most, self.comes) if self.is_held else self.most
        return max(1, math.ceil(round(self.seconds / period, 9))), rate_of(lets_in, period)

    @property
    def travel(self):
        return self.numbers()[0]

    @property
    def rate(self):
        return self.numbers()[1]


@dataclass
class Place:
    """A room of a building, with its capacity and its people; or an exit, which has none."""

    name: str
    capacity: int | None = None
    start: int = 0
    area: str = ""
    what: str = ""


@dataclass
class Example:
    """A building that the page works out: its places, and its arcs with the passage that each is."""

    file: str
    title: str
    horizon: int
    places: list
    arcs: list
    floors: tuple = ("1 Ground", "2 Upper")

    def lines(self, period=5):
        """The lines of the building for periods of so many seconds."""
        found = ["evacplan 1", f"title {self.title}", f"period {period}", f"horizon {self.horizon * 5 // period}"]
        found += [f"floor {it}" for it in self.floors]
        found += [f"node {it.name}" if it.capacity is None else f"node {it.name} {it.capacity} {it.start}" for it in self.places]
        found += ["arc {} {} {} {}".format(tail, head, *it.numbers(period)) for tail, head, it in self.arcs]
        return [*found, "end"]

    def passages(self):
        """Each kind of passage once, by its name."""
        return {it.name: it for _, _, it in self.arcs}


# The length of a step of 178/279 along the slope of the stair.
RISER = frac("0.331")


def door_of(width):
    """The people a second that a door of this effective width lets through, where it is held open."""
    return WAYS[LEVEL][1] * frac(width)


def corridor():
    """One room, a corridor and a stair."""
    places = [
        Place("WP1.2", 75, 60),
        Place("HA1.2", 7, area="4", what="corridor after the room's door"),
        Place("SW1.2", 11, area="6", what="head of the stair, in the corridor"),
        Place("LO1.1", 38, area="20", what="lobby"),
        Place("DS1.1"),
    ]
    room = Passage("room, to its door", frac("10"), frac("11"), ROOM_DOOR, door=ROOM_DOOR, density=f"{60 / 150:.2f}")
    hall = Passage("corridor", frac("1.60"), frac("18"), ROOM_DOOR, widths="2.00 - 0.40")
    stair = Passage("stair", frac("0.90"), 18 * RISER, ROOM_DOOR, STAIR, widths="1.20 - 0.30", lengths="18 × 0.331")
    lobby = Passage("lobby, to the door outside", frac("3.60"), frac("3"), ROOM_DOOR, widths="4.00 - 0.40", door=door_of("0.70"))
    arcs = [("WP1.2", "HA1.2", room), ("HA1.2", "SW1.2", hall), ("SW1.2", "LO1.1", stair), ("LO1.1", "DS1.1", lobby)]
    return Example("corridor.evac", "One room, a corridor and a stair", 240, places, arcs)


def school(is_held=True):
    """A school of two storeys for 200 pupils; is_held: whether its corridors are held to what two classrooms let through."""
    two = 2 * ROOM_DOOR
    hall = dict(width=frac("2.00"), comes=two if is_held else frac("2.60"), widths="2.40 - 0.40", is_held=is_held)
    stair_flow = WAYS[STAIR][1] * frac("1.20")
    room = Passage("classroom, to its door", frac("7"), frac("10"), ROOM_DOOR, door=ROOM_DOOR, density=f"{25 / 56:.2f}")
    across = Passage("corridor, to the other half", length=frac("16"), lengths="20 - 4", **hall)
    along = Passage("corridor, to its end", length=frac("12"), **hall)
    stair = Passage("stair, with its landing", frac("1.20"), 18 * RISER, two, STAIR, "1.50 - 0.30", "18 × 0.331", landing=frac("2.4"))
    ends = [
        Passage("lobby, to the main door", frac("5.60"), frac("5"), stair_flow + two, widths="6.00 - 0.40", door=door_of("1.50")),
        Passage("foot of stair 2, to its door", frac("2.60"), frac("3"), stair_flow + two, widths="3.00 - 0.40", door=LEAF),
    ]
    places, arcs = [], []
    for floor in (1, 2):
        places += [Place(f"WP{number}.{floor}", 30, 25) for number in (1, 2, 3, 4)]
        places += [Place(f"HA{half}.{floor}", 36, area="19.2", what="half of a corridor") for half in (1, 2)]
        arcs += [(f"WP{number}.{floor}", f"HA{(number + 1) // 2}.{floor}", room) for number in (1, 2, 3, 4)]
        arcs += [(f"HA{half}.{floor}", f"HA{3 - half}.{floor}", across) for half in (1, 2)]
        arcs += [(f"HA{half}.{floor}", f"LO{half}.1" if floor == 1 else f"SW{half}.2", along) for half in (1, 2)]
        if floor == 1:
            places += [Place("LO1.1", 57, area="30", what="lobby"), Place("LO2.1", 22, area="12", what="foot of stair 2")]
            places += [Place("DS1.1"), Place("DS2.1")]
            arcs += [(f"LO{side}.1", f"DS{side}.1", end) for side, end in enumerate(ends, 1)]
        else:
            places += [Place(f"SW{side}.2", 11, area="6", what="head of a stair") for side in (1, 2)]
            arcs += [(f"SW{side}.2", f"LO{side}.1", stair) for side in (1, 2)]
    return Example("school.evac", "School of two storeys", 120, places, arcs)


# The speed on a running escalator, and the people a second whom it takes: a planner's own choice.
ESCALATOR_PACE, ESCALATOR_FLOW = 0.50, Fraction(1)
# The flow for each metre on the level up to which everybody walks freely, as the table of the greatest flows has it.
FREE_FLOW = frac("0.64")
# The people a second whom six gates let through, with the choice for a leaf.
GATES = 6 * LEAF


def metro():
    """A metro station: an island platform between two full trains, three ways up, gates, and two passages to the street."""
    stair_flow, still_flow = WAYS[STAIR][1] * frac("1.50"), WAYS["stair 191/254"][1] * frac("0.70")
    up, trains = ESCALATOR_FLOW + stair_flow + still_flow, 2 * door_of("4.00")
    in_train = float(WAYS[LEVEL][0] * (1 - A * Fraction(170, 104)))
    train = Passage("train, to its doors", frac("4.00"), frac("7"), trains, door=door_of("4.00"), pace=in_train, density=f"{170 / 104:.2f}")
    half = dict(width=frac("3.54"), comes=FREE_FLOW * frac("3.54"), widths="(8.00 - 0.92) / 2", is_held=True)
    along = Passage("platform, to the next part", length=frac("40"), **half)
    running = Passage("running escalator", frac("1"), frac("10.7"), ESCALATOR_FLOW, door=ESCALATOR_FLOW, pace=ESCALATOR_PACE)
    stair = Passage("stair, with its landing", frac("1.50"), 30 * RISER, trains, STAIR, "1.80 - 0.30", "30 × 0.331", landing=frac("1.5"))
    still = Passage("escalator out of service", frac("0.70"), frac("10.7"), trains, "stair 191/254", "1.00 - 0.30")
    gates = Passage("mezzanine, to the gates", frac("5.60"), frac("11"), up, widths="6.00 - 0.40", door=GATES)
    out = [Passage(f"passage to exit {it}", frac("2.60"), frac(metres), up, widths="3.00 - 0.40") for it, metres in (("A", "25"), ("B", "38"))]
    thirds = range(1, 4)
    places = [Place(f"WP{3 * side + it}.0", 200, 160 if it == 2 else 170) for side in (0, 1) for it in thirds]
    places += [Place(f"HA{it}.0", 532, 30, area="280", what="third of the platform") for it in thirds]
    places += [Place(f"LO{it}.1", 342, area="180", what="half of the mezzanine") for it in (1, 2)]
    places += [Place("DS1.2"), Place("DS2.2")]
    arcs = [(f"WP{3 * side + it}.0", f"HA{it}.0", train) for side in (0, 1) for it in thirds]
    arcs += [(f"HA{one}.0", f"HA{other}.0", along) for one, other in ((1, 2), (2, 1), (2, 3), (3, 2))]
    arcs += [(f"HA{it}.0", "LO1.1", way) for it, way in zip(thirds, (running, stair, still))]
    arcs += [("LO1.1", "LO2.1", gates), *(("LO2.1", f"DS{it}.2", way) for it, way in enumerate(out, 1))]
    return Example("metro.evac", "Metro station with two trains", 200, places, arcs, ("0 Platform", "1 Mezzanine", "2 Street"))


def nine_storeys():
    """An office building of nine storeys with a stair at each end, for 300 people on each storey above the ground."""
    door = door_of("0.61")
    hall = Passage("corridor, to the stair's door", frac("2.00"), frac("45.7"), door, widths="2.40 - 0.40", door=door)
    stair = Passage("stair, with its landings", frac("0.82"), frac("6.81"), 2 * door, STAIR, "1.12 - 0.30", "3.66 × 1.86", landing=frac("4.88"))
    last = Passage("last flight, with the door", frac("0.82"), frac("6.81"), door, STAIR, "1.12 - 0.30", "3.66 × 1.86", landing=frac("4.88"), door=door)
    places, arcs = [], []
    for floor in range(2, 10):
        places += [Place(f"WP{it}.{floor}", 200, 150) for it in (1, 2)]
        places += [Place(f"SW{it}.{floor}", 9, area="5", what="landing of a stair") for it in (1, 2)]
        arcs += [(f"WP{it}.{floor}", f"SW{it}.{floor}", hall) for it in (1, 2)]
        arcs += [(f"SW{it}.{floor}", f"SW{it}.{floor - 1}" if floor > 2 else f"DS{it}.1", stair if floor > 2 else last) for it in (1, 2)]
    floors = ("1 Ground", *(f"{it} Storey {it}" for it in range(2, 10)))
    return Example("nine_storeys.plan", "Office building of nine storeys", 480, [*places, Place("DS1.1"), Place("DS2.1")], arcs, floors)


STOREYS = 20


def tower():
    """An office tower of 20 storeys for 1,600 people, with two stairs."""
    stair_flow = WAYS[STAIR][1] * frac("1.00")
    office = Passage("office, to its door", frac("10"), frac("20"), ROOM_DOOR, door=ROOM_DOOR, density=f"{40 / 200:.2f}")
    hall = Passage("corridor, to a stair", frac("1.10"), frac("10"), LEAF, widths="1.50 - 0.40", is_held=True, door=LEAF)
    stair = Passage("stair, with its landing", frac("1.00"), 20 * RISER, stair_flow + LEAF, STAIR, "1.30 - 0.30", "20 × 0.331", landing=frac("2.4"))
    lobby = Passage("lobby, to the main door", frac("3.60"), frac("8"), stair_flow, widths="4.00 - 0.40", door=door_of("1.50"))
    places = [Place("LO1.0", 114, area="60", what="lobby"), Place("DS1.0"), Place("DS2.0")]
    arcs = [("LO1.0", "DS1.0", lobby)]
    for floor in range(1, STOREYS + 1):
        places += [Place(f"WP{it}.{floor}", 60, 40) for it in (1, 2)]
        places += [Place(f"HA1.{floor}", 38, area="20", what="corridor")]
        places += [Place(f"SW{it}.{floor}", 9, area="5", what="landing of a stair") for it in (1, 2)]
        arcs += [(f"WP{it}.{floor}", f"HA1.{floor}", office) for it in (1, 2)]
        arcs += [(f"HA1.{floor}", f"SW{it}.{floor}", hall) for it in (1, 2)]
        below = [f"SW{it}.{floor - 1}" for it in (1, 2)] if floor > 1 else ["LO1.0", "DS2.0"]
        arcs += [(f"SW{it}.{floor}", below[it - 1], stair) for it in (1, 2)]
    floors = ("0 Ground", *(f"{it} Storey {it}" for it in range(1, STOREYS + 1)))
    return Example("tower.evac", f"Office tower of {STOREYS} storeys", 400, places, arcs, floors)
