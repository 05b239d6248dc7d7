"""Pages of `evacask report`, read back by a reader that shares no code with the package, and looked at by a browser if there is one."""
import csv
import html
import io
import json
import pathlib
import random
import re
import shutil
import subprocess
import tempfile
import unittest
import unittest.mock
from typing import Any, Dict, List, Set, Tuple

from companion.tests import twenty_pages
from companion.tests.buildings import random_building
from companion.tests.package import OFFICE, PATIENCE, SCHOOL, TOP, TOWER, ask, program
from companion.tests.page_check import held
from companion.tests.page_reader import Page
from companion.tests.planned_page import Building, Names, Planned
from evacask.faces.page import marks
from evacask.faces.page.curve import COLOURS
from evacask.faces.page.drawing import EXIT, FULL, UNUSED, USED
from evacask.model.ground import Ground

METRO = TOP / "examples/metro.evac"
BROWSER = shutil.which("chromium") or shutil.which("chromium-browser") or shutil.which("google-chrome")
# How far the page is wider than its window, which texts stand over others, and which are cut off by their picture. A text has a box for each line.
MEASURE = """
const main = document.querySelector('main'), over = [], boxes = [];
const add = (text, box, whole) => {
  const isCut = whole && (box.left < whole.left - 1 || box.right > whole.right + 1 || box.bottom > whole.bottom + 1 || box.top < whole.top - 1);
  if (isCut) over.push(text + ' is cut');
  if (box.width) boxes.push([text, box]);
};
for (const svg of main.querySelectorAll('svg')) {
  const whole = svg.getBoundingClientRect();
  for (const it of svg.querySelectorAll('text')) add(it.textContent, it.getBoundingClientRect(), whole);
}
const walker = document.createTreeWalker(main, NodeFilter.SHOW_TEXT);
for (let node = walker.nextNode(); node; node = walker.nextNode()) {
  if (node.parentElement.closest('svg') || !node.data.trim()) continue;
  const range = document.createRange();
  range.selectNodeContents(node);
  for (const box of range.getClientRects()) add(node.data.trim(), box);
}
boxes.forEach(([one, a], at) => {
  for (const [other, b] of boxes.slice(at + 1)) {
    const wide = Math.min(a.right, b.right) - Math.max(a.left, b.left), high = Math.min(a.bottom, b.bottom) - Math.max(a.top, b.top);
    if (wide > 1 && high > 5) over.push(one + ' over ' + other);
  }
});
const wide = document.documentElement.scrollWidth - document.documentElement.clientWidth;
const drawn = [...main.querySelectorAll('svg')].filter(it => it.getAttribute('aria-labelledby').startsWith('building')).reduce((sum, it) => sum + it.clientHeight, 0);
parent.postMessage('MEASURED' + JSON.stringify({width: innerWidth, wide, over, texts: boxes.length, drawn}) + 'MEASURED', '*');
"""
# A page in a frame, since a window of Chromium is no narrower than 500 pixels.
FRAME = """<!doctype html><body style="margin: 0"><script>onmessage = (told) => { document.body.textContent = told.data; };</script>
<iframe src="page.html" style="border: 0; width: {width}px; height: 2000px"></iframe></body>
"""
# The pixels of A4 between its margins, of 96 to an inch; and of a phone and a screen.
PAPER, PHONE, SCREEN, SCREEN_HEIGHT = 680, 390, 1000, 900
# A late-comer, a closure, own names, shares and nobody inside: each a building of its own.
ODD = {
    "a closure": "evacplan 2\nperiod 5\nhorizon 30\nfloor 1 G\nnode WP1.1 10 6\nnode HA1.1 10 0\nnode DS1.1\narc WP1.1 HA1.1 1 3\narc HA1.1 DS1.1 1 2\n"
    "window HA1.1 DS1.1 2 5\nend\n",
    "late-comers": "evacplan 2\nperiod 5\nhorizon 30\nfloor 1 G\nnode WP1.1 4 3\nnode DS1.1\narc WP1.1 DS1.1 1 2\nentrant WP1.1 4 3\nend\n",
    "shares": "evacplan 1\n#shares 4\nperiod 5\nhorizon 30\nfloor 1 G\nnode WP1.1 40 14\nnode DS1.1\narc WP1.1 DS1.1 1 3\nend\n",
    "nobody": "evacplan 1\nperiod 5\nhorizon 30\nfloor 1 G\nnode WP1.1 40 0\nnode DS1.1\narc WP1.1 DS1.1 1 3\nend\n",
    "a shortfall": "evacplan 1\nperiod 5\nhorizon 3\nfloor 1 G\nnode WP1.1 40 14\nnode DS1.1\narc WP1.1 DS1.1 1 3\nend\n",
    "no way out": "evacplan 1\nperiod 5\nhorizon 3\nfloor 1 G\nnode WP1.1 40 2\nnode WP2.1 9 5\nnode DS1.1\narc WP1.1 DS1.1 1 3\nend\n",
}
# The mark of each section's heading.
SECTIONS = {
    "Why not sooner": "proved",
    "People out by time": "proved",
    "The building": "evacask",
    "Full in every best plan": "by the cuts",
    "Storeys over time": "printed plan",
    "Rooms and their ways": "printed plan",
    "What each way is worth": "proved",
    "Assumptions": "evacask",
}
HOSTILE = (
    "</title><script>alert(1)</script>",
    '"><svg onload=alert(3)>',
    "<img src=x onerror=alert(2)>",
    "</bdi></table></pre><style>body{display:none}</style>",
    "<!-- comment",
    "]]><![CDATA[x",
    "&lt;b&gt; &amp; &#60;script&#62;",
    "' onmouseover='alert(1)",
    "javascript:alert(1)",
    "\u202egnp.exe \u2066abc\u2069",
    "\u05d0\u05d1\u05d2 \u0627\u0628",
    "\x1b[2J\x1b]0;owned\x07",
    "x" * 10_000,
    "\ufdfd\U0001f9d1\u200d\U0001f692 e\u0301",
    "${7*7} {{7*7}} %s {0}",
    b"\xff\xfe\x80 \xc3(".decode("utf-8", "surrogateescape"),
    "url(//x) @import 'x'; }</style>",
)


def page_of(text: bytes, *words: str) -> str:
    """The page about a building."""
    said = ask("report", "-", *words, text=text)
    assert said.status in (0, 1) and said.err == "", said
    return said.out


def building_with(text: str) -> bytes:
    """A building whose title, floors, own names and comments are a text."""
    lines = [f"# {text}", "evacplan 1", f"title {text}", "period 5", "horizon 20", f"floor 1 {text}", f"#: {text}", "node WP1.1 10 3", "node DS1.1"]
    return "\n".join([*lines, f"#: {text}", "arc WP1.1 DS1.1 1 2", "end", f"# {text}", ""]).encode("utf-8", "surrogateescape")


class Numbers(unittest.TestCase):
    def test_each_number_is_the_programs(self) -> None:
        for name, text in {**twenty_pages.texts(), **{name: text.encode() for name, text in ODD.items()}}.items():
            with self.subTest(name):
                found = twenty_pages.read_back(program(), name, text)
                self.assertEqual(found.wrong, [])
                self.assertGreater(found.count, 5)

    def test_an_edit_of_a_plan_in_metres_leaves_its_bracket_out(self) -> None:
        # (the bracket is that of the drawing, and without the second exit all are out later than its later end)
        plan, says = TOP / "examples/school.plan", "Whichever way the numbers of the drawing in metres are rounded"
        self.assertIn(says, ask("report", plan, "--trials", "0").out)
        self.assertNotIn(says, ask("report", plan, "--trials", "0", "--edit", "shutexit DS2.1").out)

    def test_the_reader_sees_each_number_that_is_changed(self) -> None:
        text = OFFICE.read_bytes()
        page = page_of(text, "--trials", "8")
        body = page.index("<main>")
        numbers = [it for it in re.finditer(r">([^<>]*\d[^<>]*)<", page[: page.index("<pre>")]) if it.start() > body and "Third" not in it[1]]
        for it in random.Random(1).sample(numbers, 40):
            with self.subTest(it[1]):
                wrong = re.sub(r"\d", lambda digit: str((int(digit[0]) + 1) % 10), it[1], count=1)
                self.assertNotEqual(held(program(), text, f"{page[:it.start(1)]}{wrong}{page[it.end(1):]}", 8).wrong, [])

    def test_the_same_bytes_each_time(self) -> None:
        self.assertEqual(page_of(SCHOOL.read_bytes()), page_of(SCHOOL.read_bytes()))

    def test_two_designs_in_one_picture(self) -> None:
        page = Page(ask("report", OFFICE, "--against", SCHOOL, "--trials", "0").out)
        rows = page.rows("Side by side")
        self.assertEqual([it[0] for it in rows], ["this building", "School of two storeys"])
        self.assertEqual([it[2] for it in rows], ["140 to 145", "110 to 115"])
        self.assertEqual(page.order.count("polyline"), 2)
        self.assertEqual(page.faults, [])


class Marks(unittest.TestCase):
    def test_each_section_shows_its_mark(self) -> None:
        page = Page(page_of(OFFICE.read_bytes(), "--trials", "0"))
        self.assertEqual({name: it.mark for name, it in page.sections.items() if name in SECTIONS}, SECTIONS)

    def test_a_mark_that_is_changed_is_seen(self) -> None:
        for ground in Ground:
            kept, other = marks.MARKS[ground], next(it for it in Ground if it != ground)
            with self.subTest(ground), unittest.mock.patch.object(marks, "mark", lambda it: kept_mark(other if it == ground else it)):
                page = Page(page_of(OFFICE.read_bytes(), "--trials", "0"))
                changed = {name: it.mark for name, it in page.sections.items() if name in SECTIONS}
                self.assertEqual(changed != SECTIONS, ground.value in SECTIONS.values(), kept)


kept_mark = marks.mark


class Unproved(unittest.TestCase):
    def test_the_page_of_an_unproved_program_says_so_first(self) -> None:
        page, says = page_of(OFFICE.read_bytes(), "--trials", "0"), "isn't proved on this machine"
        first = [it for it in Page(page).sections[""].paragraphs if says in it]
        self.assertEqual(len(first), 0 if "It is proved in logic" in page else 1)


class FullInEveryBestPlan(unittest.TestCase):
    """What is marked is what counts in some printed cut, and each other best plan that is found fills it."""

    def test_on_random_buildings(self, number: int = 12) -> None:
        chance, tried = random.Random(671), 0
        while tried < number:
            text = random_building(chance)
            said = ask("tables", "full", "-", "--csv", text=text)
            if said.status == 0 and "\ncleared 0\n" not in Building(program(), text.encode()).ask(["solve"], text.encode()):
                tried += 1
                rows = csv.DictReader(io.StringIO(said.out))
                with self.subTest(text):
                    self.compare(text, {((it["from"], it["to"]) if it["to"] else (it["from"],), int(it["moment"])) for it in rows}, chance)

    def compare(self, text: str, marked: Set[Tuple[Names, int]], chance: random.Random) -> None:
        of = Building(program(), text.encode())
        self.assertEqual(marked, {(names, t) for names, moments in Planned(of).full().items() for t in moments})
        for _ in range(4):
            other = Planned(Building(program(), shuffled(text, chance).encode()))
            entered: Dict[Tuple[Names, int], int] = {((tail, head), t): people for t, tail, head, people in other.moves}
            for names, t in marked:
                if len(names) == 2:
                    self.assertEqual(entered.get((names, t), 0), of.arcs[names[0], names[1]][1], (names, t))
                else:
                    self.assertEqual(stay(of, other, names[0], t), of.nodes[names[0]][0], (names, t))


def stay(of: Building, plan: Planned, name: str, moment: int) -> int:
    """How many are in a node at a moment and don't leave it then."""
    come = of.nodes[name][1] + sum(n for it, t, n in of.entrants if it == name and t <= moment)
    come += sum(n for t, tail, head, n in plan.moves if head == name and t + of.arcs[tail, head][0] <= moment)
    return come - sum(n for t, tail, _, n in plan.moves if tail == name and t <= moment)


def shuffled(text: str, chance: random.Random) -> str:
    """The same building with its arcs in another order."""
    lines = text.splitlines(keepends=True)
    places = [at for at, it in enumerate(lines) if it.startswith("arc ")]
    arcs = [lines[at] for at in places]
    chance.shuffle(arcs)
    for at, arc in zip(places, arcs):
        lines[at] = arc
    return "".join(lines)


class HostileTexts(unittest.TestCase):
    def test_they_show_as_text(self) -> None:
        self.assertEqual(len(HOSTILE), 17)
        tags = Page(page_of(building_with("plain"))).order
        for text in (it[:150] for it in HOSTILE):  # (a line of a building has at most 200 bytes)
            with self.subTest(text):
                page = Page(page_of(building_with(text)))
                self.assertEqual((page.faults, page.order), ([], tags))
                self.assertTrue(page.title.isprintable())
                shown = "".join(it if it.isprintable() else "\ufffd" for it in text)
                lines = page.pre.splitlines()
                self.assertEqual([lines.count(it) for it in (f"# {shown}", f"title {shown}", f"floor 1 {shown}", f"#: {shown}")], [2, 1, 1, 2])

    def test_the_title_of_the_words(self) -> None:
        tags = Page(page_of(OFFICE.read_bytes(), "--title", "plain", "--trials", "0")).order
        for text in HOSTILE:
            with self.subTest(text[:40]):
                page = Page(page_of(OFFICE.read_bytes(), "--title", text, "--trials", "0"))
                shown = "".join(it if it.isprintable() else "\ufffd" for it in text)
                self.assertEqual((page.faults, page.order, page.title), ([], tags, f"{shown}: evacuation"))


@unittest.skipUnless(BROWSER, "left out: there is no Chromium here")
class InABrowser(unittest.TestCase):
    """Boxes are read by a script of a test page, in which the page stands without its wall against scripts."""

    def setUp(self) -> None:
        self.room = pathlib.Path(self.enterContext(tempfile.TemporaryDirectory()) if hasattr(self, "enterContext") else tempfile.mkdtemp())
        self.addCleanup(shutil.rmtree, self.room, ignore_errors=True)

    def chromium(self, *words: str) -> str:
        command = [f"{BROWSER}", "--headless=new", "--no-sandbox", "--disable-gpu", f"--user-data-dir={self.room / 'user'}", *words]
        return subprocess.run(command, capture_output=True, timeout=PATIENCE).stdout.decode("utf-8", "replace")

    def measured(self, page: str, width: int) -> Dict[str, Any]:
        """What the script of a test page measures of a page at a width of the window; at that of paper, as it is laid out for print."""
        path, laid = self.room / "page.html", page.replace("@media print", "@media all") if width == PAPER else page
        path.write_text(re.sub(r"<meta http-equiv[^>]*>", "", laid).replace("</body>", f"<script>{MEASURE}</script></body>"), encoding="utf-8")
        frame = self.room / "frame.html"
        frame.write_text(FRAME.replace("{width}", f"{width}"), encoding="utf-8")
        found = re.search(r"MEASURED(.*?)MEASURED", self.chromium("--virtual-time-budget=20000", "--dump-dom", frame.as_uri()), re.S)
        self.assertIsNotNone(found)
        said: Dict[str, Any] = json.loads(html.unescape(found[1])) if found else {}
        self.assertEqual(said["width"], width)
        return said

    def pages(self) -> Dict[str, str]:
        """Pages of all kinds: a small building and large ones, folded storeys, two designs, a shortfall, and a plan in metres."""
        tower, metro, plan = TOWER.read_bytes(), METRO.read_bytes(), (TOP / "examples/school.plan").read_bytes()
        return {
            "office": page_of(OFFICE.read_bytes()),
            "metro": page_of(metro, "--trials", "0"),
            "tower": page_of(tower, "--trials", "0"),
            "two designs": ask("report", OFFICE, "--against", SCHOOL, "--trials", "0").out,
            "a shortfall": page_of(ODD["a shortfall"].encode()),
            "a plan": page_of(plan, "--trials", "0"),
            "an arena": page_of(twenty_pages.BENCH.arena().encode(), "--trials", "0"),
        }

    def test_nothing_overflows_and_no_text_is_over_another(self) -> None:
        for name, page in self.pages().items():
            for width in (SCREEN, PHONE, PAPER):
                with self.subTest(f"{name} {width}"):
                    found = self.measured(page, width)
                    self.assertEqual((found["wide"], found["over"]), (0, []))
                    self.assertGreater(found["texts"], 20)

    def test_the_measure_sees_a_text_over_another(self) -> None:
        page = page_of(OFFICE.read_bytes(), "--trials", "0")
        for change in ("td { line-height: 0.2; }", "tr { position: absolute; }"):
            found = self.measured(page.replace("</style>", f"{change}</style>"), PAPER)
            self.assertNotEqual(found["over"], [], change)
        self.assertGreater(self.measured(page.replace("</style>", "table { min-width: 900px; }</style>"), PAPER)["wide"], 0)

    def test_a_folded_tower_fits_two_screens(self) -> None:
        drawn = self.measured(page_of(TOWER.read_bytes(), "--trials", "0"), SCREEN)["drawn"]
        self.assertTrue(100 < drawn < 2 * SCREEN_HEIGHT, drawn)

    def test_it_prints_on_paper(self) -> None:
        page, paper = self.room / "page.html", self.room / "page.pdf"
        page.write_text(page_of(OFFICE.read_bytes(), "--trials", "0"), encoding="utf-8")
        self.chromium("--no-pdf-header-footer", f"--print-to-pdf={paper}", page.as_uri())
        self.assertTrue(paper.read_bytes().startswith(b"%PDF"))
        if shutil.which("pdftotext"):
            self.assertEqual(printed_over(paper), [])


def printed_over(paper: pathlib.Path) -> List[str]:
    """The words of a printed page that stand over others, or beyond its margins; by the boxes that pdftotext tells, in points."""
    said = subprocess.run(["pdftotext", "-bbox", str(paper), "-"], capture_output=True, check=True, timeout=PATIENCE).stdout.decode()
    wrong = []
    for page in said.split("<page ")[1:]:
        across = float(page.split('width="')[1].split('"')[0])
        words = [([float(it) for it in box], word) for *box, word in re.findall(r'xMin="(.*?)" yMin="(.*?)" xMax="(.*?)" yMax="(.*?)">(.*?)<', page)]
        for at, ((left, top, right, bottom), word) in enumerate(words):
            wrong += [f"{word} is beyond the margin"] if left < 40 or right > across - 40 else []
            wrong += [
                f"{word} over {it}" for (l, t, r, b), it in words[at + 1 :] if min(right, r) - max(left, l) > 1 and min(bottom, b) - max(top, t) > 3
            ]
    return wrong


class Colours(unittest.TestCase):
    def test_each_text_stands_out(self) -> None:
        """The contrast of each colour of a text is 4.5 at least, as WCAG works it out."""
        style = Page(page_of(ODD["nobody"].encode())).style
        known = dict(re.findall(r"--(\w+): (#\w+)", style))
        inks = [known.get(name, plain) for name, plain in re.findall(r"[^-]color: (?:var\(--(\w+)\)|(#\w+))", style)]
        for ink in [*inks, known["ink"], known["soft"]]:
            with self.subTest(ink):
                self.assertGreaterEqual(contrast(ink, known["paper"]), 4.5)
                self.assertGreaterEqual(contrast(ink, known["pale"]), 4.5)
        self.assertGreaterEqual(contrast(known["paper"], EXIT), 4.5)
        self.assertGreaterEqual(min(contrast(it, known["paper"]) for it in (FULL, USED, UNUSED, *COLOURS)), 3)
        self.assertGreater(len(inks), 5)


def contrast(one: str, other: str) -> float:
    """The contrast of two colours."""
    low, high = sorted(map(light, (one, other)))
    return (high + 0.05) / (low + 0.05)


def light(colour: str) -> float:
    """The relative luminance of a colour, by WCAG 2."""
    digits = colour[1:] if len(colour) == 7 else "".join(it * 2 for it in colour[1:])
    parts = [int(digits[at : at + 2], 16) / 255 for at in (0, 2, 4)]
    red, green, blue = (float(it / 12.92 if it <= 0.03928 else ((it + 0.055) / 1.055) ** 2.4) for it in parts)
    return 0.2126 * red + 0.7152 * green + 0.0722 * blue


if __name__ == "__main__":
    unittest.main()
