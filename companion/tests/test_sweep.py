"""Sweeps: rows are those of fresh runs, in shards, by any executor, and after a kill; hostile scenarios cost a row or nothing."""
import concurrent.futures
import importlib.util
import os
import pathlib
import random
import shutil
import signal
import subprocess
import sys
import tempfile
import time
import unittest
from typing import List, NoReturn

from companion.tests.asking import OFFICE, PATIENCE, TOP, run
from evacask import Building, Refused, Shortfall, WordsError, read
from evacask.questions.sweep import Answer

ROWS = int(os.environ.get("SWEEP_ROWS", "150"))
HEAD = "name,edits\n"


def scenarios(count: int, seed: int = 1) -> List[List[str]]:
    """Edits of the office by lot; some are refused, or keep people inside."""
    dice, office = random.Random(seed), read(OFFICE).model
    ways, rooms = list(office.arcs), [it.name for it in office.rooms]
    made = []
    for _ in range(count):
        edits = []
        for _ in range(dice.randint(1, 3)):
            tail, head = dice.choice(ways)
            first = dice.randint(0, 30)
            edits.append(
                dice.choice(
                    (
                        f"rate {tail} {head} {dice.randint(0, 12)}",
                        f"shut {tail} {head}",
                        f"window {tail} {head} {first} {first + dice.randint(0, 30)}",
                        f"leave {dice.choice(rooms)} {dice.randint(1, 50)}",
                        f"enter {dice.choice(rooms)} {dice.randint(1, 20)}",
                        f"shutexit {dice.choice(('DS1.1', 'DS2.1', 'DS3.1'))}",
                    )
                )
            )
        made.append(edits)
    return made


def fresh(building: Building, edits: List[str]) -> Answer:
    """The answer by a run of its own on the edited building."""
    try:
        plan = building.edited(*edits).solve()
    except Refused as fault:
        return Answer(refused=fault.code, refused_edit=fault.text)
    except Shortfall as short:
        return Answer(people=short.people, most=short.most)
    out = plan.arrivals
    half, most_of = (next(k for k, n in enumerate(out) if 100 * n >= share * plan.people) for share in (50, 95))
    return Answer(plan.people, plan.cleared, half, most_of, plan.people)


class Sweeps(unittest.TestCase):
    def setUp(self) -> None:
        self.folder = pathlib.Path(tempfile.mkdtemp())
        self.addCleanup(shutil.rmtree, self.folder)
        self.office = read(OFFICE)

    def file(self, rows: List[List[str]], head: str = HEAD) -> pathlib.Path:
        path = self.folder / "scenarios.csv"
        path.write_text(head + "".join(f"s{at},{'; '.join(it)}\n" for at, it in enumerate(rows)))
        return path

    def test_rows_are_those_of_fresh_runs(self) -> None:
        rows: List[List[str]] = [[], *scenarios(ROWS)]
        self.assertEqual(self.office.sweep(rows), [fresh(self.office, it) for it in rows])

    def test_any_executor(self) -> None:
        rows = scenarios(30)
        wanted = self.office.sweep(rows)
        with concurrent.futures.ProcessPoolExecutor(2) as pool:
            self.assertEqual(self.office.sweep(rows, executor=pool), wanted)
        with concurrent.futures.ThreadPoolExecutor(3) as threads:
            self.assertEqual(self.office.sweep(rows, executor=threads), wanted)

    def test_dask(self) -> None:
        python = next((it for it in (sys.executable, "/usr/bin/python3") if has_distributed(it)), None)
        if python is None:
            self.untried("Dask's local cluster (Debian's python3-distributed)")
        done = subprocess.run([python, "-c", DASK, str(OFFICE)], capture_output=True, text=True, timeout=PATIENCE, env=environment())
        self.assertEqual(done.stdout.strip(), "True", done.stderr[-2000:])

    def untried(self, what: str) -> NoReturn:
        """Says that something isn't installed here, also if tests are run without a word."""
        sys.stderr.write(f"test_sweep: {what} isn't installed, and wasn't tried\n")
        raise unittest.SkipTest(what)

    def test_shards_join_to_the_whole_by_xargs(self) -> None:
        self.assert_shards_join("seq 1 4 | xargs -P 4 -I{}")

    def test_shards_join_to_the_whole_by_gnu_parallel(self) -> None:
        if shutil.which("parallel") is None:
            self.untried("GNU parallel (Debian's parallel)")
        self.assert_shards_join("seq 1 4 | parallel --will-cite")

    def assert_shards_join(self, starter: str) -> None:
        """Four shards, each started by a line of the shell that ends with `starter`, make the bytes of one run."""
        path = self.file(scenarios(40))
        line = f"{sys.executable} -B evacask sweep {OFFICE} {path} --jobs 1 --shard {{}}/4 -o {self.folder}/part_{{}}.csv"
        started = subprocess.run(f"{starter} {line}", shell=True, cwd=TOP, timeout=PATIENCE, env=environment(), capture_output=True, text=True)
        joined = subprocess.run("LC_ALL=C sort -t, -k1,1n -u part_?.csv", shell=True, cwd=self.folder, capture_output=True, text=True)
        self.assertEqual(joined.stdout, run("sweep", OFFICE, path).out, started.stderr[-2000:])

    def test_after_a_kill_it_goes_on(self) -> None:
        path, answers = self.file(scenarios(400)), self.folder / "answers.csv"
        whole = run("sweep", OFFICE, path)
        words = [sys.executable, "-B", str(TOP / "evacask"), "sweep", str(OFFICE), str(path), "--jobs", "1", "-o", str(answers)]
        with subprocess.Popen(words, env=environment(), stderr=subprocess.DEVNULL) as process:
            until = time.monotonic() + 60
            while time.monotonic() < until and (not answers.exists() or answers.stat().st_size < 1000) and process.poll() is None:
                time.sleep(0.01)
            process.send_signal(signal.SIGKILL)
        self.assertLess(answers.stat().st_size, len(whole.out))
        answers.write_bytes(answers.read_bytes()[:-7])  # (and the last row was half written)
        again = run("sweep", OFFICE, path, "-o", answers)
        self.assertEqual((again.status, answers.read_text()), (whole.status, whole.out))
        third = run("sweep", OFFICE, path, "-o", answers)
        self.assertEqual((third.status, answers.read_text()), (whole.status, whole.out))

    def test_answers_of_another_building_are_left_alone(self) -> None:
        path, answers = self.file(scenarios(3)), self.folder / "answers.csv"
        run("sweep", OFFICE, path, "-o", answers)
        before = answers.read_bytes()
        for words in (("--edit", "rate SW2.2 DS2.1 3"), ("--shard", "2/2")):
            said = run("sweep", OFFICE, path, "-o", answers, *words)
            self.assertEqual((said.status, answers.read_bytes()), (1, before))
            self.assertIn("row 2: this answers another scenario or another building", said.err)

    def test_one_bad_row_costs_one_row(self) -> None:
        rows = [["rate SW2.2 DS2.1 3"], ["shut HA9.9 SW2.2"], ["rate SW2.2 DS2.1 10001"], ["leave WP1.1 10"]]
        said = run("sweep", OFFICE, self.file(rows))
        self.assertEqual(said.status, 1)
        self.assertEqual([line.split(",")[-2] for line in said.lines[1:]], ["", "13", "7", ""])

    def test_hostile_scenarios_are_named(self) -> None:
        for cell, what in (
            ('"shut A\nquit"', "row 3, column 2: 'shut A?quit' has a line end"),
            ("undo", "row 3, column edits: undo is no edit"),
            ("rate SW2.2 DS2.1 3; quit", "row 3, column edits: quit is no edit"),
            (f"rate {'SW2.2' * 60} DS2.1 3", "row 3, column edits: an edit has more than 200 bytes"),
            ("a,b,c", "row 3: there are 4 cells and 2 columns"),
            ('"open', "row 3: a row that begins here is no CSV"),
        ):
            with self.subTest(cell):
                path, answers = self.folder / "hostile.csv", self.folder / "answers.csv"
                path.write_text(f"{HEAD}a,shut LO1.1 DS1.1\nb,{cell}\n")
                said = run("sweep", OFFICE, path, "-o", answers)
                self.assertEqual((said.status, said.out, answers.exists()), (1, "", False))
                self.assertIn(what, said.err)
        for edit in ("undo", "quit", "shut A\nquit", "", "# shut A"):
            with self.assertRaises(WordsError):
                self.office.sweep([[edit]])

    def test_names_are_no_formulas(self) -> None:
        path = self.folder / "s.csv"
        path.write_text(f"{HEAD}=1+1,shut HA1.2 SW2.2\n")
        self.assertTrue(run("sweep", OFFICE, path).lines[1].startswith("2,'=1+1,"))


DASK = """
import sys
from dask.distributed import Client, LocalCluster
from evacask import read
if __name__ == "__main__":
    office = read(sys.argv[1])
    rows = [[f"rate SW2.2 DS2.1 {it}"] for it in range(1, 13)]
    with LocalCluster(n_workers=2, threads_per_worker=1, dashboard_address=None, host="127.0.0.1") as cluster, Client(cluster) as client:
        print(office.sweep(rows, executor=client.get_executor()) == office.sweep(rows))
"""


def environment() -> "dict[str, str]":
    return {**os.environ, "PYTHONPATH": str(TOP / "companion/src"), "PYTHONDONTWRITEBYTECODE": "1"}


def has_distributed(python: str) -> bool:
    if python == sys.executable:
        return importlib.util.find_spec("distributed") is not None
    return os.path.exists(python) and subprocess.run([python, "-c", "import distributed"], capture_output=True).returncode == 0


if __name__ == "__main__":
    unittest.main()
