#!/usr/bin/env python3
"""Tests the scripts `evacplan`, `build` and `.ci/run` on copies of them, with stand-ins for the kit's commands: nothing is proved or built here.

Most cases are rows of a table: what is done before, the command, and what comes of it. Those that act while a command runs are functions.
"""
from __future__ import annotations

import concurrent.futures
import os
import pathlib
import re
import shutil
import signal
import subprocess
import sys
import tempfile
import time
import unittest
from dataclasses import dataclass, field
from typing import Any, Callable, Dict, List, Optional, Tuple

sys.path[:0] = [str(pathlib.Path(__file__).resolve().parent / name) for name in ("front", "../companion/src/evacask/client")]
import sources  # noqa: E402
from place import CRATES, LOGIC, TOP, TWO_BELOW, Place, await_true  # noqa: E402

NOTE = "evacplan: not proved on this machine; ./build proves it"
FIRST = "no program is built yet"
SOLVE = ("evacplan", "solve")
Act = Callable[[Place], object]


def nothing(place: Place) -> None:
    """Nothing is done before."""


@dataclass
class Row:
    """A case: what is done before, the words of the command, and what is wanted of its status, its streams and its calls of the kit."""

    name: str
    before: Act
    words: Tuple[str, ...]
    status: int = 0
    out: Optional[str] = None
    says: Tuple[str, ...] = ()
    lines: Optional[int] = None
    calls: Optional[str] = None
    how: Dict[str, "str | int | None"] = field(default_factory=dict)
    at_terminal: bool = False
    rows: str = CRATES
    after: Callable[[Place], str] = lambda place: ""

    def faults(self, here: pathlib.Path) -> List[str]:
        """What isn't as it is wanted."""
        place = Place(here, self.rows)
        self.before(place)
        place.forget_calls()
        how: Dict[str, Any] = {**({} if self.at_terminal else {"given": "a building\n"}), **self.how}
        if self.at_terminal:
            place.run_at_terminal(*self.words, **how)
        else:
            place.run(*self.words, **how)
        lines = place.err.count("\n")
        faults = [f"status {place.status} and not {self.status}"] if place.status != self.status else []
        faults += [f"printed {place.out[:300]!r} and not {self.out!r}"] if self.out is not None and place.out != self.out else []
        faults += [f"doesn't say {it!r}" for it in self.says if it not in place.err]
        faults += [f"{lines} lines on standard error and not {self.lines}"] if self.lines is not None and lines != self.lines else []
        faults += [f"called {place.calls} and not {self.calls}"] if self.calls is not None and place.calls != self.calls else []
        faults += [f"left {place.left}"] if place.left else []
        faults += [it for it in [self.after(place)] if it]
        return [f"{it}\n{place.err}" for it in faults]


def proved(place: Place) -> None:
    place.put_program()


def unproved(place: Place) -> None:
    place.put_program(sources.UNPROVED_PLACE)


def then(*acts: Act) -> Act:
    def act(place: Place) -> None:
        for it in acts:
            it(place)

    return act


def edit(name: str, text: str = "edited\n", backwards: bool = False) -> Act:
    """Changes a file of the repository; it may get its old time back."""

    def act(place: Place) -> None:
        file = place.repo / name
        about = file.stat() if file.exists() else None
        place.write(name, text)
        if about and backwards:
            os.utime(file, ns=(about.st_atime_ns, about.st_mtime_ns))

    return act


def remove(name: str) -> Act:
    def act(place: Place) -> None:
        at = place.repo / name
        shutil.rmtree(at) if at.is_dir() else at.unlink()

    return act


def build(*words: str, **how: str) -> Act:
    return lambda place: place.run("build", *words, **how)


def link_source(place: Place) -> None:
    """A source is a link to a file elsewhere."""
    source = place.repo / "crates/low/src/one.rt"
    shutil.move(source, place.here / "one.rt")
    source.symlink_to(place.here / "one.rt")


def only_these(*names: str) -> Act:
    """Leaves these commands on the path alone."""

    def act(place: Place) -> None:
        (place.here / "few").mkdir()
        for name in ("bash", "sh", "env", "dirname", "readlink", "sort", "cat", "sed", "python3", *names):
            (place.here / "few" / name).symlink_to(shutil.which(name) or name)
        place.env["PATH"] = f"{place.here}/few" + (f":{place.here}/bin" if "rt" in names else "")

    return act


def companion(place: Place) -> None:
    place.write("evacask", "#!/bin/sh\n").chmod(0o755)


def read_only(place: Place) -> None:
    """The repository may be read alone, by somebody who isn't root."""
    for path in [place.here, *place.here.rglob("*")]:
        path.chmod(0o755)
    for path in [place.here, place.tmp]:
        path.chmod(0o777)
    os.chmod(place.repo, 0o555)
    if os.getuid() == 0:
        place.write("../as_nobody", '#!/bin/sh\nshift\nexec setpriv --reuid=65534 --regid=65534 --clear-groups "$@"\n').chmod(0o755)


def program_is(state: sources.State) -> Callable[[Place], str]:
    def fault(place: Place) -> str:
        found = sources.found(place.repo)
        return "" if found.state is state else f"{found} and not {state}"

    return fault


def left_no_program(place: Place) -> str:
    return "a program is left" if (place.repo / sources.PROVED_PLACE).exists() else ""


def made_anew(name: str, before: Act, why: str, calls: str = "version,try,compiles", first: Act = proved, **more: str) -> Row:
    """A program that isn't of these sources isn't run: an unproved one is made, and it is said why."""
    return Row(name, then(first, before), SOLVE, out="unproved: solve, a building\n", says=(why, NOTE), lines=2, calls=calls, after=program_is(sources.State.UNPROVED), **more)  # type: ignore[arg-type]


def runs_it(name: str, *acts: Act, lines: int = 0, out: str = "proved: solve, a building\n", first: Act = proved) -> Row:
    return Row(name, then(first, *acts), SOLVE, out=out, lines=lines, calls="")


LOW = "crates/low/src/one.rt"
PROVES = "version,proves low,proves other,proves evacplan"
FIRST_RUNS = [
    Row(
        "the first run makes a program without a proof, says so, and gives its answer",
        nothing,
        ("evacplan", "solve", "--reports"),
        out="unproved: solve,--reports, a building\n",
        says=(FIRST, NOTE),
        lines=2,
        calls="version,try,compiles",
        after=program_is(sources.State.UNPROVED),
    ),
    Row("the next one takes it at once", build("--unproved"), SOLVE, out="unproved: solve, a building\n", says=(NOTE,), lines=1, calls=""),
    Row("the status is the program's, 1", unproved, ("evacplan", "end", "1"), 1, lines=1),
    Row("the status is the program's, 5", unproved, ("evacplan", "end", "5"), 5, lines=1),
    Row("a block of more than 1 MiB comes whole", unproved, ("evacplan", "long"), out="\0" * 2097152, lines=1),
    Row("closed input is closed for the program too", unproved, ("evacplan", "input"), out="input is closed\n", how={"given": None}),
    *(
        Row(
            f"a {word} at a terminal is answered",
            unproved,
            ("evacplan", word),
            out=f"unproved: {word}, a line\n",
            says=(NOTE,),
            how={"typed": "a line\n\x04"},
            at_terminal=True,
        )
        for word in ("session", "study", "replan")
    ),
    Row(
        "a program that can't be built is status 70, and it is said why",
        nothing,
        SOLVE,
        70,
        "",
        ("one.rt:1: error", "could not be built"),
        calls="version,try",
        how={"RT_FAILS": "try"},
        after=program_is(sources.State.NONE),
    ),
    Row("nor one that isn't compiled", nothing, SOLVE, 70, "", ("is not compiled",), how={"RT_FAILS": "clang"}, after=program_is(sources.State.NONE)),
    Row("nor one that isn't linked", nothing, SOLVE, 70, "", ("is not linked",), how={"RT_FAILS": "program"}, after=program_is(sources.State.NONE)),
    Row("without rt it is status 70", only_these("find"), SOLVE, 70, "", ("rt isn't on the path",), 1),
    Row("a program that is kept needs no rt", then(unproved, only_these("find")), SOLVE, out="unproved: solve, a building\n", lines=1),
    Row("without find the sources are read", then(proved, only_these("rt")), SOLVE, out="proved: solve, a building\n", lines=0, calls=""),
    Row(
        "no folder for temporary files is said as such",
        nothing,
        SOLVE,
        70,
        "",
        ("no room for temporary files in /no/such",),
        how={"TMPDIR": "/no/such"},
    ),
    Row("no room for temporary files is said as such", nothing, SOLVE, 70, "", ("no room for temporary files",), how={"limit": 4096}),
    Row(
        "another kit is said before anything is built",
        nothing,
        SOLVE,
        70,
        "",
        ("logic fedcba9876543210", f"logic {LOGIC}"),
        1,
        "version",
        {"RT_LOGIC": "fedcba9876543210"},
    ),
    Row(
        "a source that changes while it is built is noticed",
        nothing,
        SOLVE,
        out="unproved: solve, a building\n",
        says=(FIRST, f"changed since: {LOW};"),
        lines=3,
        calls="version,try,compiles,try,compiles",
        how={"RT_FAILS": "edit"},
        after=program_is(sources.State.UNPROVED),
    ),
]
BUILT = [
    runs_it("the proved program is run with its words and streams, and nothing is said"),
    Row("words go through as they are", proved, ("evacplan", "solve", "two words"), out="proved: solve,two words, a building\n", lines=0, calls=""),
    Row("its status is that of the script", proved, ("evacplan", "end", "5"), 5, lines=0, how={"given": None}),
    Row(
        "refused words at a terminal get the line that names the words",
        proved,
        ("evacplan", "end", "2"),
        2,
        "proved: end,2,\n",
        ("docs/users/formats.md", "solve < examples/office.evac"),
        1,
        at_terminal=True,
    ),
    Row("and none if standard error is a file", proved, ("evacplan", "end", "2"), 2, lines=0),
    *(
        Row(f"status {status} gets no line at a terminal", proved, ("evacplan", "end", f"{status}"), status, lines=0, at_terminal=True)
        for status in (0, 1)
    ),
    *(
        Row(f"status {status} gets a line at a terminal", proved, ("evacplan", "end", f"{status}"), status, None, (said,), 1, at_terminal=True)
        for status, said in ((3, "standard input"), (4, "standard output"), (5, "memory"), (6, "UTF-8"))
    ),
    *(
        Row(
            f"a {word} at a terminal names the companion",
            then(proved, companion),
            ("evacplan", word),
            0,
            f"proved: {word}, a line\n",
            ("./evacask session BUILDING",),
            1,
            how={"typed": "a line\n\x04"},
            at_terminal=True,
        )
        for word in ("session", "study", "replan")
    ),
    Row("a session names it to nobody else", then(proved, companion), ("evacplan", "session"), lines=0),
    Row("a session names no companion that isn't there", proved, ("evacplan", "session"), lines=0, at_terminal=True),
]
CHANGED = [
    *(made_anew(f"a changed byte of {name} is noticed", edit(name), f"changed since: {name}") for name in (LOW, "crates/evacplan/proofs/One.antt")),
    *(
        made_anew(f"a changed byte of {name} is noticed if its time is as it was", edit(name, backwards=True), f"changed since: {name}")
        for name in (LOW, "crates/evacplan/proofs/One.antt")
    ),
    made_anew("so it is by an unproved program", edit(LOW, backwards=True), f"changed since: {LOW}", first=unproved),
    made_anew(
        "a row of crates.txt that changed is noticed", edit("crates.txt", CRATES.replace("low:", "low: arrayvec")), "changed since: crates.txt"
    ),
    made_anew("a new file is noticed", edit("crates/low/specs/New.antt"), "changed since: crates/low/specs/New.antt"),
    made_anew("a file that is gone is noticed", remove("crates/low/proofs/One.antt"), "changed since: crates/low/proofs/One.antt"),
    *(
        made_anew(
            f"a folder {part} that is gone is noticed",
            remove(f"crates/low/{part}"),
            f"changed since: crates/low/{part}/One.antt" if part == "proofs" else f"changed since: {LOW}",
        )
        for part in ("proofs", "src")
    ),
    made_anew(
        "the target of a link that changed is noticed",
        lambda place: (place.here / "one.rt").write_text("another"),
        f"changed since: {LOW}",
        first=then(link_source, proved),
    ),
    made_anew(
        "another logic in README is noticed",
        then(edit("README.md", "rattle-kit-2 logic 00000000000000aa\n"), lambda place: place.env.update(RT_LOGIC="00000000000000aa")),
        "isn't of the logic that README.md names",
    ),
    made_anew(
        "a program that rt made meanwhile isn't taken for one of these sources",
        lambda place: (place.repo / sources.PROVED_PLACE).write_text("#!/bin/sh\necho of rt\n"),
        "isn't as it was built",
    ),
    made_anew(
        "nor one of which nothing is known", lambda place: (place.repo / f"{sources.PROVED_PLACE}.json").unlink(), "nothing says of which sources"
    ),
    Row(
        "nor one without the mark of a proof",
        then(
            unproved,
            lambda place: shutil.copytree(place.repo / "crates/evacplan/out/unproved", place.repo / "crates/evacplan/out", dirs_exist_ok=True),
        ),
        SOLVE,
        out="unproved: solve, a building\n",
        says=(NOTE,),
        lines=1,
        calls="",
        after=program_is(sources.State.UNPROVED),
    ),
    runs_it("a source that has a new time and says the same is no change", lambda place: (place.repo / LOW).touch()),
    runs_it("nor is one that was changed and put back", edit(LOW), edit(LOW, "of low\n")),
    runs_it("nor a comment in crates.txt", edit("crates.txt", CRATES + "# more\n")),
    runs_it("nor a crate that the program isn't built on", edit("crates/worked/src/one.rt")),
]
BUILDS = [
    Row(
        "build proves the crates of the program, each once those below it are, counts them, and builds it",
        nothing,
        ("build", "1"),
        0,
        "",
        ("proving the 3 crates of the program", "1 of 3: low", "2 of 3: other", "3 of 3: evacplan"),
        calls=PROVES,
        rows=TWO_BELOW,
        after=program_is(sources.State.PROVED),
    ),
    Row("evacplan then runs what was built", build(), SOLVE, out="proved: solve, a building\n", lines=0, calls="", rows=TWO_BELOW),
    Row(
        "the unproved program is gone then",
        then(unproved, build()),
        ("build", "--status"),
        lines=0,
        after=lambda place: "it is there" if (place.repo / "crates/evacplan/out/unproved").exists() else "",
    ),
    Row("a program that is built already stays", proved, ("build",), lines=1, says=("no source has changed",), calls="version"),
    Row(
        "what did not change is kept, and what is built on a change is proved",
        then(build("1"), edit("crates/other/src/one.rt")),
        ("build", "1"),
        says=("3 of 3: evacplan",),
        calls="version,proves other,proves evacplan",
        rows=TWO_BELOW,
    ),
    Row(
        "so it is if the change has an older time",
        then(build("1"), edit("crates/other/src/one.rt", backwards=True)),
        ("build", "1"),
        says=("3 of 3: evacplan",),
        calls="version,proves other,proves evacplan",
        rows=TWO_BELOW,
    ),
    Row(
        "a source that is newer and says the same is proved already",
        then(build("1"), lambda place: (place.repo / LOW).touch()),
        ("build", "1"),
        lines=1,
        calls="version",
        rows=TWO_BELOW,
    ),
    Row(
        "what changes while it is built is noticed",
        build(RT_FAILS="edit"),
        SOLVE,
        out="unproved: solve, a building\n",
        says=(f"changed since: {LOW}", NOTE),
    ),
    Row(
        "what is not proved is named, the rest is kept, and no program is left",
        then(proved, edit(LOW)),
        ("build", "1"),
        70,
        "",
        ("1 of 3: low", "Answers.antt:8", "other is not proved: rattle ended with 1", "was not built"),
        calls="version,proves low,proves other",
        how={"RT_FAILS": "proof of other"},
        rows=TWO_BELOW,
        after=left_no_program,
    ),
    Row(
        "a build whose rattle is killed says so",
        nothing,
        ("build", "1"),
        70,
        "",
        ("other is not proved: rattle ended with 137",),
        how={"RT_FAILS": "killed at other"},
        rows=TWO_BELOW,
    ),
    Row(
        "a program that is not linked is status 70",
        nothing,
        ("build",),
        70,
        "",
        ("is not linked",),
        how={"RT_FAILS": "program"},
        rows=TWO_BELOW,
        after=left_no_program,
    ),
    Row(
        "without a folder for temporary files nothing is built, and it is said why",
        nothing,
        ("build",),
        70,
        says=("no room for temporary files",),
        lines=1,
        calls="version",
        how={"TMPDIR": "/no/such"},
    ),
    Row(
        "a full TMPDIR is said as such, and no program is said to be built",
        nothing,
        ("build",),
        70,
        "",
        ("no room for temporary files",),
        lines=1,
        how={"limit": 4096},
        after=left_no_program,
    ),
    Row(
        "what another kit proved is proved anew",
        then(build("1"), edit("crates/evacplan/src/one.rt")),
        ("build", "1"),
        says=("3 of 3: evacplan",),
        calls=PROVES,
        how={"RT_KIT": "2"},
        rows=TWO_BELOW,
    ),
    Row(
        "what is built on a crate is made anew with it, also if the crate is as it was",
        then(build("1"), edit(LOW), build("1", RT_FAILS="proof of evacplan"), edit(LOW, "of low\n")),
        ("build", "1"),
        says=("3 of 3: evacplan",),
        calls="version,proves low,proves evacplan",
        rows=TWO_BELOW,
    ),
    Row(
        "another kit builds nothing",
        nothing,
        ("build",),
        70,
        says=("logic fedcba9876543210",),
        lines=1,
        calls="version",
        how={"RT_LOGIC": "fedcba9876543210"},
    ),
    *(
        Row(f"build refuses the words {words}", nothing, ("build", *words), 64, lines=1, calls="")
        for words in (("0",), ("many",), ("1", "2"), ("--adopt",), ("--adopt", "now"))
    ),
    Row(
        "--status says that nothing is built",
        nothing,
        ("build", "--status"),
        2,
        "none: ./evacplan makes an unproved one in about a minute, and ./build proves it\nno program\n0 of 2 crates are proved\n",
    ),
    Row(
        "--status says what isn't proved",
        unproved,
        ("build", "--status"),
        1,
        after=lambda place: "" if place.out.startswith("unproved, of these sources") else place.out,
    ),
    Row(
        "--status says what changed",
        then(proved, edit(LOW)),
        ("build", "--status"),
        2,
        after=lambda place: "" if place.out.startswith(f"none of these sources: changed since: {LOW}\nno program\n") else place.out,
    ),
    Row(
        "--status says what is proved",
        build(),
        ("build", "--status"),
        0,
        after=lambda place: ""
        if re.fullmatch(
            rf"proved in logic {LOGIC}, of these sources\n{sources.PROVED_PLACE}: rattle-kit-1 logic {LOGIC}, sha256 [0-9a-f]{{64}}\n2 of 2 crates are proved\n",
            place.out,
        )
        else place.out,
    ),
]


class Rows(unittest.TestCase):
    """The tables, four cases side by side."""

    def test_rows(self) -> None:
        with tempfile.TemporaryDirectory() as room, concurrent.futures.ThreadPoolExecutor(4) as pool:
            rows = [*FIRST_RUNS, *BUILT, *CHANGED, *BUILDS]
            places = [pathlib.Path(room, str(number)) for number in range(len(rows))]
            for row, faults in zip(rows, pool.map(Row.faults, rows, places)):
                with self.subTest(row.name):
                    self.assertEqual(faults, [], "\n".join(faults))


class Acting(unittest.TestCase):
    """The cases that act while a command runs."""

    def setUp(self) -> None:
        room = tempfile.TemporaryDirectory()
        self.addCleanup(room.cleanup)
        self.place = Place(pathlib.Path(room.name))

    def ends(self, process: "subprocess.Popen[str]", status: int) -> None:
        """A command ends with a status, and leaves nothing."""
        self.place.ended(process)
        self.assertEqual((self.place.status, self.place.left), (status, []), self.place.err)

    def test_the_scripts_run_by_a_link_and_from_another_folder(self) -> None:
        (self.place.here / "link").symlink_to(self.place.repo / "evacplan")
        self.place.run("../link", "solve", given="a building")
        self.assertEqual(self.place.out, "unproved: solve, a building\n", self.place.err)

    def test_input_that_comes_slowly_is_read_to_its_end(self) -> None:
        self.place.put_program(sources.UNPROVED_PLACE)
        words = ["bash", "-c", '(echo one; sleep 0.5; echo two) | "$0" solve', str(self.place.repo / "evacplan")]
        self.assertEqual(subprocess.run(words, env=self.place.env, capture_output=True, text=True).stdout, "unproved: solve, one\ntwo\n")

    def test_a_talk_over_a_pipe_is_answered_before_its_input_ends(self) -> None:
        self.place.write(sources.UNPROVED_PLACE, "")
        program = self.place.put_program(sources.UNPROVED_PLACE)
        program.write_text('#!/bin/sh\nwhile read -r line; do echo "answer to $line"; done\n')
        sources.record(self.place.repo, program, f"logic {LOGIC}", sources.digests_of(self.place.repo))
        with subprocess.Popen(
            [str(self.place.repo / "evacplan"), "session"],
            env=self.place.env,
            stdin=subprocess.PIPE,
            stdout=subprocess.PIPE,
            stderr=subprocess.DEVNULL,
            bufsize=0,
        ) as talk:
            assert talk.stdin and talk.stdout
            talk.stdin.write(b"one\n")
            self.assertEqual(talk.stdout.readline(), b"answer to one\n")
            talk.stdin.close()

    def test_a_first_run_that_is_ended_leaves_nothing(self) -> None:
        for name, status in (("INT", 130), ("TERM", 143), ("HUP", 129)):
            with self.subTest(name):
                process = self.place.start("evacplan", "solve", RT_SLOW="1")
                self.place.await_file("slow")
                process.send_signal(getattr(signal, f"SIG{name}"))
                self.ends(process, status)
                self.assertEqual((self.place.out, sources.state_of(self.place.repo)), ("", sources.State.NONE))
                (self.place.here / "slow").unlink()

    def test_a_signal_ends_the_program_too_at_a_terminal(self) -> None:
        for name, status in (("INT", 130), ("TERM", 143), ("HUP", 129)):
            with self.subTest(name):
                self.place.put_program()
                pid = self.place.here / "pid"
                self.place.run_at_terminal("evacplan", "wait", str(pid), sends=getattr(signal, f"SIG{name}"))
                self.assertEqual(self.place.status, status, self.place.err)
                number = pid.read_text().strip()
                self.assertTrue(await_true(lambda: not pathlib.Path(f"/proc/{number}").exists(), 5))
                pid.unlink()

    def test_two_first_runs_at_once_build_once(self) -> None:
        first = subprocess.Popen(
            [str(self.place.repo / "build"), "--unproved"],
            env={**self.place.env, "RT_SLOW": "1"},
            stdout=subprocess.DEVNULL,
            stderr=subprocess.DEVNULL,
        )
        self.place.await_file("slow")
        second = self.place.start("evacplan", "solve", given="a building", RT_SLOW="1")
        time.sleep(1)
        (self.place.here / "go").touch()
        first.wait()
        self.ends(second, 0)
        self.assertEqual((self.place.out, self.place.calls.count("try")), ("unproved: solve, a building\n", 1))

    def test_an_index_spares_the_look_at_the_sources(self) -> None:
        self.place.put_program()
        time.sleep(1.2)
        self.assertIs(sources.state_of(self.place.repo), sources.State.PROVED)
        self.place.write("build", "#!/bin/sh\necho build is called >&2\nexit 70\n")
        self.place.run("evacplan", "solve", given="a building")
        self.assertEqual((self.place.status, self.place.out, self.place.err), (0, "proved: solve, a building\n", ""))
        edit(LOW, "if low\n", backwards=True)(self.place)
        self.place.run("evacplan", "solve")
        self.assertEqual((self.place.status, self.place.err), (70, "build is called\n"))

    def test_crates_that_are_not_built_on_one_another_are_proved_side_by_side(self) -> None:
        self.place.write("crates.txt", TWO_BELOW)
        process = self.place.start("build", "2", RT_SLOW="1")
        self.place.await_call("proves low")
        self.place.await_call("proves other")
        (self.place.here / "go").touch()
        self.ends(process, 0)

    def test_a_check_by_hand_that_is_at_work_in_a_crate_is_waited_for(self) -> None:
        self.place.write("crates.txt", TWO_BELOW)
        with subprocess.Popen(["flock", str(self.place.repo / "crates/low"), "sleep", "2"]) as check:
            time.sleep(0.5)
            self.ends(self.place.start("build", "2"), 0)
            check.wait()
        self.assertIn("waiting for rt to finish in crates/low", self.place.err)
        self.assertEqual((self.place.err.count("waiting"), self.place.calls), (1, "version,proves other,proves low,proves evacplan"))

    def test_after_a_while_without_a_line_it_is_said_what_rattle_is_at_work_on(self) -> None:
        proofs = self.place.repo / "tools/proofs.py"
        proofs.write_text(re.sub("(?m)^SILENCE = 50", "SILENCE = 1", proofs.read_text()))
        process = self.place.start("build", "1", RT_SLOW="1")
        self.assertTrue(await_true(lambda: "0 of 2 are done, and rattle is at work on low" in (self.place.here / "err").read_text()))
        (self.place.here / "go").touch()
        self.ends(process, 0)

    def test_two_builds_at_once_build_once(self) -> None:
        first = subprocess.Popen([str(self.place.repo / "build"), "3"], env={**self.place.env, "RT_SLOW": "1"}, stderr=subprocess.DEVNULL)
        self.place.await_file("slow")
        second = self.place.start("build", "3", RT_SLOW="1")
        self.assertTrue(await_true(lambda: "another build is at work" in (self.place.here / "err").read_text()))
        (self.place.here / "go").touch()
        first.wait()
        self.ends(second, 0)
        self.assertIn("no source has changed", self.place.err)
        self.assertEqual(self.place.calls.count("proves evacplan"), 1)

    def test_a_build_that_is_ended_leaves_nothing_and_the_next_one_goes_on(self) -> None:
        for name, status in (("INT", 130), ("TERM", 143), ("HUP", 129)):
            with self.subTest(name):
                process = self.place.start("build", RT_SLOW="1")
                self.place.await_file("slow")
                process.send_signal(getattr(signal, f"SIG{name}"))
                self.ends(process, status)
                (self.place.here / "slow").unlink()
        self.place.run("build")
        self.assertIn("2 of 2: evacplan", self.place.err)

    def test_a_full_disk_is_said_as_such(self) -> None:
        small = self.place.repo / "crates/evacplan/out"
        small.mkdir()
        if subprocess.run(["mount", "-t", "tmpfs", "-o", "size=64k", "none", str(small)], stderr=subprocess.DEVNULL).returncode:
            self.skipTest("nothing can be mounted here")
        self.addCleanup(os.system, f"umount {small}")
        (small / "filled").write_bytes(bytes(60_000))
        for words, fault in ((("build",), "evacplan.new can't be written: No space left"), (SOLVE, "No space left")):
            with self.subTest(words):
                self.place.run(*words)
                self.assertEqual((self.place.status, self.place.out, self.place.left), (70, "", []), self.place.err)
                self.assertIn("No space left on device", self.place.err)

    def test_a_repository_that_is_only_to_be_read_is_said_as_such(self) -> None:
        read_only(self.place)
        for words in (("build",), SOLVE):
            with self.subTest(words):
                self.place.run(
                    "../as_nobody" if os.getuid() == 0 else words[0],
                    *([words[0], str(self.place.repo / words[0])] if os.getuid() == 0 else []),
                    *words[1:],
                )
                self.assertEqual((self.place.status, self.place.out, self.place.left), (70, "", []), self.place.err)
                self.assertIn("nothing can be written to", self.place.err)

    def test_a_copy_of_the_repository_takes_the_program_with_it(self) -> None:
        self.place.put_program()
        subprocess.run(["cp", "-r", str(self.place.repo), str(self.place.here / "copy")], check=True)
        self.assertIs(sources.state_of(self.place.here / "copy"), sources.State.PROVED)

    def test_without_a_program_the_tests_of_evacask_say_so(self) -> None:
        self.place.copy(TOP / "companion/tests/run", self.place.repo / "companion/tests/run")
        only_these("find", "mktemp", "rm", "grep")(self.place)
        self.place.run("companion/tests/run")
        self.assertEqual(self.place.status, 1)
        self.assertIn("evacask's commands weren't tested: there is no program", self.place.out.splitlines()[-1])

    def test_the_words_that_evacplan_names_are_those_of_the_formats(self) -> None:
        table = re.search(r"(?s)\n\| Words .*?\n\n", (TOP / "docs/users/formats.md").read_text())
        said = re.search(r"the words are (.*?);", (TOP / "evacplan").read_text())
        assert table and said
        self.assertEqual(set(re.findall(r"\n\| `([a-z]+)", table[0])), set(re.findall(r"(?:^|, )(?:or )?([a-z]+)", said[1])))


class Gate(unittest.TestCase):
    """The gate, whose parts do nothing, but for those that are to fail: they end with status 3."""

    def setUp(self) -> None:
        room = tempfile.TemporaryDirectory()
        self.addCleanup(room.cleanup)
        self.place = Place(pathlib.Path(room.name))

    def gate(self, *failing: str, **env: str) -> str:
        """Runs the gate, and gives the last line that it prints."""
        for part in re.findall(r"(?m)^try_part (?:python3 )?([a-z]\S*)", (TOP / ".ci/run").read_text()):
            ends = 3 if part in failing else 0
            self.place.write(part, f"raise SystemExit({ends})" if part.endswith(".py") else f"#!/bin/sh\nexit {ends}\n").chmod(0o755)
        self.place.run(".ci/run", **env)
        self.assertEqual(self.place.left, [])
        return self.place.out.splitlines()[-1]

    def test_a_gate_that_passes_says_so_in_its_last_line(self) -> None:
        self.assertEqual((self.gate(), self.place.status, self.place.calls), ("gate: passed", 0, "ci,version"), self.place.err)

    def test_a_gate_names_the_parts_that_failed(self) -> None:
        self.assertEqual(self.gate("tools/replay.py", "companion/tests/run"), "gate: FAILED in tools/replay.py, companion/tests/run")
        self.assertEqual(self.place.status, 1)

    def test_a_gate_without_a_program_says_where_to_begin(self) -> None:
        self.assertEqual(
            self.gate("tools/replay.py", RT_FAILS="proof"),
            "gate: FAILED in rt ci, tools/replay.py. No program was built, and what runs it fails without one: begin with rt ci",
        )

    def test_the_program_that_rt_made_is_taken(self) -> None:
        self.gate()
        self.assertIs(sources.state_of(self.place.repo), sources.State.PROVED)

    def test_the_program_that_rt_made_is_not_taken_if_a_source_changed_meanwhile(self) -> None:
        self.assertEqual(self.gate(RT_FAILS="edit"), "gate: FAILED in ./build")
        self.assertIn("crates/low/src/one.rt changed meanwhile", self.place.err)
        self.assertIs(sources.state_of(self.place.repo), sources.State.STALE)

    def test_a_gate_runs_by_a_link_where_its_repository_is(self) -> None:
        (self.place.here / "link").symlink_to(self.place.repo / ".ci/run")
        self.place.repo.joinpath(".ci/run").chmod(0o755)
        self.gate()
        self.place.forget_calls()
        self.place.run("../link")
        self.assertEqual((self.place.out.splitlines()[-1], self.place.status), ("gate: passed", 0), self.place.err)

    def test_a_gate_that_is_ended_leaves_nothing(self) -> None:
        for name, status in (("INT", 130), ("TERM", 143), ("HUP", 129)):
            with self.subTest(name):
                process = self.place.start(".ci/run", RT_SLOW="1")
                self.place.await_file("slow")
                process.send_signal(getattr(signal, f"SIG{name}"))
                self.place.ended(process)
                self.assertEqual((self.place.status, self.place.left), (status, []), self.place.err)
                (self.place.here / "slow").unlink()


if __name__ == "__main__":
    unittest.main()
