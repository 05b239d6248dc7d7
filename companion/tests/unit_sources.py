"""Which program of a repository's sources there is, in a folder that stands for one: its state, what is wrong with it, and what is kept about it."""
import json
import pathlib
import subprocess
import tempfile
import time
import unittest
from unittest import mock

from evacask.client import program, sources
from evacask.client.sources import (
    PROVED_PLACE,
    UNPROVED_PLACE,
    State,
    changed_after,
    crates_of,
    digests_of,
    found,
    index_of,
    keep_index,
    made,
    mark_of,
)

LOGIC = "0123456789abcdef"
MARK = f"\0rattle logic={LOGIC}\0\n"
CRATES = "# crates\nlow:\nevacplan: low # and no more\nworked: low\n"


class Repository(unittest.TestCase):
    """A repository of three crates. The program is built on `low`, and `worked` is no part of it."""

    def setUp(self) -> None:
        folder = tempfile.TemporaryDirectory()
        self.addCleanup(folder.cleanup)
        self.top = pathlib.Path(folder.name)
        self.write("README.md", f"rattle-kit-1 logic {LOGIC}\n")
        self.write("crates.txt", CRATES)
        for crate in ("low", "evacplan", "worked"):
            self.write(f"crates/{crate}/src/one.rt", f"of {crate}\n")
            self.write(f"crates/{crate}/proofs/One.antt", f"of {crate}\n")

    def write(self, name: str, text: str) -> pathlib.Path:
        file = self.top / name
        file.parent.mkdir(parents=True, exist_ok=True)
        file.write_text(text)
        return file

    def put(self, place: str = PROVED_PLACE, mark: str = MARK) -> pathlib.Path:
        """A program as a build leaves it, with what it is and what it was made from."""
        made_program = self.write(place, f"#!/bin/sh\n{mark if place == PROVED_PLACE else ''}")
        made_program.chmod(0o755)
        sources.record(self.top, made_program, f"rattle-kit-1 logic {LOGIC}", digests_of(self.top))
        return made_program

    def assert_found(self, state: State, place: str = PROVED_PLACE, why: str = "") -> None:
        now = found(self.top)
        self.assertEqual((now.state, now.program, now.why), (state, self.top / place, why))
        self.assertEqual((now.is_current, sources.state_of(self.top)), (state in (State.PROVED, State.UNPROVED), state))


class States(Repository):
    def test_none_and_then_each_of_the_two(self) -> None:
        self.assert_found(State.NONE)
        self.put(UNPROVED_PLACE)
        self.assert_found(State.UNPROVED, UNPROVED_PLACE)
        self.put()
        self.assert_found(State.PROVED)

    def test_what_is_changed_is_named(self) -> None:
        self.put()
        self.write("crates/low/src/one.rt", "other\n")
        self.assert_found(State.STALE, why="changed since: crates/low/src/one.rt")
        self.write("crates/evacplan/specs/New.antt", "new\n")
        self.assert_found(State.STALE, why="changed since: crates/evacplan/specs/New.antt, and 1 more")
        self.put(UNPROVED_PLACE)
        self.assert_found(State.UNPROVED, UNPROVED_PLACE)

    def test_what_is_no_part_of_the_program(self) -> None:
        self.assertEqual(crates_of(self.top), {"evacplan": ["low"], "low": []})
        self.put()
        self.write("crates/worked/src/one.rt", "other\n")
        self.write("crates.txt", "low:\nevacplan:  low\nworked: low evacplan\n")
        self.assert_found(State.PROVED)
        self.write("crates.txt", CRATES.replace("evacplan: low", "evacplan: low worked"))
        self.assertIs(found(self.top).state, State.STALE)

    def test_a_program_that_is_not_what_was_built(self) -> None:
        beside = self.put().with_suffix(".json")
        said = beside.read_text()
        for text in ("", "{", "[]", "{}"):
            beside.write_text(text)
            self.assert_found(State.STALE, why=f"nothing says of which sources {PROVED_PLACE} is")
        beside.write_text(said)
        self.put(mark="")  # (an unproved program in the place of the proved one)
        self.assert_found(State.STALE, why=f"{PROVED_PLACE} isn't of the logic that README.md names")
        self.put()
        self.write("README.md", "logic fedcba9876543210\n")
        self.assert_found(State.STALE, why=f"{PROVED_PLACE} isn't of the logic that README.md names")
        self.write(PROVED_PLACE, "#!/bin/sh\necho another\n")
        self.assert_found(State.STALE, why=f"{PROVED_PLACE} isn't as it was built")

    def test_the_mark_of_a_proved_program(self) -> None:
        self.assertEqual((mark_of(MARK.encode()), mark_of(b"rattle logic=0123456789abcdef"), sources.logic_of(self.top)), (LOGIC, None, LOGIC))
        (self.top / "README.md").unlink()
        self.assertEqual(sources.logic_of(self.top), "")


class Index(Repository):
    def test_no_source_is_read_while_the_index_stays(self) -> None:
        self.put()
        with mock.patch.object(time, "time", return_value=1e11):
            self.assert_found(State.PROVED)
        with mock.patch.object(sources, "digests_of", side_effect=AssertionError("a source was read")):
            self.assert_found(State.PROVED)
        self.write("crates/low/src/one.rt", "OF low\n")  # (as long as it was)
        self.assert_found(State.STALE, why="changed since: crates/low/src/one.rt")

    def test_no_index_of_sources_that_may_change_in_the_same_moment(self) -> None:
        file = self.put()
        keep_index(file, index_of(self.top))
        self.assertFalse(file.with_suffix(".index").exists())
        with mock.patch.object(time, "time", return_value=1e11):
            keep_index(file, b"")
            keep_index(self.top / "nowhere/evacplan", index_of(self.top))
        self.assertFalse(file.with_suffix(".index").exists())

    def test_without_find(self) -> None:
        self.put()
        with mock.patch.object(subprocess, "run", side_effect=OSError):
            self.assertEqual(index_of(self.top), b"")
            self.assert_found(State.PROVED)

    def test_what_changed_after_a_moment(self) -> None:
        listed = b"crates/a b/src/x 3 9.0 5.0 7\ncrates/evacplan/out/evacplan 3 9.0 9.0 8\n"
        self.assertEqual((changed_after(listed, 5.0), changed_after(listed, 4.9)), ("", "crates/a b/src/x"))
        self.assertEqual(changed_after(b"README.md\n", 9.0), "README.md")


class Made(Repository):
    def build(self, body: str) -> None:
        self.write("build", f"#!/bin/sh\ncd {self.top}\n{body}\n").chmod(0o755)

    def test_a_program_is_built_if_there_is_none(self) -> None:
        self.put(UNPROVED_PLACE)
        (self.top / UNPROVED_PLACE).parent.rename(self.top / "ready")
        self.build('test "$*" = --unproved && mkdir -p crates/evacplan/out && cp -r ready crates/evacplan/out/unproved && touch built')
        now = made(self.top)
        self.assertEqual((now.state, now.program), (State.UNPROVED, self.top / UNPROVED_PLACE))
        (self.top / "built").unlink()
        self.assertEqual((made(self.top).state, (self.top / "built").exists()), (State.UNPROVED, False))

    def test_a_build_that_fails(self) -> None:
        self.build("exit 1")
        self.assertIs(made(self.top).state, State.NONE)

    def test_a_build_that_is_interrupted_is_ended_and_waited_for(self) -> None:
        self.build("exec sleep 20")
        waited = mock.patch.object(subprocess.Popen, "wait", autospec=True, side_effect=[KeyboardInterrupt, None])
        with mock.patch.object(sources, "found", return_value=found(self.top)), waited as wait, self.assertRaises(KeyboardInterrupt):
            made(self.top)
        self.assertEqual(wait.call_args[0][0].wait(10), -15)


class Release(Repository):
    def test_the_commit_of_a_release(self) -> None:
        with mock.patch.object(program, "PACKAGED", self.top / "evacask/bin/evacplan"):
            self.assertIsNone(program.commit_of_release())
            for text in ("{", "[]", "{}"):
                self.write("evacask/MANIFEST.json", text)
                self.assertIsNone(program.commit_of_release())
            self.write("evacask/MANIFEST.json", json.dumps({"commit": "d809b182"}))
            self.assertEqual(program.commit_of_release(), "d809b182")


if __name__ == "__main__":
    unittest.main()
