#!/usr/bin/env python3
"""Tests that the man pages and completions name all that the commands take, and that shells read them."""
from __future__ import annotations

import json
import pathlib
import subprocess
import sys
import tempfile
import unittest

TOP = pathlib.Path(__file__).resolve().parent.parent
sys.path[:0] = [str(TOP / "tools"), str(TOP / "companion/src")]
import pages  # noqa: E402
from evacask.faces.commands import COMMANDS  # noqa: E402
from evacask.faces.words import parser_of  # noqa: E402


class Pages(unittest.TestCase):
    def test_pages_and_completions_name_each_command_and_option(self) -> None:
        made = {file.name: text.replace("\\-", "-") for file, text in pages.pages().items()}
        parser = parser_of(COMMANDS)
        places = pages.subcommands(parser)
        flags = {flag for it in (parser, *places.values()) for action in it._actions for flag in action.option_strings if flag.startswith("--")}
        self.assertEqual(set(places), {it.name for it in COMMANDS})
        for name in ("evacask.1", "evacask.bash", "_evacask", "evacask.fish"):
            for word in (*places, *flags):
                with self.subTest(f"{word} in {name}"):
                    said = f"-l {word[2:]} " if name.endswith("fish") and word.startswith("--") else word
                    self.assertIn(said, made[name])

    def test_the_words_statements_and_codes_are_all_there(self) -> None:
        made = {file.name: text.replace("\\-", "-") for file, text in pages.pages().items()}
        for word in ("solve", "cards", "upgrade", "session", "study", "replan", "drill", "check"):
            self.assertIn(rf"\fB{word}", made["evacplan.1"])
        codes = json.loads((TOP / "companion/src/evacask/model/codes.json").read_text())["building"]
        for word in (*codes, "title", "window", "entrant"):
            self.assertIn(rf"\fB{word}", made["evac.5"])

    def test_the_kept_pages_are_as_the_commands_say(self) -> None:
        self.assertEqual(
            [file.name for file, text in pages.pages().items() if not file.exists() or file.read_text() != text], [], "make docs writes them"
        )

    def test_shells_read_the_completions(self) -> None:
        for shell, name in (("bash", "evacask.bash"), ("zsh", "_evacask"), ("fish", "evacask.fish")):
            with self.subTest(shell):
                try:
                    ran = subprocess.run([shell, "-n", str(TOP / "docs/completion" / name)], capture_output=True, text=True)
                except OSError:
                    self.skipTest(f"{shell} isn't here")
                self.assertEqual((ran.returncode, ran.stderr), (0, ""))

    def test_bash_completes_commands_options_and_words(self) -> None:
        asked = 'source "$0"; COMP_WORDS=("$@"); COMP_CWORD=$(($# - 1)); "_$1"; printf "%s\\n" "${COMPREPLY[@]}"'
        for words, wanted in ((["evacask", "wh"], "why"), (["evacask", "why", "--js"], "--json"), (["evacplan", "upg"], "upgrade")):
            with self.subTest(words):
                ran = subprocess.run(
                    ["bash", "-c", asked, str(TOP / "docs/completion/evacask.bash"), *words],
                    capture_output=True,
                    text=True,
                    cwd=tempfile.gettempdir(),
                )
                self.assertEqual(ran.stdout.split(), [wanted], ran.stderr)


if __name__ == "__main__":
    unittest.main()
