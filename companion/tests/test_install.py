"""Installs the package into an empty virtual environment, without a network, and runs the lines that docs/users/notebook.md shows."""
import os
import pathlib
import re
import shutil
import subprocess
import sys
import tempfile
import unittest
from typing import Dict, List, Optional

from companion.tests.package import PATIENCE, TOP, program

# What makes a wheel without a network: setuptools, and wheel unless setuptools has it.
MAKES_WHEELS = "import setuptools, pip\nif int(setuptools.__version__.split('.')[0]) < 71: import wheel"


def ran(command: List[str], folder: pathlib.Path, settings: Dict[str, str]) -> "subprocess.CompletedProcess[str]":
    return subprocess.run(command, cwd=folder, env=settings, capture_output=True, text=True, timeout=PATIENCE)


def maker() -> Optional[str]:
    """The first Python that can make a wheel."""
    for python in (sys.executable, "python3", "/usr/bin/python3"):
        if shutil.which(python) and subprocess.run([python, "-c", MAKES_WHEELS], capture_output=True).returncode == 0:
            return python
    return None


def shown_lines() -> List[str]:
    """The lines of the first block `sh` of the page, without the installation itself."""
    found = re.search(r"```sh\n(.*?)```", (TOP / "docs/users/notebook.md").read_text(), re.S)
    return found[1].splitlines()[1:] if found else []


class Install(unittest.TestCase):
    def test_an_empty_environment(self) -> None:
        python = maker()
        if python is None:
            self.skipTest("left out: no Python here has pip, setuptools and wheel")
        # (Python's settings of this process say nothing of an environment of its own)
        settings = {key: value for key, value in os.environ.items() if not key.startswith("PYTHON")}
        with tempfile.TemporaryDirectory(prefix="evacask-install-") as name:
            room = pathlib.Path(name)
            shutil.copytree(TOP / "companion", room / "companion", ignore=shutil.ignore_patterns("tests", "__pycache__", "*.egg-info", "build"))
            offline = ["--quiet", "--no-index", "--no-deps", "--disable-pip-version-check"]
            made = ran([python, "-m", "pip", "wheel", *offline, "--no-build-isolation", "-w", name, "./companion"], room, settings)
            self.assertEqual(made.returncode, 0, made.stderr)
            if ran([sys.executable, "-m", "venv", "--without-pip", "env"], room, settings).returncode:
                self.skipTest("left out: this Python makes no virtual environment")
            (wheel,) = room.glob("*.whl")
            put = ran([python, "-m", "pip", "--python", "env/bin/python3", "install", *offline, str(wheel)], room, settings)
            self.assertEqual(put.returncode, 0, put.stderr)
            asked = {**settings, "PATH": f"{room / 'env/bin'}:{settings['PATH']}", "EVACPLAN": program()}
            said = [ran(["bash", "-c", line], TOP, asked) for line in shown_lines()]
            self.assertEqual([it.returncode for it in said], [0, 0], [it.stderr for it in said])
            self.assertTrue(said[0].stdout.startswith("evacask "), said[0].stdout)
            self.assertEqual(said[1].stdout, "(140, 145)\n")


if __name__ == "__main__":
    unittest.main()
