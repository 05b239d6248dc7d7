"""Tests of evacask. Those that need no program say so in their names: unit_*.py."""
import pathlib
import sys

sys.path.insert(0, str(pathlib.Path(__file__).resolve().parent.parent / "src"))
