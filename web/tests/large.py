"""Writes two large buildings of the bench, with nearly as many cells as the language lets a building have: large.py FOLDER"""
from __future__ import annotations

import sys
from pathlib import Path

sys.path.insert(0, str(Path(__file__).resolve().parents[2] / "bench"))
import families  # noqa: E402

NAMES = ("ladder", "many_exits")


def main(folder: str) -> None:
    for name in NAMES:
        (Path(folder) / f"{name}.evac").write_text(families.ALL[name](1), encoding="utf-8")


if __name__ == "__main__":
    main(*sys.argv[1:])
