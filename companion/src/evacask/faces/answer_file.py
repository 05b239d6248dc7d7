"""A file of answers that grows row by row, and that a second start goes on with."""
from __future__ import annotations

import csv
import fcntl
import io
import os
from types import TracebackType
from typing import List, Optional, Sequence, Tuple, Type

from evacask.errors import OutputError, TableError
from evacask.faces.sheet import safe


def csv_line(cells: Sequence[object]) -> str:
    """A row of CSV, in which no spreadsheet takes a text for a formula."""
    out = io.StringIO()
    csv.writer(out, lineterminator="\n").writerow([safe(cell) for cell in cells])
    return out.getvalue()


class AnswerFile:
    """The file, opened for one writer. `count` rows were in it whole; a half written one at its end is cut off.

    `TableError` if a row that is there isn't an answer to the scenario in its place, about the building with this mark: then nothing is changed.
    """

    def __init__(self, name: str, keys: Sequence[str], heads: Sequence[Tuple[str, ...]], mark: str):
        self.name, self.keys, self.heads, self.mark = name, keys, heads, mark
        self.count, self.has_refused = 0, False

    def __enter__(self) -> "AnswerFile":
        try:
            self.file = open(self.name, "a+b")
        except (OSError, ValueError) as fault:
            raise OutputError(f"{self.name} can't be written: {getattr(fault, 'strerror', None) or fault}") from None
        try:
            self.take_over()
        except BaseException:
            self.file.close()
            raise
        return self

    def __exit__(self, kind: Optional[Type[BaseException]], fault: Optional[BaseException], trace: Optional[TracebackType]) -> None:
        self.file.close()

    def take_over(self) -> None:
        """Reads what is there, and cuts off a half written row."""
        try:
            fcntl.flock(self.file, fcntl.LOCK_EX | fcntl.LOCK_NB)
        except BlockingIOError:
            raise OutputError(f"{self.name} is being written by another sweep") from None
        except OSError:
            pass  # (a file system without locks)
        self.file.seek(0)
        data = self.file.read()
        whole = data[: data.rfind(b"\n") + 1]
        self.check(whole.decode("utf-8", "surrogateescape").splitlines())
        if len(whole) < len(data):
            os.ftruncate(self.file.fileno(), len(whole))
        if not whole:
            self.file.write(csv_line(self.keys).encode("utf-8", "surrogateescape"))
            self.file.flush()

    def check(self, lines: List[str]) -> None:
        """Whether the rows that are there are the first answers to these scenarios."""
        rows = list(csv.reader(lines))
        if rows and rows[0] != list(self.keys):
            raise TableError(self.name, 1, "", "this is no file of answers of a sweep: name another one by -o, or remove it")
        for number, row in enumerate(rows[1:], 2):
            wanted = self.heads[number - 2] if number - 2 < len(self.heads) else None
            mine = None if wanted is None else tuple(safe(it) for it in wanted)
            if mine is None or tuple(row[: len(mine)]) != mine or row[-1] != self.mark or len(row) != len(self.keys):
                raise TableError(self.name, number, "", "this answers another scenario or another building: name another file by -o, or remove it")
            self.count += 1
            self.has_refused = self.has_refused or row[-2] != ""

    def write(self, cells: Sequence[object]) -> None:
        """Adds a row."""
        self.file.write(csv_line(cells).encode("utf-8", "surrogateescape"))
        self.file.flush()
