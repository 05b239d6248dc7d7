"""Tables that users write: the rows of a CSV file, and what is wrong with a cell, named by table, row and column.

Read are commas, semicolons or tabs, a byte order mark, and any line ends. The rows are numbered by the line on which each begins, from 1.
"""
from __future__ import annotations

import csv
import io
import re
from dataclasses import dataclass
from typing import Dict, Iterator, List, Mapping, Sequence, Tuple

from evacask.errors import TableError
from evacask.model.lines import is_number, near
from evacask.model.shares import Count, in_people, in_shares

MOST_BYTES = 50_000_000


@dataclass(frozen=True)
class Row:
    """A row: its table's name, the line on which it begins, and its cells by the heads of their columns, without blanks around them."""

    table: str
    number: int
    cells: Mapping[str, str]

    def fault(self, column: str, what: str) -> TableError:
        return TableError(self.table, self.number, column, what)

    def text(self, column: str) -> str:
        """A cell, or nothing if the table has no such column."""
        return self.cells.get(column, "")

    def whole(self, column: str, low: int, high: int) -> int:
        """A cell as a whole number from `low` to `high`. A spreadsheet's 4.0 is 4."""
        cell = self.text(column)
        plain = re.sub(r"\.0+\Z", "", cell)
        if not (plain.isascii() and plain.isdigit() and len(plain) <= 9 and low <= int(plain) <= high):
            raise self.fault(column, f"{shown(cell)} is no whole number from {low:,} to {high:,}")
        return int(plain)

    def people(self, column: str, low: int, high: int, shares: int) -> Count:
        """A cell as a number of people, which needn't be whole in a building in shares. `low` and `high` are in shares."""
        if shares == 1:
            return self.whole(column, low, high)
        cell = self.text(column)
        try:
            count = in_shares(cell, shares)
        except ValueError as fault:
            raise self.fault(column, str(fault)) from None
        if not (is_number(count) and low <= int(count) <= high):
            least, most = (in_people(it, shares) for it in (low, high))
            raise self.fault(column, f"{shown(cell)} is no number of people from {least:,} to {most:,}")
        return in_people(int(count), shares)


def shown(cell: str) -> str:
    """A cell as it is told in a message: at most 40 letters, and none that a terminal would obey."""
    plain = "".join(it if it.isprintable() else "?" for it in cell)
    return f"'{plain}'" if len(plain) <= 40 else f"'{plain[:37]}..'"


def rows_of(data: bytes, table: str, needed: Sequence[str], optional: Sequence[str] = (), most: int = 100_000) -> Iterator[Row]:
    """The rows of a table whose first row has its heads, in any order: all that are needed, and some of those that are optional.

    Rows without any text, and rows that begin with #, are passed over. `TableError` names what is wrong, also if there is no row or more than `most`.
    """
    count = 0
    records = records_of(data, table)
    heads: Dict[str, int] = {}
    for number, cells in records:
        heads = heads_of(cells, number, table, needed, optional)
        break
    for number, cells in records:
        count += 1
        if count > most:
            raise TableError(table, number, "", f"there are more than {most:,} rows")
        if any(cells[len(heads) :]):
            raise TableError(table, number, "", f"there are {len(cells)} cells and {len(heads)} columns")
        yield Row(table, number, {head: cells[at] if at < len(cells) else "" for head, at in heads.items()})
    if not count:
        raise TableError(table, 1, "", f"there are no rows; the first row is {','.join(needed)}, and below it come the others")


def heads_of(cells: List[str], number: int, table: str, needed: Sequence[str], optional: Sequence[str]) -> Dict[str, int]:
    """The place of each column by its head. Heads may be written in capitals."""
    known, places = [*needed, *optional], {it.lower(): it for it in [*needed, *optional]}
    heads: Dict[str, int] = {}
    for at, cell in enumerate(cells):
        head = places.get(cell.lower(), "")
        if not head:
            raise TableError(
                table, number, str(at + 1), f"{shown(cell)} is no column of this table{near(cell, known)}; its columns are {', '.join(known)}"
            )
        if head in heads:
            raise TableError(table, number, str(at + 1), f"there are two columns {head}")
        heads[head] = at
    for head in needed:
        if head not in heads:
            raise TableError(table, number, head, f"the column is missing; the first row is {','.join(needed)}")
    return heads


def records_of(data: bytes, table: str) -> Iterator[Tuple[int, List[str]]]:
    """The rows of a CSV text that aren't blank, as cells without blanks around them, each with the line on which it begins."""
    text = text_of(data, table)
    first = text.split("\n", 1)[0]
    mark = ";" if first.count(";") > first.count(",") else "\t" if "\t" in first and "," not in first else ","
    reader = csv.reader(io.StringIO(text, newline=""), delimiter=mark, strict=True)
    while True:
        number = reader.line_num + 1
        try:
            cells = [it.strip() for it in next(reader)]
        except StopIteration:
            return
        except csv.Error as fault:
            raise TableError(table, number, "", f"a row that begins here is no CSV: {fault}") from None
        for at, cell in enumerate(cells, 1):
            if not cell.isprintable():
                raise TableError(table, number, str(at), f"{shown(cell)} has a line end or another control character in it")
        if any(cells) and not cells[0].startswith("#"):
            yield number, trimmed(cells)


def trimmed(cells: List[str]) -> List[str]:
    """Cells without the empty ones at the end."""
    while len(cells) > 1 and not cells[-1]:
        cells.pop()
    return cells


def text_of(data: bytes, table: str) -> str:
    """A table's bytes as a text: UTF-8, with or without a byte order mark."""
    if len(data) > MOST_BYTES:
        raise TableError(table, 1, "", f"there are more than {MOST_BYTES:,} bytes")
    try:
        text = data.decode("utf-8-sig")
    except UnicodeDecodeError as fault:
        row = data.count(b"\n", 0, fault.start) + 1
        raise TableError(table, row, "", f"byte {fault.start + 1} isn't UTF-8: save the sheet as CSV UTF-8") from None
    if "\0" in text:
        raise TableError(table, text.count("\n", 0, text.index("\0")) + 1, "", "there is a byte 0: this is no CSV")
    return text
