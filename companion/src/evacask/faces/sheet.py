"""A sheet: what a question's answer looks like, once for all faces. Text, CSV and JSON are drawn from it."""
from __future__ import annotations

import csv
import dataclasses
import enum
import io
import json
from dataclasses import dataclass
from fractions import Fraction
from typing import Any, Dict, List, Optional, Sequence, Tuple

from evacask.model.ground import Ground
from evacask.model.lines import printable

SCHEMA = 1
# A cell that begins so is taken for a formula by spreadsheets.
FORMULA = ("=", "+", "-", "@", "\t", "\r")


@dataclass(frozen=True)
class Column:
    """A column: its head in text and its key in CSV, whether it stands to the right, and whether text shows it unless all columns are asked for.

    One without a key is in text alone. `ground` is what the column rests on, if that isn't the ground of the whole answer.
    """

    head: str
    key: str
    is_right: bool = False
    is_shown: bool = True
    ground: Optional[Ground] = None


@dataclass(frozen=True)
class Sheet:
    """Lines before and after a table. `answer` is the dataclass that it was drawn from.

    `shown` has the numbers of the rows that text shows unless all columns are asked for; all rows if it is None.
    """

    answer: Any
    before: Tuple[str, ...] = ()
    columns: Tuple[Column, ...] = ()
    rows: Tuple[Tuple[Any, ...], ...] = ()
    after: Tuple[str, ...] = ()
    shown: Optional[Tuple[int, ...]] = None


def as_text(sheet: Sheet, all_columns: bool = False) -> str:
    """The lines of a sheet. The head of a table is left out if it has no rows. With all columns a last line says what they rest on."""
    grounds = [f"ground: {grounds_text(sheet)}"] if all_columns else []
    lines = [*sheet.before, *table_lines(sheet, all_columns), *sheet.after, *grounds]
    return "".join(f"{printable(line)}\n" for line in lines)


def table_lines(sheet: Sheet, all_columns: bool = False) -> List[str]:
    """The table of a sheet, with the columns and rows that are shown."""
    shown = [at for at, column in enumerate(sheet.columns) if column.is_shown or all_columns]
    heads = [sheet.columns[at].head or sheet.columns[at].key * all_columns for at in shown]
    rows = sheet.rows if sheet.shown is None or all_columns else tuple(sheet.rows[at] for at in sheet.shown)
    rows = (tuple(heads), *(tuple(row[at] for at in shown) for row in rows)) if shown and rows else ()
    return aligned(rows, [sheet.columns[at].is_right for at in shown])


def aligned(rows: Sequence[Sequence[Any]], is_right: Sequence[bool]) -> List[str]:
    """The lines of a table with two blanks between columns; each column stands to the right or to the left."""
    cells = [[written(cell) for cell in row] for row in rows]
    widths = [max((len(row[at]) for row in cells), default=0) for at in range(len(is_right))]
    return ["  ".join(pad(*it) for it in zip(row, widths, is_right)).rstrip() for row in cells]


def grounds_of(sheet: Sheet) -> Dict[str, Ground]:
    """The grounds of single columns, by their keys."""
    return {it.key: it.ground for it in sheet.columns if it.ground}


def grounds_text(sheet: Sheet) -> str:
    """The ground of an answer, and those of single columns: proved; of people, most: printed plan."""
    by_ground: Dict[Ground, List[str]] = {}
    for key, ground in grounds_of(sheet).items():
        by_ground.setdefault(ground, []).append(key)
    whole = getattr(sheet.answer, "ground", Ground.OWN)
    return "; ".join([str(whole), *(f"of {', '.join(keys)}: {ground}" for ground, keys in by_ground.items())])


def written(cell: Any) -> str:
    """A cell in text: nothing for None."""
    return "" if cell is None else str(cell)


def pad(cell: str, width: int, is_right: bool) -> str:
    return cell.rjust(width) if is_right else cell.ljust(width)


def as_csv(sheet: Sheet) -> str:
    """All rows, and all columns that have a key, which is their head."""
    kept = [at for at, column in enumerate(sheet.columns) if column.key]
    out = io.StringIO()
    writer = csv.writer(out, lineterminator="\n")
    writer.writerow([sheet.columns[at].key for at in kept])
    writer.writerows([[safe(row[at]) for at in kept] for row in sheet.rows])
    return out.getvalue()


def safe(cell: Any) -> str:
    """A cell that no terminal obeys and no spreadsheet takes for a formula: before such a text stands a quote. Numbers stay."""
    text = printable(written(cell))
    return "'" + text if isinstance(cell, str) and text.startswith(FORMULA) else text


def as_json(sheet: Sheet, question: str, source: Optional[Dict[str, Any]]) -> str:
    """The answer's own fields, and where it comes from: the program's sum and its logic, or null if no program was asked."""
    said = {"schema": SCHEMA, "question": question, "program": source, "answer": plain(sheet.answer)}
    if grounds_of(sheet):
        said["grounds"] = plain(grounds_of(sheet))
    return json.dumps(said, indent=1, ensure_ascii=True) + "\n"


def plain(value: Any) -> Any:
    """A value as JSON takes it: dataclasses as dicts, tuples as lists, and what is no such thing by its text."""
    if dataclasses.is_dataclass(value) and not isinstance(value, type):
        return {it.name: plain(getattr(value, it.name)) for it in dataclasses.fields(value)}
    if isinstance(value, enum.Enum):
        return plain(value.value)
    if isinstance(value, dict):
        return {
            key if isinstance(key, str) else " ".join(map(str, key)) if isinstance(key, tuple) else str(key): plain(it) for key, it in value.items()
        }
    if isinstance(value, (list, tuple)):
        return [plain(it) for it in value]
    if isinstance(value, Fraction):
        return float(value)
    return value if value is None or isinstance(value, (bool, int, float, str)) else str(value)


def runs(moments: Sequence[int]) -> str:
    """Moments as `2 to 23, 30`."""
    return ", ".join(f"{it[0]}" if len(it) == 1 else f"{it[0]} to {it[-1]}" for it in runs_of(moments))


def seconds_of_runs(moments: Sequence[int], period: int) -> str:
    """The seconds of moments as `10 to 120, 150 to 155`: each moment stands for its whole period."""
    return ", ".join(f"{it[0] * period} to {it.stop * period}" for it in runs_of(moments))


def runs_of(moments: Sequence[int]) -> List[range]:
    """The longest runs of moments in a growing list."""
    found: List[range] = []
    for moment in moments:
        if found and found[-1].stop == moment:
            found[-1] = range(found[-1].start, moment + 1)
        else:
            found.append(range(moment, moment + 1))
    return found
