"""Answers as plain records, for whatever takes a list of dicts, and as a table in a notebook."""
from __future__ import annotations

import html
from typing import Dict, List, Mapping

Record = Dict[str, object]


class Records:
    """An answer that is a table. `pandas.DataFrame(answer.records())` makes a frame of it."""

    def records(self) -> List[Record]:
        """A dict for each row, with plain values; all have the same keys."""
        raise NotImplementedError

    def _repr_html_(self) -> str:
        """The table, as a notebook shows it."""
        return html_of(self.records())


def html_of(records: List[Record]) -> str:
    """Records as a table of HTML. Nothing in them can act as HTML."""
    heads = "".join(f"<th>{html.escape(key)}</th>" for key in (records[0] if records else ()))
    return f"<table><tr>{heads}</tr>{''.join(map(row_of, records))}</table>"


def row_of(record: Mapping[str, object]) -> str:
    cells = ("" if it is None else " ".join(map(str, it)) if isinstance(it, (list, tuple)) else str(it) for it in record.values())
    return f"<tr>{''.join(f'<td>{html.escape(cell)}</td>' for cell in cells)}</tr>"
