#!/usr/bin/env python3
"""Runs the cells of docs/users/notebook.md in order, and compares what each shows with what stands below it.

    tests/notebook.py              prints what differs; the status is 1 if anything does
    tests/notebook.py --write      writes below each cell what it shows

A cell is a block `python`. As in a notebook it shows what it prints, and the value of its last line if that is an expression. That stands in a block
`text` right below it; a cell without one shows nothing. All cells share their names. They ask the program of these sources, or the one that EVACPLAN
names.
"""
import ast
import contextlib
import io
import os
import pathlib
import re
import sys
from typing import Dict, List

sys.dont_write_bytecode = True
TOP = pathlib.Path(__file__).resolve().parent.parent
PAGE = TOP / "docs/users/notebook.md"
CELL = re.compile(r"^```python\n(.*?)^```\n(?:\n```text\n(.*?)^```\n)?", re.M | re.S)
sys.path.insert(0, str(TOP / "companion/src"))


def shown(source: str, names: Dict[str, object]) -> str:
    """What a cell shows, with the names of those before it; its own names stay there."""
    tree, said = ast.parse(source), io.StringIO()
    last = tree.body.pop() if tree.body and isinstance(tree.body[-1], ast.Expr) else None
    with contextlib.redirect_stdout(said):
        exec(compile(tree, "cell", "exec"), names)
        if isinstance(last, ast.Expr):
            value = eval(compile(ast.Expression(last.value), "cell", "eval"), names)
            if value is not None:
                print(repr(value))
    return said.getvalue()


def block(source: str, output: str) -> str:
    """A cell and what it shows, as they stand on the page."""
    return f"```python\n{source}```\n" + (f"\n```text\n{output}```\n" if output else "")


def main(words: List[str]) -> int:
    if words not in ([], ["--write"]):
        print(__doc__)
        return 2
    os.chdir(TOP)
    page, names = PAGE.read_text(), {"__name__": "cell"}  # type: str, Dict[str, object]
    cells, made, wrong = list(CELL.finditer(page)), [], 0
    for cell in cells:
        made.append(block(cell[1], shown(cell[1], names)))
        if made[-1] != cell[0]:
            wrong += 1
            print(f"docs/users/notebook.md:{page.count(chr(10), 0, cell.start()) + 1}: this cell shows\n{made[-1]}")
    if words:
        fresh = iter(made)
        PAGE.write_text(CELL.sub(lambda _: next(fresh), page))
        return 0
    print(
        f"{len(cells)} cells of docs/users/notebook.md ran, and {wrong} show something else" if wrong else f"the {len(cells)} cells of docs/users/notebook.md ran"
    )
    return 1 if wrong or not cells else 0


if __name__ == "__main__":
    sys.exit(main(sys.argv[1:]))
