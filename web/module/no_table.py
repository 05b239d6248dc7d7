"""Drops the table of a WebAssembly module: no_table.py FROM.wasm TO.wasm

lld writes a table with 64-bit indices, which node 20 and Binaryen 108 refuse. Rattle's programs call no function by pointer, so the table is empty.
If one did, the engine would refuse the module as a whole.
"""
from __future__ import annotations

import sys
from pathlib import Path
from typing import Iterator, Tuple

HEADER = 8
TABLE = 4


def number(data: bytes, at: int) -> Tuple[int, int]:
    """The number in LEB128 at a place, and the place after it."""
    value = shift = 0
    while True:
        value |= (data[at] & 127) << shift
        at, shift = at + 1, shift + 7
        if data[at - 1] < 128:
            return value, at


def sections(data: bytes) -> Iterator[Tuple[int, bytes]]:
    """The sections of a module: the number of each, and its bytes with its head."""
    at = HEADER
    while at < len(data):
        length, start = number(data, at + 1)
        yield data[at], data[at : start + length]
        at = start + length


def main(source: str, target: str) -> None:
    data = Path(source).read_bytes()
    Path(target).write_bytes(data[:HEADER] + b"".join(section for kind, section in sections(data) if kind != TABLE))


if __name__ == "__main__":
    main(*sys.argv[1:])
