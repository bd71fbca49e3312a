"""The comparison table that `table` writes: comma-separated values, a line a branch."""

from __future__ import annotations

import csv
import io
from pathlib import Path

import pandas

from biqsolur import columns
from biqsolur.errors import InputError
from biqsolur.frames import name_of

FIRST_COLUMNS = ["branch", "parent", "stop", "events", "end", "first_difference"]
TEXTS = ("branch", "parent", "end")


def read_table(source: str | Path | bytes) -> pandas.DataFrame:
    """Reads a table from its file, or from the bytes that were written. A row a branch: branch, parent ("" for the
    root), stop, events, end, first_difference, and the columns of the probes (volume in shares, spread_sum and range in
    0.0001 dollars, fees in millionths of a dollar). Numbers are exact: 64-bit ones, or Python's where one is longer."""
    path = name_of(source)
    data = source if isinstance(source, bytes) else Path(source).read_bytes()
    rows = list(csv.reader(io.StringIO(data.decode("utf-8", "replace"), newline="")))
    if not rows or rows[0][:len(FIRST_COLUMNS)] != FIRST_COLUMNS:
        raise InputError(f"{path}: line 1: this is no table; its first line begins {','.join(FIRST_COLUMNS)}")
    for line, row in enumerate(rows, 1):
        if len(row) != len(rows[0]):
            raise InputError(f"{path}: line {line}: {len(row)} fields where the first line has {len(rows[0])}")
    return pandas.DataFrame({
        name: list(texts) if name in TEXTS else numbers(path, name, texts)
        for name, *texts in zip(*rows)
    })


def numbers(path: str | Path, name: str, texts: list[str]):
    """A column of whole numbers."""
    try:
        values = [int(text) for text in texts]
    except ValueError as error:
        raise InputError(f"{path}: column {name}: {error}") from None
    return values if all(-1 << 63 <= value < 1 << 63 for value in values) else columns.exact(values)
