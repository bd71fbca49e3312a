"""The points of a sweep: all combinations of the grid's values, and the study of each."""

from __future__ import annotations

import itertools
import json
from collections.abc import Mapping
from typing import Any

from biqsolur.errors import StudyError, SweepError
from biqsolur.study import Study
from biqsolur.study_changes import changed_table

Values = dict[str, Any]


def points_of(grid: object) -> list[Values]:
    """All combinations of the grid's values; the last path changes fastest. Without a grid there is one point."""
    if not isinstance(grid, Mapping):
        raise SweepError("grid: paths with lists of values are wanted")
    for path, values in grid.items():
        if path in ("key", "series"):
            setting = "keys" if path == "key" else path
            raise SweepError(f"grid: {path}: it has a setting of its own beside `grid`, {setting}")
        if not isinstance(values, list) or not values:
            raise SweepError(f"grid: {path}: a list of values is wanted")
        spelled = [json.dumps(value, sort_keys=True, default=str) for value in values]
        if len(set(spelled)) < len(spelled):
            raise SweepError(f"grid: {path}: a value stands there twice")
    return [dict(zip(grid, values)) for values in itertools.product(*grid.values())]


def study_of(base: Study, values: Values) -> Study:
    """The base study with a point's values at their paths. A later path may lead into the value of an earlier one."""
    table = base.to_dict()
    seen: dict[tuple[str | int, ...], str] = {}
    for path, value in values.items():
        try:
            places, table = changed_table(table, path, value)
        except StudyError as fault:
            raise SweepError(f"grid: {fault}") from None
        if tuple(places) in seen:
            raise SweepError(f"grid: {path}: {seen[tuple(places)]}, a path before it, leads to the same place")
        seen[tuple(places)] = path
    return Study.from_dict(table, base.folder)
