"""All rows of a sweep, and what the keys say together for each point, branch and measure.

summary.csv has the columns point, the grid's paths, branch, parent, measure; `keys` how many runs gave a number,
`refused` how many runs were refused; `mean` and `standard_error` over the keys; and of the differences from the
parent under the same key `pairs`, `difference` (their mean), `difference_standard_error` and the ends `low` and
`high` of the interval that Student's t gives at 95 %. With a baseline the same columns again, `baseline_` before
each, of the differences from the same branch of that point under the same key. A cell is empty where there is no such
number: errors need two keys.

The measures `events`, `volume`, `spread_sum`, `range` and `fees` are those of the table, over whole runs. The others
are over the events behind the fork, and their differences are from the parent over the same events.
"""

from __future__ import annotations

import csv
import json
import time
from collections.abc import Iterable
from pathlib import Path

import numpy
import pandas

from biqsolur import program
from biqsolur.errors import SweepError
from biqsolur.provenance import moment_text
from biqsolur.sweep.plan import Plan, write_whole
from biqsolur.sweep.run import OF_PARENT, OWN_COLUMNS, TABLE_COLUMNS, column_of

TABLE_MEASURES = ["events", "volume", "spread_sum", "range", "fees"]
LEVEL = 0.95
PAIR_COLUMNS = ["pairs", "difference", "difference_standard_error", "low", "high"]


def gather(tables: Iterable[str | Path], output: str | Path) -> None:
    """Writes the rows of all tables, in their order, under one header: the columns of all of them, in their order."""
    paths = list(tables)
    columns: dict[str, None] = {}
    for path in paths:
        with open(path, encoding="utf-8", newline="") as file:
            columns.update(dict.fromkeys(next(csv.reader(file))))
    beside = Path(f"{output}.new")
    with open(beside, "w", encoding="utf-8", newline="") as out:
        csv.writer(out, lineterminator="\n").writerow(columns)
        for path in paths:
            copy_rows(path, list(columns), out)
    beside.replace(output)


def copy_rows(path: str | Path, columns: list[str], out) -> None:
    """Copies the rows of a table, with empty cells in the columns that it has not."""
    with open(path, encoding="utf-8", newline="") as file:
        if next(csv.reader([file.readline()])) == columns:
            out.writelines(file)
            return
        file.seek(0)
        writer = csv.DictWriter(out, columns, restval="", lineterminator="\n")
        writer.writerows(csv.DictReader(file))


def read_points(path: str | Path) -> pandas.DataFrame:
    """The rows of a sweep, all cells as texts."""
    return pandas.read_csv(path, dtype=str, keep_default_na=False, na_filter=False)


def measure_names(columns: Iterable[str], paths: list[str]) -> list[str]:
    """The measures among the columns, those of the table first."""
    known = {"point", *paths, *OWN_COLUMNS, *TABLE_COLUMNS}
    return TABLE_MEASURES + [name for name in columns if name not in known and not name.startswith(OF_PARENT)]


def numbers(column: pandas.Series) -> numpy.ndarray:
    """A column of texts as numbers, not-a-number where a cell is empty."""
    return column.where(column != "", "nan").to_numpy(object).astype(float)


def summary_frame(rows: pandas.DataFrame, paths: list[str], baseline: int | None = None) -> pandas.DataFrame:
    """The summary of a sweep's rows, in the order of the points and branches. `paths` are the grid's columns."""
    counts = rows.groupby("point", sort=False)["status"].agg(refused=lambda status: int((status != "0").sum()))
    runs = rows[rows.status == "0"].reset_index(drop=True)
    group = runs.groupby(["point", "branch"], sort=False).ngroup().to_numpy()
    parent, other = parent_rows(runs), baseline_rows(runs, baseline)
    parts = []
    for place, name in enumerate(measure_names(rows.columns, paths)):
        values = numbers(runs[name]) if name in runs else numpy.full(len(runs), numpy.nan)
        parents = parent_values(runs, name, values, parent)
        part = of_groups(group, values, ("keys", "mean", "standard_error"))
        part |= of_pairs(group, values - parents)
        if baseline is not None:
            differences = values - numpy.where(other >= 0, values[other], numpy.nan)
            part |= {f"baseline_{column}": cells for column, cells in of_pairs(group, differences).items()}
        numbered = {"group": range(group.max(initial=-1) + 1), "place": place, "measure": name}
        parts.append(pandas.DataFrame({**numbered, **part}))
    return ordered(rows, runs, paths, counts, group, parts)


def ordered(rows: pandas.DataFrame, runs: pandas.DataFrame, paths: list[str], counts: pandas.DataFrame,
            group: numpy.ndarray, parts: list[pandas.DataFrame]) -> pandas.DataFrame:
    """The summary's rows by point, branch and measure; a point without an accepted run is one row."""
    first = runs.groupby(group, sort=True).first() if len(runs) else runs
    start = first[["point", *paths, "branch", "parent"]].reset_index(drop=True).rename_axis("group").reset_index()
    made = start.merge(pandas.concat(parts), on="group")
    points = rows.drop_duplicates("point")[["point", *paths]]
    lost = points[~points.point.isin(runs.point)].assign(keys=0)
    made = pandas.concat([made, lost]) if len(lost) else made
    made["refused"] = made.point.map(counts.refused)
    order = made.point.map({point: place for place, point in enumerate(points.point)})
    made = made.assign(order=order).sort_values(["order", "group", "place"], kind="stable")
    columns = ["point", *paths, "branch", "parent", "measure", "keys", "refused", "mean", "standard_error",
               *PAIR_COLUMNS]
    more = [name for name in made if name.startswith("baseline_")]
    made = made[columns + more].reset_index(drop=True)
    whole = [name for name in columns + more if name in ("keys", "refused") or name.endswith("pairs")]
    return made.astype(dict.fromkeys(whole, "Int64"))


def parent_rows(runs: pandas.DataFrame) -> numpy.ndarray:
    """For each row the place of its parent's row under the same key, -1 where there is none."""
    places = pandas.Series(range(len(runs)), pandas.MultiIndex.from_frame(runs[["point", "key", "branch"]]))
    wanted = pandas.MultiIndex.from_frame(runs[["point", "key", "parent"]])
    return places.reindex(wanted, fill_value=-1).to_numpy(int)


def baseline_rows(runs: pandas.DataFrame, baseline: int | None) -> numpy.ndarray:
    """For each row the place of the same branch's row of the baseline's point under the same key, -1 where there is
    none."""
    own = runs[runs.point == str(baseline)]
    places = pandas.Series(own.index, pandas.MultiIndex.from_frame(own[["key", "branch"]]), dtype=int)
    found = places.reindex(pandas.MultiIndex.from_frame(runs[["key", "branch"]]), fill_value=-1).to_numpy(int)
    return numpy.where(runs.point == str(baseline), -1, found)


def parent_values(runs: pandas.DataFrame, name: str, values: numpy.ndarray, parent: numpy.ndarray) -> numpy.ndarray:
    """What each row's parent has of a measure, not-a-number for the root."""
    if name in TABLE_MEASURES:
        return numpy.where(parent >= 0, values[parent], numpy.nan)
    column = OF_PARENT + name
    return numbers(runs[column]) if column in runs else numpy.full(len(runs), numpy.nan)


def of_groups(group: numpy.ndarray, values: numpy.ndarray, names: tuple[str, str, str]) -> dict[str, numpy.ndarray]:
    """How many numbers there are of each group, their mean, and its standard error where there are two or more."""
    known = ~numpy.isnan(values)
    group_of, value, size = group[known], values[known], group.max(initial=-1) + 1
    count = numpy.bincount(group_of, minlength=size)
    with numpy.errstate(invalid="ignore", divide="ignore"):
        mean = numpy.bincount(group_of, value, size) / count
        mean += numpy.bincount(group_of, value - mean[group_of], size) / count      # what the first sum lost
        squares = numpy.bincount(group_of, (value - mean[group_of])**2, size)
        error = numpy.where(count > 1, numpy.sqrt(squares / (count - 1) / count), numpy.nan)
    return dict(zip(names, (count, mean, error)))


def of_pairs(group: numpy.ndarray, differences: numpy.ndarray) -> dict[str, numpy.ndarray]:
    """The same of differences, with their interval; not-a-number throughout for groups that have no other to differ
    from."""
    from scipy.special import stdtrit
    found = of_groups(group, differences, ("pairs", "difference", "difference_standard_error"))
    pairs, difference, error = found.values()
    half = stdtrit(numpy.maximum(pairs - 1, 1), (1 + LEVEL) / 2) * error
    return {**found, "pairs": numpy.where(pairs > 0, pairs, numpy.nan), "low": difference - half,
            "high": difference + half}


def summarise(plan: Plan) -> None:
    """Writes the summary of a sweep's rows, its page and its record. SweepError where all runs were refused."""
    from biqsolur.sweep.page import write_summary_page
    rows = read_points(Path(plan.output) / "points.csv")
    if not (rows.status == "0").any():
        raise SweepError(last_line(plan) + ": a sweep in which none was accepted says nothing")
    frame = summary_frame(rows, [column_of(path) for path in plan.paths], plan.baseline)
    write_whole(Path(plan.output) / "summary.csv", frame.to_csv(index=False, lineterminator="\n"))
    write_summary_page(plan, frame, Path(plan.output) / "summary.html")
    write_whole(Path(plan.output) / "summary.run.json", record_text(plan))


def origin(plan: Plan) -> dict[str, str]:
    """What the sweep's numbers come from: the study, the package's version, the kit that proved the program, its sum."""
    return {"study": plan.study, "version": program.version(), "kit": program.kit() or "not known",
            "program": plan.program, "sum of the program": plan.program_sum}


def record_text(plan: Plan) -> str:
    """The record of a sweep, which stands beside its summary: `origin`, the points with their values, the keys, and when
    it was summarised (ISO 8601, UTC)."""
    points = [point.values for point in plan.points]
    return json.dumps({**origin(plan), "points": points, "keys": plan.keys, "time": moment_text(time.time())},
                      indent=1, default=str) + "\n"


def last_line(plan: Plan) -> str:
    """How many runs were refused."""
    with open(Path(plan.output) / "points.csv", encoding="utf-8", newline="") as file:
        refused = sum(row["status"] != "0" for row in csv.DictReader(file))
    return f"{refused:,} of {plan.runs:,} runs refused"
