"""The rows of a job that asks for measures, or keeps its bundles."""

from __future__ import annotations

import csv
import io
import math
import os
import shutil
from collections.abc import Iterator
from pathlib import Path
from typing import TYPE_CHECKING, Any

from biqsolur.bundle import Branch, Bundle, read
from biqsolur.measures import Measure, find, suffixes
from biqsolur.study import Study
from biqsolur.sweep.plan import Plan, cell
from biqsolur.sweep.run import OF_PARENT, REFUSED, TABLE_COLUMNS, column_of, refusal

if TYPE_CHECKING:
    from biqsolur.sweep.run import Job

Row = dict[str, Any]


def measured_rows(plan: Plan, job: Job, output: Path) -> Iterator[Row]:
    """The rows of all runs of a job."""
    found = [find(entry, plan.folder) for entry in plan.measures]
    wanted = list(zip(found, suffixes(found)))
    for point in job.points:
        start: Row = {"point": point}
        start |= {column_of(path): cell(value) for path, value in plan.points[point].values.items()}
        for key in job.keys:
            job.write_study(point, key)
            kept = kept_path(plan, output, point, key)
            yield from run_rows(job, {**start, "key": plan.keys[key]}, wanted, kept)


def run_rows(job: Job, start: Row, wanted: list[tuple[Measure, str]], kept: Path | None) -> Iterator[Row]:
    """The rows of one run."""
    status, table, line = job.call("table")
    if status == REFUSED:
        found = refusal(line)
        yield {**start, "status": status, "rule": found.rule, "place": found.place}
        return
    bundle_path = job.folder / "run.bundle"
    with open(bundle_path, "wb") as file:
        job.call("run", file)
    bundle, study = read(bundle_path), Study.read(job.study)
    for row in csv.DictReader(io.StringIO(table)):
        yield {**start, "status": status, **row, **numbers_of(bundle, row["branch"], wanted, study)}
    if kept is not None:
        keep(job, bundle_path, kept)
    bundle_path.unlink(missing_ok=True)


def numbers_of(bundle: Bundle, name: str, wanted: list[tuple[Measure, str]], study: Study) -> Row:
    """What the measures say of a branch behind where it leaves its parent, and of its parent in the same events; of the
    root, over the whole run. A number that the run does not give is an empty cell."""
    branch = bundle.branches[name]
    numbers: Row = {}
    for measure, suffix in wanted:
        numbers |= named(measure, branch, branch.fork, study, "", suffix)
        if branch.parent is not None:
            numbers |= named(measure, bundle.branches[branch.parent], branch.fork, study, OF_PARENT, suffix)
    return numbers


def named(measure: Measure, branch: Branch, after: int, study: Study, before: str, suffix: str) -> Row:
    """A measure's numbers as cells of a row."""
    numbers = measure.compute(branch, after=after, study=study)
    taken = set(TABLE_COLUMNS)
    return {f"{before}{'measure.' if name in taken else ''}{name}{suffix}": "" if math.isnan(value) else repr(value)
            for name, value in numbers.items()}


def kept_path(plan: Plan, output: Path, point: int, key: int) -> Path | None:
    """Where a run's bundle is kept, or None."""
    return output / "bundles" / str(point) / f"{key}.bundle" if plan.keep else None


def keep(job: Job, bundle: Path, kept: Path) -> None:
    """Puts a run's bundle and its study where they stay."""
    kept.parent.mkdir(parents=True, exist_ok=True)
    for source, target in ((bundle, kept), (job.study, kept.with_suffix(".toml"))):
        beside = target.with_name(f".{target.name}.new")
        shutil.copyfile(source, beside)
        os.replace(beside, target)
