"""One job of a sweep: a few points under a few keys, one call of the program for each run, and the rows of all of them.

A row is of a point, key and branch: point, values, key, status, rule and place of a refusal, the columns of the
program's table, and the measures that are asked for. A refused study is one row without a branch.
"""

from __future__ import annotations

import csv
import io
import os
import re
import shutil
import signal
import subprocess
import tempfile
from collections.abc import Iterator
from dataclasses import dataclass, field
from pathlib import Path
from typing import Any

from biqsolur.errors import SweepError
from biqsolur.program import environment
from biqsolur.sweep.plan import SERIES, Plan, cell, numbers, write_series, write_whole

TABLE_COLUMNS = ["branch", "parent", "stop", "events", "end", "first_difference", "volume", "spread_sum", "range",
                 "fees"]
OWN_COLUMNS = ["key", "status", "rule", "place"]
OF_PARENT = "parent."           # before a measure's name: what its parent has in the same events
REFUSED = 5
REFUSAL = re.compile(r"study refused: rule (\d+), place (\d+)")


@dataclass(frozen=True)
class Refusal:
    """The rule that a study breaks, and the place, as the program says them."""

    rule: str
    place: str


class RunFailed(SweepError):
    """A run ended otherwise than with 0 or 5. `status` is how, for a job that is to end so too."""

    def __init__(self, text: str, status: int) -> None:
        super().__init__(text)
        self.status = status


@dataclass
class Job:
    """The points and keys of a job, in a folder of its own that is gone behind it."""

    plan: Plan
    points: range
    keys: range
    folder: Path
    texts: dict[int, tuple[str, str]] = field(default_factory=dict)
    environment: dict[str, str] = field(default_factory=environment)

    @property
    def study(self) -> Path:
        """The file of the study that is run at the moment."""
        return self.folder / "study.toml"

    def write_study(self, point: int, key: int) -> None:
        """Writes the study of a point under a key, and its series file where one is made for each key."""
        if point not in self.texts:
            self.texts[point] = halves(self.plan, point)
        head, tail = self.texts[point]
        self.study.write_text(head + self.plan.keys[key] + tail, encoding="utf-8", newline="")
        if self.plan.series is not None:
            from biqsolur.study import Study
            write_series(self.plan.series, self.plan.keys[key], Study.read(self.study), self.folder / SERIES)

    def call(self, command: str, output: Any = subprocess.PIPE) -> tuple[int, str, str]:
        """Runs the program on the study of the moment: its status (0 or 5), what it wrote and its line."""
        working: str | Path = self.folder if self.plan.series is not None else self.plan.working
        try:
            run = completed([self.plan.program, command, "--", str(self.study)], output, working, self.environment)
        except OSError as fault:
            raise SweepError(f"the program can't be run: {self.plan.program}: {fault.strerror}") from None
        if run.returncode not in (0, REFUSED):
            raise RunFailed(run.stderr.strip() or f"the program ended with status {run.returncode}", run.returncode)
        return run.returncode, run.stdout or "", run.stderr


def completed(words: list[str], output: Any, working: str | Path,
              environment: dict[str, str]) -> subprocess.CompletedProcess[str]:
    """Runs a program to its end, which comes with this process's own where a signal ends that: such signals wait until the
    program's process is known, and it is killed before they go on."""
    before = signal.pthread_sigmask(signal.SIG_BLOCK, (signal.SIGINT, signal.SIGTERM))
    try:
        process = subprocess.Popen(words, stdout=output, stderr=subprocess.PIPE, cwd=working, env=environment,
                                   encoding="utf-8", errors="replace")
    except OSError:
        signal.pthread_sigmask(signal.SIG_SETMASK, before)
        raise
    with process:
        try:
            signal.pthread_sigmask(signal.SIG_SETMASK, before)
            written, said = process.communicate()
        except BaseException:
            process.kill()
            raise
    return subprocess.CompletedProcess(words, process.returncode, written, said)


def halves(plan: Plan, point: int) -> tuple[str, str]:
    """The text of a point's study before and behind its key."""
    with open(plan.study_path(point), encoding="utf-8", newline="") as file:
        text = file.read()
    at = plan.points[point].key_at
    return text[:at], text[at + len(plan.keys[0]):]


def refusal_of(plan: Plan, point: int) -> Refusal | None:
    """What the program says of a point's study that it refuses under all keys, else None. Where no series file is
    made for each key, a study is refused under all keys or under none."""
    with tempfile.TemporaryDirectory(prefix="biqsolur-sweep-") as folder:
        job, found = Job(plan, range(point, point + 1), range(0), Path(folder)), None
        for key in range(len(plan.keys) if plan.series is not None else 1):
            job.write_study(point, key)
            status, _, line = job.call("check")
            if status == 0:
                return None
            found = found or refusal(line)
        return found


def refusal(line: str) -> Refusal:
    """The rule and place of a refusal's line."""
    match = REFUSAL.search(line)
    if match is None:
        raise SweepError(f"the program refused a study without a rule and a place: {line.strip()}")
    return Refusal(*match.groups())


# ------------------------------------------------------------ rows


def column_of(path: str) -> str:
    """The column of a path of the grid: as it is called, with `study.` before it where another column is called so."""
    return f"study.{path}" if path in ("point", *OWN_COLUMNS, *TABLE_COLUMNS) else path


def first_columns(plan: Plan) -> list[str]:
    """The columns that all rows have, in their order."""
    return ["point", *map(column_of, plan.paths), *OWN_COLUMNS, *TABLE_COLUMNS]


def csv_line(values: list[Any]) -> str:
    """Values as a line of comma-separated values, without its end."""
    out = io.StringIO()
    csv.writer(out, lineterminator="").writerow(values)
    return out.getvalue()


def table_lines(plan: Plan, job: Job) -> Iterator[str]:
    """The lines of a job without measures. No line of the program's table is taken apart."""
    header = ",".join(TABLE_COLUMNS)
    for point in job.points:
        start = csv_line([point, *map(cell, plan.points[point].values.values())])
        for key in job.keys:
            job.write_study(point, key)
            status, table, line = job.call("table")
            if status == REFUSED:
                found = refusal(line)
                yield f"{start},{plan.keys[key]},{status},{found.rule},{found.place}" + "," * len(TABLE_COLUMNS)
                continue
            first, *rows = table.splitlines()
            if first != header:
                raise SweepError(f"the program's table has the columns {first}; this sweep knows {header}")
            yield from (f"{start},{plan.keys[key]},{status},,,{row}" for row in rows)


def measured_lines(plan: Plan, job: Job, output: Path) -> Iterator[str]:
    """The header and the lines of a job with measures or kept bundles."""
    from biqsolur.sweep.measured import measured_rows
    rows = list(measured_rows(plan, job, output))
    names = dict.fromkeys(name for row in rows for name in row)
    columns = first_columns(plan) + [name for name in names if name not in first_columns(plan)]
    yield csv_line(columns)
    yield from (csv_line([row.get(name, "") for name in columns]) for row in rows)


def run_job(plan: Plan, points: str, keys: str, output: str | Path) -> None:
    """Runs a job, whose points and keys are said as `first-last`, and writes its rows to a file, whole or not at
    all."""
    path = Path(output)
    path.parent.mkdir(parents=True, exist_ok=True)
    with tempfile.TemporaryDirectory(prefix="biqsolur-sweep-") as folder:
        job = Job(plan, numbers(points, len(plan.points)), numbers(keys, len(plan.keys)), Path(folder))
        if plan.measures or plan.keep:
            lines = list(measured_lines(plan, job, Path(plan.output)))
        else:
            lines = [csv_line(first_columns(plan)), *table_lines(plan, job)]
    write_whole(path, "\n".join(lines) + "\n")


# ------------------------------------------------------------ reports


def write_page(plan: Plan, point: int, key: int, output: str | Path) -> None:
    """Runs a point under a key and writes the page of its bundle; of a refused study a page with the refusal."""
    import html
    path = Path(output)
    path.parent.mkdir(parents=True, exist_ok=True)
    with tempfile.TemporaryDirectory(prefix="biqsolur-sweep-") as folder:
        job = Job(plan, range(point, point + 1), range(key, key + 1), Path(folder))
        job.write_study(point, key)
        bundle = Path(folder) / f"{point}-{key}.bundle"
        with open(bundle, "wb") as file:
            status, _, line = job.call("run", file)
        if status == REFUSED:
            write_whole(path, f"<!doctype html><meta charset=utf-8><p>{html.escape(line)}</p>\n")
            return
        from biqsolur.report import write_report
        page = Path(folder) / "page.html"
        write_report(bundle, page, study=job.study)
        shutil.copyfile(page, f"{path}.new")
        os.replace(f"{path}.new", path)
