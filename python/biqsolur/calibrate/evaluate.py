"""Points of a calibration, each simulated under all keys, side by side."""

from __future__ import annotations

import json
import math
import os
import subprocess
import tempfile
from collections.abc import Iterable, Sequence
from dataclasses import dataclass
from pathlib import Path
from typing import Any

import numpy

from biqsolur.bundle import read
from biqsolur.calibrate.config import Calibration
from biqsolur.calibrate.jobs import moments_by_snakemake
from biqsolur.calibrate.journal import Journal, Moments, Values
from biqsolur.calibrate.moments import moments_of
from biqsolur.errors import CalibrationError
from biqsolur.facts.tape import tape_of_branch
from biqsolur.mapping import all_answers, program_path

REFUSED = 5                     # the program's status for a study that it refuses


@dataclass(frozen=True)
class Runs:
    """Simulates one point under one key: what each process is asked for, by a text with both."""

    calibration: Calibration
    program: str
    folder: Path

    def answer(self, item: str) -> list[float] | None:
        """The moments of a run; None where the program refuses the study."""
        values, key = json.loads(item)
        handle, name = tempfile.mkstemp(suffix=".toml", dir=self.folder)
        study, bundle = Path(name), Path(name).with_suffix(".bundle")
        try:
            with os.fdopen(handle, "w", encoding="utf-8") as file:
                file.write(self.calibration.study_at(tuple(values)).with_("key", key).to_text())
            with open(bundle, "wb") as out:
                run = subprocess.run([self.program, "run", "--", name], stdout=out, stderr=subprocess.PIPE,
                                     cwd=self.calibration.study.folder)
            if run.returncode == REFUSED:
                return None
            if run.returncode:
                said = run.stderr.decode("utf-8", "replace").strip()
                raise CalibrationError(f"{self.words(values)}, key {key}: the program ended with status "
                                       f"{run.returncode}: {said}")
            branch = read(bundle).branches[self.calibration.branch]
            return moments_of(tape_of_branch(branch, self.calibration.symbol), self.calibration.moments)
        finally:
            study.unlink(missing_ok=True)
            bundle.unlink(missing_ok=True)

    def words(self, values: Iterable[int]) -> str:
        """A point in words."""
        return ", ".join(f"{parameter.name} = {value}"
                         for parameter, value in zip(self.calibration.parameters, values))


class Evaluator:
    """Knows the moments of points: from the journal, or by running them, which the journal then has.

    `asked` has what was asked for, in order: the same after an interrupt, when the journal knows points beyond it.
    """

    def __init__(self, calibration: Calibration, journal: Journal, processes: int | None = None,
                 program: str | os.PathLike[str] | None = None, progress: bool | None = None,
                 snakemake: Sequence[str] | None = None) -> None:
        from tqdm import tqdm
        self.calibration, self.journal = calibration, journal
        self.asked: dict[Values, Moments] = {}
        self.processes = processes or os.cpu_count() or 1
        self.program, self.snakemake = program_path(program), snakemake
        self.bar = tqdm(unit="point", disable=None if progress is None else not progress,
                        total=(calibration.generations + 1) * calibration.population * len(calibration.parameters) + 2)

    def moments(self, points: list[Values]) -> list[Moments]:
        """The moments of each point under each key."""
        missing = [point for point in dict.fromkeys(points) if point not in self.journal.known]
        size = self.processes if self.snakemake is None else max(1, len(missing))
        for start in range(0, len(missing), size):      # an interrupt loses at most the points under way
            part = missing[start:start + size]
            for point, found in zip(part, self._run(part)):
                self.journal.add(point, found)
        self.bar.update(len(points))
        known = [self.journal.known[point] for point in points]
        self.asked.update(zip(points, known))
        return known

    def _run(self, points: list[Values]) -> list[Moments]:
        """The moments of points that the journal does not know: by Snakemake, or by processes of this machine."""
        if self.snakemake is not None:
            return moments_by_snakemake(self.calibration, self.program, points, self.snakemake)
        keys = self.calibration.keys
        items = [json.dumps([point, key]) for point in points for key in keys]
        with tempfile.TemporaryDirectory(prefix="biqsolur-calibrate-") as folder:
            task: Any = Runs(self.calibration, self.program, Path(folder))
            answers = all_answers(task, items, min(self.processes, len(items)), progress=False)
        parts = [answers[place * len(keys):(place + 1) * len(keys)] for place in range(len(points))]
        return [[] if None in rows else rows for rows in parts]


@dataclass(frozen=True)
class Objective:
    """The distance of a point's mean moments from the targets, in squared standard errors, summed over the moments.

    weights: one over the squared standard error of each difference: that of the mean over the keys, as the study's
    own values have it, and that of the target itself. So at the true values the distance is near a chi-squared number
    with a degree for each moment (McFadden 1989, with a diagonal weight).
    """

    targets: numpy.ndarray
    weights: numpy.ndarray

    def distance(self, moments: Moments) -> float:
        """The distance; without end where the point was refused or lacks a moment under some key."""
        if not moments:
            return math.inf
        means = numpy.array(moments).mean(axis=0)
        found = float((self.weights * (means - self.targets)**2).sum())
        return found if math.isfinite(found) else math.inf


def objective_of(calibration: Calibration, own: Moments) -> Objective:
    """The objective, from what the study's own values have under the keys. CalibrationError where they lack a
    moment."""
    if not own:
        raise CalibrationError("the program refuses the study at its own values, brought into the parameters' ranges")
    table = numpy.array(own)
    lacking = [target.moment for target, column in zip(calibration.targets, table.T)
               if not numpy.isfinite(column).all()]
    if lacking:
        raise CalibrationError(f"the study's own values have no {lacking[0]} under each key: its weight can't be told; "
                               "begin with other values, or take the moment away")
    values = numpy.array([target.value for target in calibration.targets])
    errors = numpy.array([target.error for target in calibration.targets])
    spread = numpy.maximum(table.var(axis=0, ddof=1) / len(table), (1e-6 * numpy.abs(values))**2 + 1e-18)
    return Objective(values, 1 / (spread + errors**2))
