"""What a calibration found: its best point, the moments there, and how sharply each parameter is told."""

from __future__ import annotations

import json
import math
import os
from collections.abc import Sequence
from dataclasses import dataclass
from pathlib import Path
from typing import Any

import numpy
import pandas

from biqsolur.calibrate.config import Calibration
from biqsolur.calibrate.evaluate import Evaluator, Objective, objective_of
from biqsolur.calibrate.journal import Journal, Moments, Values, replace_file
from biqsolur.calibrate.search import Profile, least, profile_of, search, surface_of, values_at
from biqsolur.errors import CalibrationError
from biqsolur.facts.judgement import short
from biqsolur.study import Study


@dataclass(frozen=True)
class Calibrated:
    """What was found.

    Attributes: calibration, values (of the parameters, in their order), distance (the objective there: squared
    standard errors, summed over the moments), moments (there, a list a key), profiles (one a parameter; none where
    the points were too few to fit a surface), points (how many were evaluated).
    """

    calibration: Calibration
    values: Values
    distance: float
    moments: Moments
    profiles: tuple[Profile, ...]
    points: int

    @property
    def study(self) -> Study:
        """The study with the values that were found; its key is the first of the calibration's."""
        return self.calibration.study_at(self.values).with_("key", self.calibration.keys[0])

    def parameters(self) -> pandas.DataFrame:
        """A row a parameter: parameter, value, low and high (the interval of 95 per cent by the profile, not-a-number
        where there is none), told (whether both ends lie inside of what was searched), range_low, range_high."""
        rows = []
        for number, (parameter, value) in enumerate(zip(self.calibration.parameters, self.values)):
            profile = self.profiles[number] if self.profiles else None
            ends = (profile.low, profile.high, profile.told) if profile else (math.nan, math.nan, False)
            rows.append([parameter.name, value, *ends, parameter.low, parameter.high])
        return pandas.DataFrame(rows, columns=["parameter", "value", "low", "high", "told", "range_low", "range_high"])

    def moment_table(self) -> pandas.DataFrame:
        """A row a moment: moment, target, target_error, mean (over the keys), low and high (the interval of 95 per
        cent of that mean, by Student's law)."""
        from scipy.stats import t
        table = numpy.array(self.moments)
        means, count = table.mean(axis=0), len(table)
        half = t.ppf(0.975, count - 1) * table.std(axis=0, ddof=1) / math.sqrt(count)
        return pandas.DataFrame({
            "moment": list(self.calibration.moments), "target": [target.value for target in self.calibration.targets],
            "target_error": [target.error for target in self.calibration.targets],
            "mean": means, "low": means - half, "high": means + half})

    def profile_table(self) -> pandas.DataFrame:
        """A row a place of each profile: parameter, value, distance."""
        parts = [pandas.DataFrame({"parameter": profile.parameter.name, "value": profile.values,
                                   "distance": profile.distances}) for profile in self.profiles]
        return pandas.concat(parts, ignore_index=True) if parts else pandas.DataFrame(
            columns=["parameter", "value", "distance"])

    def to_dict(self) -> dict[str, Any]:
        """Plain dicts and lists for JSON."""
        def rows(frame: pandas.DataFrame) -> list[dict[str, Any]]:
            return [{name: plain(value) for name, value in row.items()} for row in frame.to_dict("records")]
        return {"distance": plain(self.distance), "points": self.points, "keys": len(self.calibration.keys),
                "parameters": rows(self.parameters()), "moments": rows(self.moment_table())}

    def text(self) -> str:
        """Tables for a terminal."""
        lines = [f"{'parameter':<32} {'value':>14}  {'interval of 95 per cent':<28} range"]
        for row in self.parameters().itertuples():
            interval = "none: too few points" if math.isnan(row.low) else f"{row.low:.6g} to {row.high:.6g}"
            interval += "" if row.told or math.isnan(row.low) else " (open)"
            lines.append(f"{row.parameter:<32} {row.value:>14}  {interval:<28} {row.range_low} to {row.range_high}")
        lines.append(f"{'moment':<32} {'target':>14}  {'mean':<9} interval of 95 per cent")
        for row in self.moment_table().itertuples():
            interval = f"{short(row.low)} to {short(row.high)}"
            lines.append(f"{row.moment:<32} {short(row.target):>14}  {short(row.mean):<9} {interval}")
        moments = len(self.calibration.targets)
        lines.append(f"distance {short(self.distance)} over {moments} moment{'' if moments == 1 else 's'}, "
                     f"{self.points} points under {len(self.calibration.keys)} keys each")
        return "\n".join(lines) + "\n"

    def write(self) -> None:
        """Writes study.toml, result.json and profile.csv into the calibration's folder, each whole; those of an
        earlier end of the same calibration are replaced."""
        folder = self.calibration.output
        replace_file(folder / "study.toml", self.study.to_text())
        replace_file(folder / "profile.csv", self.profile_table().to_csv(index=False, lineterminator="\n"))
        replace_file(folder / "result.json", json.dumps(self.to_dict(), indent=1, allow_nan=False) + "\n")


def plain(value: Any) -> Any:
    """A value for JSON: None where a number is none."""
    if isinstance(value, float):
        return value if math.isfinite(value) else None
    return value.item() if isinstance(value, numpy.generic) else value


def calibrate(calibration: Calibration, processes: int | None = None, *, program: str | os.PathLike[str] | None = None,
              progress: bool | None = None, snakemake: Sequence[str] | None = None) -> Calibrated:
    """Searches, and tells what was found. The folder `output` is made where it is missing; it has the journal, so
    what an interrupt ended goes on from there, and asks for the same points. snakemake: its options, where it is to run
    the points, on a cluster say, in place of `processes` of this machine. Raises CalibrationError and StudyRefused."""
    calibration.study.check(program=program)
    calibration.output.mkdir(parents=True, exist_ok=True)
    journal = Journal(calibration.output / "journal.jsonl", calibration.mark)
    evaluator = Evaluator(calibration, journal, processes, program, progress, snakemake)
    with evaluator.bar:
        objective = objective_of(calibration, evaluator.moments([calibration.own_values])[0])
        search(calibration, evaluator, objective)
        return found(calibration, evaluator, objective)


def found(calibration: Calibration, evaluator: Evaluator, objective: Objective) -> Calibrated:
    """The best point, with that which the surface holds for the best among them, and the profiles."""
    count = len(calibration.parameters)
    surface = surface_of(calibration, evaluator.asked, objective)
    profiles: tuple[Profile, ...] = ()
    if surface is not None:
        evaluator.moments([values_at(calibration, least(surface, objective, {}, count)[1])])
        profiles = tuple(profile_of(calibration, surface, objective, number) for number in range(count))
    asked = evaluator.asked
    values = min(asked, key=lambda point: (objective.distance(asked[point]), point))
    distance = objective.distance(asked[values])
    if not math.isfinite(distance):
        raise CalibrationError("no point has all moments under each key: begin with other ranges")
    return Calibrated(calibration, values, distance, asked[values], profiles, len(asked))
