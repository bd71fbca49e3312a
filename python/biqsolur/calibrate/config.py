"""What a calibration is to find, read from a file of TOML or YAML.

    study = "market.toml"               # the study; its own values are the beginning, and its own key is not used
    keys = 8                            # the keys 1 to 8 for each point, or a list of keys: common random numbers
    output = "out/calibration"          # the folder of the journal and of the result
    branch = "root"                     # may be left out, as may what follows: `symbol` (the first stock)
    generations = 20                    # and `seed` (of the search, 1)
    population = 15                     # points a generation and parameter

    [parameters]                        # paths of the study, as `Study.with_` takes them, with ranges of whole numbers
    "agent.value.margin" = [100, 900]
    every = { paths = ["agent.noise.every"], low = 1000000000, high = 60000000000, scale = "log" }

    [targets]
    from = "facts.json"                 # of `biqsolur facts --json`, or files: [["MESSAGE", "ORDERBOOK"], ...]
    moments = ["spread", "hill_1s"]     # which of that source's moments
    numbers = { volatility_10s = 1.5, depth = { value = 300, error = 10 } }       # targets of your own
"""

from __future__ import annotations

import hashlib
import json
import math
import tomllib
from collections.abc import Mapping
from dataclasses import dataclass
from pathlib import Path
from typing import Any

from biqsolur.calibrate.moments import MOMENTS, moments_of
from biqsolur.errors import CalibrationError
from biqsolur.facts.judgement import read_facts
from biqsolur.facts.tape import tape_of_lobster
from biqsolur.keys import keys_of
from biqsolur.study import Study

SETTINGS = {"study", "keys", "output", "branch", "symbol", "generations", "population", "seed", "parameters", "targets"}
FORMAT = 1      # of the journal


@dataclass(frozen=True)
class Parameter:
    """A parameter: its name, the paths that it sets, the range of its whole numbers, and whether it is searched by
    ratios."""

    name: str
    paths: tuple[str, ...]
    low: int
    high: int
    logarithmic: bool = False

    def value(self, place: float) -> int:
        """The whole number at a place from 0 (the low end) to 1 (the high end)."""
        if self.logarithmic:
            exact = math.exp(math.log(self.low) + place * (math.log(self.high) - math.log(self.low)))
        else:
            exact = self.low + place * (self.high - self.low)
        return min(max(round(exact), self.low), self.high)

    def place(self, value: float) -> float:
        """Where a value stands, from 0 to 1; beyond where it is out of the range."""
        if self.logarithmic:
            return (math.log(max(value, 0.5)) - math.log(self.low)) / (math.log(self.high) - math.log(self.low))
        return (value - self.low) / (self.high - self.low)


@dataclass(frozen=True)
class Target:
    """A moment with the value that is aimed at and that value's own standard error (0 where it is exact)."""

    moment: str
    value: float
    error: float = 0.0


@dataclass(frozen=True)
class Calibration:
    """A whole configuration. `keys` are 64 hexadecimal digits each."""

    study: Study
    keys: tuple[str, ...]
    output: Path
    parameters: tuple[Parameter, ...]
    targets: tuple[Target, ...]
    branch: str = "root"
    symbol: str | None = None
    generations: int = 20
    population: int = 15
    seed: int = 1

    @property
    def moments(self) -> tuple[str, ...]:
        """The names of the moments that are aimed at."""
        return tuple(target.moment for target in self.targets)

    def study_at(self, values: tuple[int, ...]) -> Study:
        """The study with these values of the parameters."""
        study = self.study
        for parameter, value in zip(self.parameters, values):
            for path in parameter.paths:
                study = study.with_(path, value)
        return study

    @property
    def own_values(self) -> tuple[int, ...]:
        """The values that the study has itself, brought into the ranges."""
        table = self.study.to_dict()
        out = []
        for parameter in self.parameters:
            value = value_at(table, parameter.paths[0])
            out.append(min(max(value, parameter.low), parameter.high))
        return tuple(out)

    @property
    def mark(self) -> str:
        """A sum of all that a point's moments depend on: a journal of another mark is of another calibration."""
        series = self.study.series_path
        said = [FORMAT, self.study.with_("key", 0).to_dict(), list(self.keys), self.branch, self.symbol, self.moments,
                [[parameter.name, list(parameter.paths)] for parameter in self.parameters],
                hashlib.sha256(series.read_bytes()).hexdigest() if series is not None else None]
        return hashlib.sha256(json.dumps(said, sort_keys=True).encode()).hexdigest()


def value_at(table: Any, path: str) -> int:
    """The whole number at a path of a study's table. CalibrationError where there is none."""
    holder = table
    for part in path.split("."):
        if isinstance(holder, Mapping):
            holder = holder.get(part)
        elif isinstance(holder, list):
            found = [entry for number, entry in enumerate(holder) if part == str(number) or (
                isinstance(entry, Mapping) and part in (entry.get("symbol"), entry.get("name"), entry.get("kind")))]
            holder = found[0] if len(found) == 1 else None
        else:
            holder = None
    if isinstance(holder, bool) or not isinstance(holder, int):
        raise CalibrationError(f"parameters: {path}: the study has no whole number there")
    return holder


def read_config(path: str | Path) -> Calibration:
    """The calibration of a file; its paths are looked for from the working folder. CalibrationError says what is
    wrong."""
    text = Path(path).read_text("utf-8")
    try:
        if Path(path).suffix in (".yaml", ".yml"):
            import yaml
            table = yaml.safe_load(text)
        else:
            table = tomllib.loads(text)
    except ValueError as fault:
        raise CalibrationError(f"{path} is no TOML: {fault}") from None
    except Exception as fault:
        if type(fault).__module__.split(".")[0] != "yaml":
            raise
        raise CalibrationError(f"{path} is no YAML: {' '.join(str(fault).split())}") from None
    return calibration_of(table)


def calibration_of(table: Any) -> Calibration:
    """The calibration of a configuration's plain table."""
    wanted(isinstance(table, Mapping), "a table of settings is wanted")
    unknown = sorted(map(str, set(table) - SETTINGS))
    wanted(not unknown, f"no such setting: {', '.join(unknown)}; there are {', '.join(sorted(SETTINGS))}")
    missing = [name for name in ("study", "keys", "output", "parameters", "targets") if name not in table]
    wanted(not missing, f"wanted: {', '.join(missing)}")
    study = Study(table["study"])
    branch, symbol = table.get("branch", "root"), table.get("symbol")
    wanted(branch in study.branches, f"branch: the study has no {branch!r}; there are {', '.join(study.branches)}")
    wanted(symbol is None or symbol in study.symbols,
           f"symbol: no stock {symbol!r}; there are {', '.join(study.symbols)}")
    numbers = {name: whole(table, name, default, least) for name, default, least in
               (("generations", 20, 0), ("population", 15, 1), ("seed", 1, 0))}
    out = Calibration(study, tuple(keys_of(table["keys"])), Path(str(table["output"])),
                      parameters_of(table["parameters"]), targets_of(table["targets"]), branch, symbol, **numbers)
    wanted(len(out.keys) > 1, "keys: two at least, since the weights of the moments come from how the keys differ")
    out.study_at(out.own_values)
    return out


def whole(table: Mapping[str, Any], name: str, default: int, least: int) -> int:
    """A setting that is a whole number."""
    value = table.get(name, default)
    wanted(isinstance(value, int) and not isinstance(value, bool) and value >= least,
           f"{name}: {value!r}: a whole number from {least} on is wanted")
    return value


def parameters_of(table: Any) -> tuple[Parameter, ...]:
    """The parameters with their ranges."""
    wanted(isinstance(table, Mapping) and table, "parameters: a table from paths to ranges is wanted")
    out = []
    for name, said in table.items():
        settings = said if isinstance(said, Mapping) else {"range": said}
        ends = settings.get("range", (settings.get("low"), settings.get("high")))
        low, high = ends if good_range(settings) else (None, None)
        plain = all(isinstance(end, int) and not isinstance(end, bool) for end in (low, high))
        wanted(plain and low < high,
               f"parameters: {name}: a range is wanted, as in [100, 900]: two whole numbers that rise")
        scale, paths = settings.get("scale", "linear"), settings.get("paths", [name])
        wanted(scale in ("linear", "log"), f"parameters: {name}: scale is linear or log")
        wanted(scale == "linear" or low > 0, f"parameters: {name}: a range searched by ratios (log) begins above 0")
        wanted(isinstance(paths, list) and paths and all(isinstance(path, str) for path in paths),
               f"parameters: {name}: paths is a list of paths of the study")
        out.append(Parameter(str(name), tuple(paths), low, high, scale == "log"))
    return tuple(out)


def good_range(settings: Mapping[str, Any]) -> bool:
    """Whether a parameter's table has known keys, and its range is two things."""
    if set(settings) - {"range", "low", "high", "scale", "paths"}:
        return False
    return "range" not in settings or (isinstance(settings["range"], list) and len(settings["range"]) == 2)


def targets_of(table: Any) -> tuple[Target, ...]:
    """The targets, from a source and from numbers."""
    wanted(isinstance(table, Mapping) and not set(table) - {"from", "moments", "numbers"},
           "targets: a table with `from` and `moments`, or with `numbers`, is wanted")
    out = []
    if "from" in table:
        names = table.get("moments")
        wanted(isinstance(names, list) and names, "targets: moments: a list of names is wanted beside `from`")
        check_names(names)
        out += targets_from(table["from"], tuple(names))
    numbers = table.get("numbers", {})
    wanted(isinstance(numbers, Mapping), "targets: numbers: a table from moments to numbers is wanted")
    check_names(list(numbers))
    for name, said in numbers.items():
        settings = said if isinstance(said, Mapping) else {"value": said}
        value: Any = settings.get("value")
        error: Any = settings.get("error", 0)
        wanted(is_number(value) and is_number(error) and error >= 0 and not set(settings) - {"value", "error"},
               f"targets: {name}: a number is wanted, or {{ value = 2.3, error = 0.1 }}")
        out.append(Target(name, float(value), float(error)))
    wanted(out, "targets: none; give `from` and `moments`, or `numbers`")
    wanted(len({target.moment for target in out}) == len(out), "targets: a moment stands there twice")
    return tuple(out)


def check_names(names: list[Any]) -> None:
    """Refuses moments that there are not."""
    for name in names:
        wanted(name in MOMENTS, f"targets: no moment {name!r}; there are {', '.join(MOMENTS)}")


def targets_from(source: Any, names: tuple[str, ...]) -> list[Target]:
    """Targets from the JSON of facts, or from LOBSTER's files of some days: means, with the standard errors of
    means."""
    if isinstance(source, str):
        found = {number["name"]: number["values"] for fact in read_facts(source)["facts"] for number in fact["numbers"]}
        missing = [name for name in names if name not in found]
        wanted(not missing, f"targets: {source} has no {', '.join(missing)}: it has the numbers of the facts alone")
        values = [[math.nan if value is None else value for value in found[name]] for name in names]
    else:
        pairs = isinstance(source, list) and source
        wanted(pairs and all(isinstance(pair, list) and len(pair) == 2 for pair in source),
               "targets: from: the JSON of facts, or a list of pairs of LOBSTER's files, is wanted")
        days = [moments_of(tape_of_lobster(message, orderbook), names) for message, orderbook in source]
        values = [list(column) for column in zip(*days)]
    for name, column in zip(names, values):
        wanted(all(map(math.isfinite, column)), f"targets: {name} could not be measured on each tape of {source}")
    return [Target(name, *mean_and_error(column)) for name, column in zip(names, values)]


def mean_and_error(values: list[float]) -> tuple[float, float]:
    """The mean and its standard error; an error of 0 for a single value, which says nothing of its own."""
    count = len(values)
    mean = math.fsum(values) / count
    if count < 2:
        return mean, 0.0
    return mean, math.sqrt(math.fsum((value - mean)**2 for value in values) / (count - 1) / count)


def is_number(value: Any) -> bool:
    """Whether it is a finite number."""
    return isinstance(value, (int, float)) and not isinstance(value, bool) and math.isfinite(value)


def wanted(holds: Any, said: str) -> None:
    """Refuses a configuration."""
    if not holds:
        raise CalibrationError(said)
