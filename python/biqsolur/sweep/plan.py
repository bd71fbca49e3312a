"""What a sweep is to run: a base study, keys, a grid of changed values, and what is asked of each run.

docs/SWEEPS.md has the settings of a configuration. A plan stands in OUTPUT/plan.json, with the study of each point
beside it; a job reads no more than that.
"""

from __future__ import annotations

import hashlib
import json
import os
from collections.abc import Iterator, Mapping
from concurrent.futures import ThreadPoolExecutor
from dataclasses import asdict, dataclass
from pathlib import Path
from typing import Any

from biqsolur.errors import InputError, SweepError

SETTINGS = ("study", "keys", "grid", "output", "measures", "baseline", "series", "batch", "keep", "refused", "reports",
            "program")
REPORTS = ("none", "first", "all")
REFUSED = ("error", "rows")
JOBS_A_PROCESSOR = 8
SERIES = "series.csv"           # what a point's study calls the series file that is made for each key
VERSION = 1                     # of the rows that jobs write: a new one makes all jobs run again


@dataclass(frozen=True)
class Point:
    """A combination of the grid's values: these, a sum of what its study says but for the key, and where in the study's
    text the key stands (in characters)."""

    values: dict[str, Any]
    digest: str
    key_at: int


@dataclass(frozen=True)
class Plan:
    """A sweep. Points are numbered from 0, and so are keys.

    made_of: a sum of all that the plan was made of. folder: where measures of one's own are looked for. of_point,
    of_keys: how many points, and how many keys, a job has at most. baseline: a point's number.
    """

    made_of: str
    output: str
    study: str
    folder: str
    working: str
    program: str
    program_sum: str
    keys: list[str]
    paths: list[str]
    points: list[Point]
    measures: list[Any]
    measures_sum: str
    series: Any
    baseline: int | None
    of_point: int
    of_keys: int
    keep: bool
    refused: str
    reports: str

    @property
    def runs(self) -> int:
        """How many runs there are."""
        return len(self.points) * len(self.keys)

    def study_path(self, point: int) -> Path:
        """The file with the study of a point, under the first key."""
        return Path(self.output) / "studies" / f"{point}.toml"

    def jobs(self) -> list[tuple[str, str]]:
        """The points and the keys of each job, as `first-last`."""
        points, keys = parts(len(self.points), self.of_point), parts(len(self.keys), self.of_keys)
        return [(f"{a}-{b - 1}", f"{c}-{d - 1}") for c, d in keys for a, b in points]

    def tables(self) -> list[Path]:
        """The files with the rows of the jobs, in their order."""
        return [Path(self.output) / "runs" / points / f"{keys}.csv" for points, keys in self.jobs()]

    def digest(self, points: str, keys: str) -> str:
        """A sum of all that a job's rows come from."""
        wanted = [self.points[number] for number in numbers(points, len(self.points))]
        return sum_of([VERSION, self.program_sum, self.measures, self.measures_sum, self.series, self.keep, self.paths,
                       [[point.values, point.digest] for point in wanted],
                       [self.keys[number] for number in numbers(keys, len(self.keys))]])

    def reported(self) -> Iterator[tuple[int, int]]:
        """Point and key of each run that gets a page."""
        keys = {"none": 0, "first": 1, "all": len(self.keys)}[self.reports]
        return ((point, key) for point in range(len(self.points)) for key in range(keys))

    def text(self) -> str:
        """The plan as it stands in its file."""
        return json.dumps(asdict(self), indent=1, default=str) + "\n"


def parts(count: int, size: int) -> list[tuple[int, int]]:
    """The numbers below `count` in parts of `size`: first, and one behind the last."""
    return [(first, min(first + size, count)) for first in range(0, count, size)]


def numbers(words: str, count: int) -> range:
    """The numbers of `first-last`, all below `count`."""
    first, _, last = words.partition("-")
    if not (first.isdecimal() and last.isdecimal() and int(first) <= int(last) < count):
        raise SweepError(f"{words}: this is no part of the numbers 0-{count - 1}; was the plan changed since?")
    return range(int(first), int(last) + 1)


def cell(value: object) -> str:
    """A value of the grid in a table: a text as it is, anything else as JSON."""
    return value if isinstance(value, str) else json.dumps(value, default=str)


def words_of(values: dict[str, Any]) -> str:
    """A point's values in a sentence."""
    return ", ".join(f"{path} = {cell(value)}" for path, value in values.items()) or "the base study"


def sum_of(value: object) -> str:
    """The SHA-256 of a value's JSON, in hexadecimal."""
    return hashlib.sha256(json.dumps(value, sort_keys=True, default=str).encode()).hexdigest()


def file_sum(path: str | Path) -> str:
    """The SHA-256 of a file, in hexadecimal; SweepError where it can't be read."""
    try:
        return hashlib.sha256(Path(path).read_bytes()).hexdigest()
    except OSError as fault:
        raise SweepError(f"{path} can't be read: {fault.strerror}") from None


def read_plan(path: str | Path) -> Plan:
    """A plan from its file."""
    try:
        table: dict[str, Any] = json.loads(Path(path).read_text(encoding="utf-8"))
        table["points"] = [Point(**point) for point in table["points"]]
        return Plan(**table)
    except (OSError, ValueError, TypeError, KeyError) as fault:
        raise SweepError(f"{path}: there is no plan that can be read: {fault}; start the sweep by snakemake") from None


# ------------------------------------------------------------ making a plan


def prepare(config: Mapping[str, Any], cores: int = 1) -> Plan:
    """The plan of a configuration: the one that stands in its output, where nothing that it was made of has changed,
    else a new one, which is written there behind the points' studies. SweepError, and no plan is written, where none
    can be made."""
    settings = checked_settings(config)
    place = Path(settings["output"]) / "plan.json"
    old = None
    if place.exists():
        try:
            old = read_plan(place)
        except SweepError:
            pass
    made_of = sum_of([VERSION, settings, sums_of_files(settings)])
    if old is not None and old.made_of == made_of and old.study_path(len(old.points) - 1).exists():
        return old
    return written(settings, made_of, old, cores)


def checked_settings(config: Mapping[str, Any]) -> dict[str, Any]:
    """The settings with their defaults; what can be said of each without the study is said."""
    unknown = sorted(set(config) - set(SETTINGS))
    if unknown:
        raise SweepError(f"no such setting: {', '.join(unknown)}; there are {', '.join(SETTINGS)}")
    missing = [name for name in ("study", "keys", "output") if config.get(name) is None]
    if missing:
        raise SweepError(f"wanted: {', '.join(missing)}")
    settings = {**dict.fromkeys(SETTINGS), **config}
    settings.update(grid=config.get("grid") or {}, measures=config.get("measures") or [],
                    reports=config.get("reports") or "none", refused=config.get("refused") or "error",
                    output=str(config["output"]).rstrip("/") or "/", program=found_program(config.get("program")))
    for name, known in (("reports", REPORTS), ("refused", REFUSED), ("keep", ("bundles", None))):
        if settings[name] not in known:
            raise SweepError(f"{name}: one of {', '.join(str(word) for word in known if word)} is wanted")
    if not isinstance(settings["measures"], list):
        raise SweepError("measures: a list is wanted, of names, of tables with name and settings, and of "
                         "FILE.py:FUNCTION")
    batch = settings["batch"]
    if batch is not None and (isinstance(batch, bool) or not isinstance(batch, int) or batch < 1):
        raise SweepError("batch: how many runs a job has, a number from 1 on, is wanted")
    return settings


def found_program(given: object) -> str:
    """The program: as given, else the package's own finding."""
    if given:
        if not os.access(str(given), os.X_OK):
            raise SweepError(f"program: {given} is no program that can be run")
        return os.path.abspath(str(given))
    from biqsolur.program import find_program
    return str(find_program())


def sums_of_files(settings: Mapping[str, Any]) -> dict[str, str]:
    """The sums of the files that a plan is made of."""
    files = [settings["study"], settings["program"], *own_files(settings["measures"])]
    return {str(path): file_sum(path) for path in files} | {"series": series_sum(settings)}


def own_files(measures: list[Any]) -> list[str]:
    """The files of Python with measures of one's own."""
    names = [entry.get("name") if isinstance(entry, Mapping) else entry for entry in measures]
    return sorted({name.rsplit(":", 1)[0] for name in names if isinstance(name, str) and ".py:" in name})


def series_sum(settings: Mapping[str, Any]) -> str:
    """The sum of the base study's series file, or "" where it names none that is there."""
    import tomllib
    try:
        name = tomllib.loads(Path(settings["study"]).read_text(encoding="utf-8-sig")).get("series")
    except (OSError, ValueError):
        return ""
    places = [Path(name), Path(settings["study"]).parent / name] if isinstance(name, str) else []
    return next((file_sum(path) for path in places if path.is_file()), "")


def written(settings: dict[str, Any], made_of: str, old: Plan | None, cores: int) -> Plan:
    """Makes a plan and writes it. What was written for an older plan of the same output stays where it still holds."""
    from biqsolur.keys import KeyedText, keys_of
    from biqsolur.sweep.points import points_of, study_of
    keys = keys_of(settings["keys"])
    base = base_study(settings)
    values = points_of(settings["grid"])
    studies = [study_of(base, point) for point in values]
    texts = [KeyedText(study.with_series_found() if settings["series"] is None else study) for study in studies]
    points = [Point(point, sum_of([text.head, text.tail, series_sum_of(study, settings)]), len(text.head))
              for point, text, study in zip(values, texts, studies)]
    known_measures(settings["measures"])
    of_point, of_keys = layout(settings, len(points), len(keys), old, cores)
    plan = Plan(
        made_of=made_of, output=settings["output"], study=str(settings["study"]), folder=os.getcwd(),
        working=str(base.folder or Path.cwd()), program=settings["program"], program_sum=file_sum(settings["program"]),
        keys=keys, paths=list(settings["grid"]), points=points, measures=settings["measures"],
        measures_sum=sum_of([file_sum(path) for path in own_files(settings["measures"])]), series=settings["series"],
        baseline=baseline_of(settings["baseline"], values), of_point=of_point, of_keys=of_keys,
        keep=settings["keep"] == "bundles", refused=settings["refused"], reports=settings["reports"])
    write_studies(plan, texts, studies[0])
    if plan.refused == "error":
        check_points(plan)
    write_whole(Path(plan.output) / "plan.json", plan.text())
    return plan


def base_study(settings: Mapping[str, Any]) -> Any:
    """The base study, whose comments are left: a text for many points is written from its values."""
    from biqsolur.study import Study
    try:
        study = Study.read(settings["study"])
    except OSError as fault:
        raise SweepError(f"study: {settings['study']} can't be read: {fault.strerror}") from None
    table = study.to_dict()
    if settings["series"] is not None:
        table["series"] = SERIES
    return Study.from_dict(table, study.folder)


def series_sum_of(study: Any, settings: Mapping[str, Any]) -> str:
    """The sum of the series file of a point's study, "" where there is none or one is made for each key."""
    path = study.series_path
    return "" if settings["series"] is not None or path is None or not path.is_file() else file_sum(path)


def known_measures(measures: list[Any]) -> None:
    """Looks each measure up, so that an unknown one is said before anything runs."""
    if measures:
        from biqsolur.measures import find
        for wanted in measures:
            find(wanted)


def layout(settings: Mapping[str, Any], points: int, keys: int, old: Plan | None, cores: int) -> tuple[int, int]:
    """How many points and how many keys a job has. Without `batch` an older plan's stay, so that what it ran holds."""
    batch = settings["batch"]
    if batch is None and old is not None:
        return old.of_point, old.of_keys
    size = batch or max(1, points * keys // (JOBS_A_PROCESSOR * max(1, cores)))
    of_keys = min(keys, size)
    return max(1, size // of_keys), of_keys


def baseline_of(wanted: object, points: list[dict[str, Any]]) -> int | None:
    """The number of the point to which all others are compared: said as a number, or by values of some paths."""
    if wanted is None:
        return None
    if isinstance(wanted, int) and not isinstance(wanted, bool):
        found = [wanted] if 0 <= wanted < len(points) else []
    elif isinstance(wanted, Mapping):
        found = [number for number, values in enumerate(points)
                 if all(path in values and values[path] == value for path, value in wanted.items())]
    else:
        found = []
    if len(found) != 1:
        raise SweepError(f"baseline: {wanted!r} is {len(found) or 'no'} points; a number from 0 to {len(points) - 1} "
                         "is one, or values of the grid's paths that one point has")
    return found[0]


def write_studies(plan: Plan, texts: list[Any], first: Any) -> None:
    """Writes the study of each point, and the series file of the first key where one is made for each."""
    folder = Path(plan.output) / "studies"
    folder.mkdir(parents=True, exist_ok=True)
    for number, text in enumerate(texts):
        write_whole(plan.study_path(number), text.of(plan.keys[0]))
    if plan.series is not None:
        write_series(plan.series, plan.keys[0], first, folder / SERIES)


def write_series(spec: Any, key: str, study: Any, path: Path) -> None:
    """Writes the series file of a key, over an older one."""
    from biqsolur import values
    path.unlink(missing_ok=True)
    values.write_series(path, values.series_for(spec, key, study))


def write_whole(path: Path, text: str) -> None:
    """Writes a file that is there whole or not at all, over an older one that says something else."""
    data = text.encode()
    if path.exists() and path.read_bytes() == data:
        return
    beside = path.with_name(f".{path.name}.{os.getpid()}.new")
    try:
        beside.write_bytes(data)
        os.replace(beside, path)
    finally:
        beside.unlink(missing_ok=True)


def check_points(plan: Plan) -> None:
    """Asks the program whether it accepts each point's study; SweepError with the first that it refuses under all
    keys."""
    from biqsolur.sweep.run import Refusal, refusal_of
    with ThreadPoolExecutor(os.cpu_count() or 1) as threads:
        refusals = list(threads.map(lambda number: refusal_of(plan, number), range(len(plan.points))))
    refused = [(number, found) for number, found in enumerate(refusals) if found is not None]
    if not refused:
        return
    number, found = refused[0]
    assert isinstance(found, Refusal)
    raise SweepError(
        f"{len(refused)} of {len(refusals)} points are refused under all keys; the first is point {number} "
        f"({words_of(plan.points[number].values)}), rule {found.rule}, place {found.place}: "
        f"{reason(plan.study_path(number), found)} Mend the study or the grid, or write `refused: rows` to have such "
        "runs as rows of their own.")


def reason(path: Path, refusal: Any) -> str:
    """The sentence for a refusal."""
    from biqsolur.why import why
    try:
        return why(str(path), int(refusal.rule), int(refusal.place))
    except InputError as fault:
        return str(fault)
