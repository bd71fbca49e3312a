"""Sweeps: their rows against runs by hand, their summary against an independent computation, and what they refuse."""

import csv
import hashlib
import json
import math
import os
import re
import shlex
import shutil
import signal
import subprocess
import sys
import time
from pathlib import Path

import numpy
import pandas
import pytest
from scipy import stats

import biqsolur
from biqsolur import errors, measures
from biqsolur import program as package_program
from biqsolur.sweep import __main__ as words
from biqsolur.sweep import page, plan, points, run, summary

HOME = Path(__file__).resolve().parents[2]
STUDY = HOME / "examples" / "tick_size.toml"
PATIENCE = 120          # seconds, at most, for what is waited for

needs_snakemake = pytest.mark.skipif(not shutil.which("snakemake"), reason="no snakemake on the path")


@pytest.fixture(autouse=True)
def there(tmp_path, monkeypatch):
    """All paths of a test are looked for in its own folder."""
    monkeypatch.chdir(tmp_path)


def rows_of(path):
    """The rows of a file of comma-separated values."""
    with open(path, newline="") as file:
        return list(csv.DictReader(file))


def configuration(folder, program, **changes):
    """Three keys and 2 x 2 points of a market of fifteen hundred events."""
    study = biqsolur.Study(STUDY).with_("events", 1500).with_("branch.wide.at", 600).without_branch("same")
    (folder / "base.toml").write_text(study.to_text())
    return {"study": "base.toml", "keys": 3, "output": "out", "program": str(program),
            "grid": {"branch.wide.edit.0.bands": [[[0, 500]], [[0, 1000]]], "agent.noise.size": [100, 50]}} | changes


def carried_out(values):
    """All that a sweep does, without Snakemake: its plan."""
    made = plan.prepare(values)
    for some_points, some_keys in made.jobs():
        target = Path(made.output) / "runs" / some_points / f"{some_keys}.csv"
        assert words.main(["run", f"{made.output}/plan.json", some_points, some_keys, "--digest",
                           made.digest(some_points, some_keys), "-o", str(target)]) == 0
    assert words.main(["gather", f"{made.output}/plan.json"]) == 0
    return made


def by_hand(folder, program, text, bands, size, number):
    """Status, table and line of a run whose study was changed as text."""
    for old, new in ((r'(?m)^key = "[0-9a-f]{64}"', f'key = "{number:064x}"'), (r"(?m)^size = 100\b", f"size = {size}"),
                     (r"bands = \[\[0, 500\]\] \}", f"bands = {bands} }}")):
        text, count = re.subn(old, new, text)
        assert count == 1
    (folder / "byhand.toml").write_text(text)
    done = subprocess.run([program, "table", "byhand.toml"], cwd=folder, capture_output=True, text=True)
    return done.returncode, done.stdout, done.stderr


def logged(folder, program, lines=""):
    """A program that first does what these lines of shell say, and then is the true one. It logs its words."""
    path = folder / "wrapper"
    path.write_text(f'#!/bin/sh\necho "$@" >> {shlex.quote(str(folder / "calls"))}\n{lines}\n'
                    f'exec {shlex.quote(str(program))} "$@"\n')
    path.chmod(0o755)
    return path


# ------------------------------------------------------------ rows


def expected_rows(folder, program, sizes):
    """The rows of a sweep by hand."""
    result = []
    for point, (bands, size) in enumerate((bands, size) for bands in ("[[0, 500]]", "[[0, 1000]]") for size in sizes):
        for number in (1, 2, 3):
            status, table, line = by_hand(folder, program, (folder / "base.toml").read_text(), bands, size, number)
            start = [str(point), bands, str(size), f"{number:064x}", str(status)]
            if status:
                assert line == "study refused: rule 29, place 1\n"
                result.append(start + ["29", "1"] + [""] * 10)
            else:
                result += [start + ["", ""] + row.split(",") for row in table.splitlines()[1:]]
    return result


@pytest.mark.parametrize("batch", [1, 2, 3, 5, 100])
def test_rows_are_those_of_runs_by_hand(tmp_path, program, batch):
    values = configuration(tmp_path, program, batch=batch, refused="rows",
                           grid={"branch.wide.edit.0.bands": [[[0, 500]], [[0, 1000]]], "agent.noise.size": [100, 0]})
    carried_out(values)
    rows = rows_of("out/points.csv")
    expected = expected_rows(tmp_path, program, (100, 0))
    assert sorted(list(row.values()) for row in rows) == sorted(expected)
    assert list(rows[0]) == ["point", "branch.wide.edit.0.bands", "agent.noise.size", "key", "status", "rule", "place",
                             "branch", "parent", "stop", "events", "end", "first_difference", "volume", "spread_sum",
                             "range", "fees"]
    assert len({row["spread_sum"] for row in rows}) > 6, "the points and keys differ, or nothing is compared"


def test_a_path_that_is_called_as_a_column(tmp_path, program):
    """What the grid says of `events` and how many events a run had are two columns, and a summary's rows keep the
    first."""
    made = carried_out(configuration(tmp_path, program, keys=1, grid={"events": [700, 0, 800]}, refused="rows"))
    said = {(row["study.events"], row["events"]) for row in rows_of("out/points.csv")}
    assert said == {("700", "700"), ("0", ""), ("800", "800")}
    summary.summarise(made)
    said = {(row["point"], row["study.events"], row["keys"], row["refused"]) for row in rows_of("out/summary.csv")}
    assert said == {("0", "700", "1", "0"), ("1", "0", "0", "1"), ("2", "800", "1", "0")}


def test_a_run_that_fails_is_the_jobs_end(tmp_path, program, capsys):
    """With the program's status and its line, and without a file of rows."""
    failing = logged(tmp_path, program, '[ "$1" = table ] && echo "out of memory" >&2 && exit 10')
    values = configuration(tmp_path, failing)
    made = plan.prepare(values)
    digest = made.digest("0-0", "0-0")
    status = words.main(["run", "out/plan.json", "0-0", "0-0", "--digest", digest, "-o", "out/rows.csv"])
    assert status == 10 and capsys.readouterr().err == "sweep: out of memory\n"
    assert [path.name for path in Path("out").iterdir() if path.is_file()] == ["plan.json"]


def test_a_program_that_is_none(tmp_path, program):
    with pytest.raises(errors.SweepError, match="program: .* is no program"):
        plan.prepare(configuration(tmp_path, tmp_path / "nowhere"))


def test_jobs_that_begin_at_once(tmp_path, program):
    """All make the same folders, and one of them has the same rows twice over."""
    made = plan.prepare(configuration(tmp_path, program, batch=3))
    going = [subprocess.Popen([sys.executable, "-m", "biqsolur.sweep", "run", "out/plan.json", name, "0-2", "--digest",
                               made.digest(name, "0-2"), "-o", "out/runs/deep/rows.csv"],
                              env={**os.environ, "PYTHONPATH": str(HOME / "python")}) for name in ("1-1", "1-1")]
    assert [one.wait(PATIENCE) for one in going] == [0, 0]
    assert len(rows_of("out/runs/deep/rows.csv")) == 6


def is_there(process):
    """Whether a process is there, and no mere entry of one that ended."""
    try:
        return Path(f"/proc/{process}/stat").read_text().rsplit(")", 1)[1].split()[0] != "Z"
    except (FileNotFoundError, ProcessLookupError):
        return False


def test_a_job_that_is_ended_ends_its_program(tmp_path, program):
    made = plan.prepare(configuration(tmp_path, program))
    sleeper = tmp_path / "sleeper"
    sleeper.write_text(f"#!/bin/sh\necho $$ > {tmp_path}/process.new\nmv {tmp_path}/process.new {tmp_path}/process\n"
                       "exec sleep 10000\n")
    sleeper.chmod(0o755)
    changed = json.loads(Path("out/plan.json").read_text()) | {"program": str(sleeper)}
    Path("out/plan.json").write_text(json.dumps(changed))
    going = subprocess.Popen([sys.executable, "-m", "biqsolur.sweep", "run", "out/plan.json", "0-0", "0-0", "--digest",
                              made.digest("0-0", "0-0"), "-o", "out/rows.csv"],
                             env={**os.environ, "PYTHONPATH": str(HOME / "python")})
    try:
        wait_until(lambda: (tmp_path / "process").exists() or going.poll() is not None)
        process = int((tmp_path / "process").read_text())
        going.send_signal(signal.SIGTERM)
        assert going.wait(PATIENCE) == 128 + signal.SIGTERM
        wait_until(lambda: not is_there(process))
    finally:
        going.kill()
        going.wait()


STARTED = """
import os, signal, subprocess, sys
from biqsolur.sweep import run
class Popen(subprocess.Popen):
    def __init__(self, *words, **settings):
        super().__init__(*words, **settings)
        os.kill(os.getpid(), signal.SIGTERM)        # before the caller knows the process
        print(self.pid, flush=True)
subprocess.Popen = Popen
signal.signal(signal.SIGTERM, lambda number, frame: sys.exit(99))
run.completed(["sleep", "10000"], subprocess.PIPE, ".", dict(os.environ))
"""


def test_a_signal_while_the_program_starts_leaves_none():
    done = subprocess.run([sys.executable, "-c", STARTED], env={**os.environ, "PYTHONPATH": str(HOME / "python")},
                          stdout=subprocess.PIPE, text=True, timeout=PATIENCE)
    assert done.returncode == 99
    wait_until(lambda: not is_there(int(done.stdout)))


def wait_until(condition):
    """Waits for a condition, for two minutes at most."""
    end = time.monotonic() + PATIENCE
    while not condition():
        assert time.monotonic() < end, "this never came"
        time.sleep(0.05)


# ------------------------------------------------------------ measures


OWN = "def trades(branch):\n    return {'trades': len(branch.trades), 'fees': branch.trades.fees.sum()}\n"


def test_measures_are_those_of_the_bundle(tmp_path, program):
    """Of a branch behind its fork, of its parent over the same events, of the root over all; own ones too."""
    (tmp_path / "mine.py").write_text(OWN)
    wanted = ["effective_spread", {"name": "realised_spread", "horizon": "1s"},
              {"name": "realised_spread", "horizon": "5s"}, "mine.py:trades"]
    made = carried_out(configuration(tmp_path, program, keys=2, measures=wanted, keep="bundles", batch=3))
    rows = rows_of("out/points.csv")
    assert len(rows) == 4 * 2 * 2
    for row in rows:
        bundle = biqsolur.read(f"out/bundles/{row['point']}/{made.keys.index(row['key'])}.bundle")
        branch = bundle.branches[row["branch"]]
        holders = {"": branch} | ({"parent.": bundle.branches[branch.parent]} if branch.parent else {})
        for before, holder in holders.items():
            found = measures.NAMES["effective_spread"].compute(holder, after=branch.fork)
            for horizon in ("1s", "5s"):
                spreads = measures.NAMES["realised_spread"].compute(holder, horizon=horizon, after=branch.fork)
                found |= {f"{name}(horizon={horizon})": value for name, value in spreads.items()}
            found |= {"trades": len(holder.trades), "measure.fees": int(holder.trades.fees.sum())}
            for name, value in found.items():
                cell = row[before + name]
                assert math.isnan(value) if cell == "" else float(cell) == value
        assert branch.parent or not any(row[name] for name in row if name.startswith("parent."))
    assert len({row["trades"] for row in rows}) > 3
    table = [{name: row[name] for name in rows[0] if name in run.first_columns(made)} for row in rows]
    carried_out(configuration(tmp_path, program, keys=2, batch=3))
    assert rows_of("out/points.csv") == table, "a sweep without measures has the same rows but for these"


def test_a_measure_in_the_summary(tmp_path, program):
    """Its differences are from the parent over the same events; a refused run has none."""
    made = carried_out(configuration(tmp_path, program, measures=["effective_spread"], refused="rows",
                                     grid={"agent.noise.size": [100, 0]}))
    summary.summarise(made)
    rows = [row for row in rows_of("out/points.csv") if row["branch"] == "wide"]
    pairs = [number(row["effective_spread"]) - number(row["parent.effective_spread"]) for row in rows]
    pairs = [pair for pair in pairs if not math.isnan(pair)]        # where nothing trades there is no spread
    said = [row for row in rows_of("out/summary.csv")
            if (row["measure"], row["branch"]) == ("effective_spread", "wide")]
    assert len(said) == 1 and said[0]["pairs"] == "2" and len(pairs) == 2 and len(rows) == 3
    assert math.isclose(float(said[0]["difference"]), sum(pairs) / 2, rel_tol=1e-12) and sum(pairs) != 0
    assert [row["refused"] for row in rows_of("out/summary.csv") if row["point"] == "1"] == ["3"]
    assert not any(row["measure"].startswith("parent.") for row in rows_of("out/summary.csv"))


def test_a_summary_tells_where_it_comes_from(tmp_path, program):
    """The record beside it, and the page, name the program by its sum, and the package's version."""
    made = carried_out(configuration(tmp_path, program))
    summary.summarise(made)
    record = json.loads(Path("out/summary.run.json").read_text())
    sum_ = hashlib.sha256(Path(program).read_bytes()).hexdigest()
    assert record["sum of the program"] == sum_ and record["version"] == package_program.version()
    assert record["keys"] == made.keys and record["points"] == [point.values for point in made.points]
    assert sum_ in Path("out/summary.html").read_text()


def test_columns_of_tables_that_differ(tmp_path):
    """A job all of whose runs were refused knows no measure."""
    (tmp_path / "a.csv").write_text("point,key\n0,x\n")
    (tmp_path / "b.csv").write_text('point,key,spread\n1,"y,z",3\n')
    summary.gather(["a.csv", "b.csv"], "all.csv")
    assert rows_of("all.csv") == [{"point": "0", "key": "x", "spread": ""}, {"point": "1", "key": "y,z", "spread": "3"}]


def value_market():
    """The table of a study whose stock's value comes from a file, with traders that are told it."""
    table = biqsolur.Study(STUDY).with_("events", 2500).without_branch("same").with_("branch.wide.at", 300).to_dict()
    rule = ("start", "mean", "pull", "shock", "every")
    stock = {name: value for name, value in table["stock"][0].items() if name not in rule}
    informed = {**table["agent"][1], "kind": "value", "noise": 0, "margin": 0, "count": 5}
    return table | {"stock": [stock | {"series": "rows"}], "series": "series.csv", "agent": [*table["agent"], informed]}


def test_a_series_file_for_each_key(tmp_path, program):
    """Each run reads the course of its own key."""
    from biqsolur import values
    spec = "values.gbm(start=50, volatility=3)"
    settings = configuration(tmp_path, program, keys=2, series=spec, batch=2, grid={})
    table = value_market()
    (tmp_path / "base.toml").write_text(biqsolur.Study(table).to_text())
    carried_out(settings)

    def by_hand_with(number, course):
        made = biqsolur.Study(table).with_("key", number)
        Path("series.csv").unlink(missing_ok=True)
        values.write_series("series.csv", values.series_for(spec, f"{course:064x}", made))
        Path("byhand.toml").write_text(made.to_text())
        return subprocess.run([program, "table", "byhand.toml"], check=True, capture_output=True,
                              text=True).stdout.splitlines()[1:]

    found = {}
    for row in rows_of("out/points.csv"):
        found.setdefault(row["key"], []).append(",".join(row[name] for name in run.TABLE_COLUMNS))
    assert found == {f"{number:064x}": by_hand_with(number, number) for number in (1, 2)}
    assert by_hand_with(2, 1) != by_hand_with(2, 2), "the course says something, or nothing is compared"


# ------------------------------------------------------------ what is refused


def test_a_point_that_is_refused_under_all_keys(tmp_path, program):
    """Is an error before anything runs, with the reason; no plan is there."""
    calls = tmp_path / "calls"
    values = configuration(tmp_path, logged(tmp_path, program), grid={"agent.noise.size": [100, 0]})
    with pytest.raises(errors.SweepError) as fault:
        plan.prepare(values)
    assert str(fault.value).startswith("1 of 2 points are refused under all keys; the first is point 1 "
                                       "(agent.noise.size = 0), rule 29, place 1: ")
    assert "size" in str(fault.value).split("place 1: ")[1]
    assert {line.split()[0] for line in calls.read_text().splitlines()} == {"check"}
    assert not Path("out/plan.json").exists()


def test_a_sweep_in_which_all_were_refused_fails(tmp_path, program, capsys):
    made = carried_out(configuration(tmp_path, program, grid={"agent.noise.size": [0]}, refused="rows"))
    assert summary.last_line(made) == "3 of 3 runs refused"
    assert words.main(["summary", "out/plan.json"]) == 1
    assert capsys.readouterr().err.startswith("sweep: 3 of 3 runs refused")
    assert not Path("out/summary.csv").exists()


@pytest.mark.parametrize("changes, said", [
    ({"keys": 0}, "keys: a number from 1 on"),
    ({"keys": ["a5"]}, "64 lower-case hexadecimal digits"),
    ({"keys": [1, "0" * 63 + "1"]}, "twice"),
    ({"keys": None}, "wanted: keys"),
    ({"grid": [1]}, "paths with lists of values"),
    ({"grid": {"agent.noise.size": []}}, "a list of values"),
    ({"grid": {"agent.noise.size": [1, 1]}}, "twice"),
    ({"grid": {"agent.noise.size": [0.5]}}, "agent.noise.size"),
    ({"grid": {"agent.nose.size": [1]}}, "no entries are 'nose'"),
    ({"grid": {"agent.2.size": [1]}}, "no entries are '2'"),
    ({"grid": {"agent.noise.size": [1], "agent.1.size": [2]}}, "agent.1.size: agent.noise.size, a path before it"),
    ({"grid": {"exchnge.delay": [1]}}, "no such key: 'exchnge'"),
    ({"grid": {"key": ["0" * 64]}}, "a setting of its own beside `grid`, keys"),
    ({"reports": "some"}, "reports: one of none, first, all"),
    ({"refused": "some"}, "refused: one of error, rows"),
    ({"keep": "all"}, "keep: one of bundles"),
    ({"batch": 0}, "batch: how many runs a job has"),
    ({"batch": "9"}, "batch: how many runs a job has"),
    ({"measures": "effective_spread"}, "measures: a list"),
    ({"measures": ["effective_sprad"]}, "no measure 'effective_sprad'"),
    ({"measures": [{"name": "realised_spread", "horzon": "5s"}]}, "has no setting 'horzon'"),
    ({"measures": ["nowhere.py:profit"]}, "nowhere.py can't be read"),
    ({"series": "values.gbm(strt=50)"}, "series"),
    ({"baseline": 4}, "baseline: 4 is no points; a number from 0 to 3 is one"),
    ({"baseline": {"agent.noise.size": 100}}, "is 2 points"),
    ({"studies": "x"}, "no such setting: studies"),
    ({"study": "nowhere.toml"}, "nowhere.toml can't be read"),
])
def test_a_configuration_that_is_none(tmp_path, program, changes, said):
    with pytest.raises(errors.InputError) as fault:
        plan.prepare(configuration(tmp_path, program) | changes)
    assert said in str(fault.value) and not Path("out/plan.json").exists()


def test_a_path_by_name_and_by_number():
    study = biqsolur.Study(STUDY)
    values = {"branch.wide.edit.0.bands": [[0, 7]], "agent.1.size": 9, "stock.ABM.take": 5}
    made = points.study_of(study, values).to_dict()
    assert made["branch"][0]["edit"][0]["bands"] == [[0, 7]] and made["agent"][1]["size"] == 9
    assert made["stock"][0]["take"] == 5 and study.to_dict()["agent"][1]["size"] == 100
    values = {"exchange": {"group": 0, "delay": 1}, "exchange.delay": 2}
    assert points.study_of(study, values).to_dict()["exchange"]["delay"] == 2 and values["exchange"]["delay"] == 1


# ------------------------------------------------------------ plans


def test_jobs_are_all_runs_once():
    """In parts that no job is larger than, for all small sizes."""
    for count, keys, of_point, of_keys in numpy.random.default_rng(8).integers(1, 12, (300, 4)).tolist():
        made = sample_plan(count, keys, of_point, of_keys)
        seen = [(point, key) for some, others in made.jobs() for point in plan.numbers(some, count)
                for key in plan.numbers(others, keys)]
        assert sorted(seen) == [(point, key) for point in range(count) for key in range(keys)]
        assert len(made.jobs()) == -(-count // of_point) * -(-keys // of_keys)


def sample_plan(count=2, keys=3, of_point=1, of_keys=1, **changes):
    """A plan that was made of nothing."""
    values = dict(
        made_of="", output="out", study="base.toml", folder=".", working=".", program="p", program_sum="q",
        keys=[f"{key:064x}" for key in range(keys)], paths=["size"], measures=[], measures_sum="", series=None,
        points=[plan.Point({"size": number}, str(number), 5) for number in range(count)], baseline=None,
        of_point=of_point, of_keys=of_keys, keep=False, refused="error", reports="none")
    return plan.Plan(**values | changes)


def test_a_batch_is_the_size_of_a_job():
    """50 of one point's keys where there are so many, else all keys of several points; else some eight jobs a
    processor."""
    assert plan.layout({"batch": 50}, 10, 10_000, None, 4) == (1, 50)
    assert plan.layout({"batch": 50}, 10, 20, None, 4) == (2, 20)
    assert plan.layout({"batch": 50}, 100, 1, None, 4) == (50, 1)
    for count, keys, cores in ((10, 1000, 4), (3, 7, 2), (1, 1, 64), (500, 1, 4)):
        of_point, of_keys = plan.layout({"batch": None}, count, keys, None, cores)
        jobs = -(-count // of_point) * -(-keys // of_keys)
        assert min(count * keys, 8 * cores) <= jobs <= 2 * 8 * cores + 8 * cores // 4
    old = sample_plan(of_point=3, of_keys=17)
    assert plan.layout({"batch": None}, 9, 99, old, 64) == (3, 17), "what an older plan ran is not run again"


def test_what_makes_a_job_run_again(tmp_path, program):
    """The study's values, the keys, the program, the measures and their files, and no comment and no clock."""
    def digest(**changes):
        return plan.prepare(configuration(tmp_path, given, **changes)).digest("0-0", "0-1")

    given = logged(tmp_path, program)
    (tmp_path / "mine.py").write_text(OWN)
    first = digest(measures=["mine.py:trades"])
    assert first == digest(measures=["mine.py:trades"])
    assert first == digest(measures=["mine.py:trades"], keys=4), "a new key leaves the others"
    assert first == digest(measures=["mine.py:trades"], reports="first")
    base = tmp_path / "base.toml"
    kept = base.read_text()
    plain = configuration(tmp_path, given, measures=["mine.py:trades"])
    seen = {first, digest(), digest(keys=[7, 8])}
    for old, new in (("close = ", "# late\nclose = "), ("size = 200", "size = 201")):
        assert kept.count(old) == 1
        base.write_text(kept.replace(old, new))
        seen.add(plan.prepare(plain).digest("0-0", "0-1"))
    (tmp_path / "mine.py").write_text(OWN + "# another\n")
    seen.add(digest(measures=["mine.py:trades"]))
    given.write_text(given.read_text() + "# another\n")
    seen.add(digest(measures=["mine.py:trades"]))
    assert len(seen) == 6, "each change but the comment makes another sum"


def test_a_plan_that_stands_is_kept(tmp_path, program):
    """Without asking the program again; one that was cut is made anew."""
    values = configuration(tmp_path, logged(tmp_path, program))
    made = plan.prepare(values, 4)
    asked = (tmp_path / "calls").read_text()
    assert plan.prepare(values, 64) == made == plan.read_plan("out/plan.json")
    assert (tmp_path / "calls").read_text() == asked
    text = Path("out/plan.json").read_text()
    Path("out/plan.json").write_text(text[:-9])
    with pytest.raises(errors.SweepError, match="no plan that can be read"):
        plan.read_plan("out/plan.json")
    assert plan.prepare(values, 4) == made and Path("out/plan.json").read_text() == text


def test_a_plan_of_another_sweep(tmp_path, program, capsys):
    made = plan.prepare(configuration(tmp_path, program))
    plan.prepare(configuration(tmp_path, program, keys=[7, 8]))
    digest = made.digest("0-0", "0-0")
    assert words.main(["run", "out/plan.json", "0-0", "0-0", "--digest", digest, "-o", "rows.csv"]) == 1
    assert "two sweeps have one output" in capsys.readouterr().err and not Path("rows.csv").exists()
    assert words.main(["run", "out/plan.json", "0-9", "0-0", "--digest", "x", "-o", "rows.csv"]) == 1


def test_a_study_of_a_point_says_what_it_runs(tmp_path, program):
    """out/studies/P.toml is accepted by itself, from any folder, and has the first key."""
    made = plan.prepare(configuration(tmp_path, program))
    for number, point in enumerate(made.points):
        study = biqsolur.Study(made.study_path(number))
        assert study.to_dict()["key"] == made.keys[0]
        assert study == points.study_of(biqsolur.Study("base.toml"), point.values).with_("key", 1)
        assert run.halves(made, number)[0].endswith('key = "') and run.halves(made, number)[1].startswith('"')


# ------------------------------------------------------------ the summary


def sample_rows(seed):
    """Made-up rows of two points: 7 keys, a branch of the root and a branch of that, and a refused run. `late` is a
    measure that not each run gives."""
    random = numpy.random.default_rng(seed)
    rows = []
    for point in ("0", "1"):
        for key in range(7):
            start = {"point": point, "size": point * 2, "key": f"{key:064x}", "status": "0", "rule": "", "place": ""}
            if point == "1" and key == 3:
                rows.append(start | {"status": "5", "rule": "29", "place": "1"})
                continue
            for branch, parent in (("root", ""), ("wide", "root"), ("free", "wide")):
                numbers = {name: str(int(random.integers(-10**9, 10**9))) for name in summary.TABLE_MEASURES}
                late = {name: "" if random.random() < 0.2 or name != "late" and not parent else repr(random.random())
                        for name in ("late", "parent.late")}
                rows.append(start | {"branch": branch, "parent": parent} | numbers | late)
    return rows


def summed(rows, paths=("size",), baseline=None):
    """The summary of rows, as a list of dicts without its missing cells."""
    frame = summary.summary_frame(pandas.DataFrame(rows).fillna(""), list(paths), baseline)
    return [{name: value for name, value in row.items() if not pandas.isna(value)} for row in frame.to_dict("records")]


def number(text):
    """A cell as a number."""
    return float(text) if text else math.nan


def checked_interval(row, before, values):
    """Compares a row's cells on paired differences with scipy's."""
    values = values[~numpy.isnan(values)]
    low, high = stats.t.interval(0.95, len(values) - 1, values.mean(), stats.sem(values))
    assert row[f"{before}pairs"] == len(values)
    expected = {"difference": values.mean(), "difference_standard_error": stats.sem(values), "low": low, "high": high}
    for name, value in expected.items():
        assert math.isclose(row[before + name], value, rel_tol=1e-9)


@pytest.mark.parametrize("seed", range(6))
def test_the_summary_against_another_computation(seed):
    rows = sample_rows(seed)
    made = summed(rows, baseline=1)
    assert [(row["point"], row["branch"], row["measure"]) for row in made] == [
        (point, branch, measure) for point in "01" for branch in ("root", "wide", "free")
        for measure in [*summary.TABLE_MEASURES, "late"]]
    for row in made:
        def values(branch, measure=row["measure"], point=row["point"]):
            return numpy.array([number(line.get(measure, "")) for line in rows if line["point"] == point and
                                (line["status"] != "0" or line["branch"] == branch)])
        own = values(row["branch"])
        assert row["keys"] == (~numpy.isnan(own)).sum() and row["size"] == row["point"] * 2
        assert row["refused"] == (0 if row["point"] == "0" else 1)
        assert math.isclose(row["mean"], numpy.nanmean(own), rel_tol=1e-12)
        assert math.isclose(row["standard_error"], stats.sem(own, nan_policy="omit"), rel_tol=1e-9)
        if row["parent"]:
            others = values(row["branch"], "parent.late") if row["measure"] == "late" else values(row["parent"])
            checked_interval(row, "", own - others)
        else:
            assert "pairs" not in row and "low" not in row
        if row["point"] == "0":
            checked_interval(row, "baseline_", own - values(row["branch"], point="1"))
        else:
            assert "baseline_pairs" not in row


def test_the_summary_by_hand():
    """Differences 1, 2 and 3: mean 2, variance 1; within t are t / sqrt(2 + t t) at two degrees of freedom."""
    rows = [{"point": "0", "key": str(key), "status": "0", "branch": branch, "parent": parent,
             **{name: str(10 * key + more) for name in summary.TABLE_MEASURES}}
            for key in (1, 2, 3) for branch, parent, more in (("root", "", 0), ("wide", "root", key))]
    row = summed(rows, ())[5]
    assert (row["branch"], row["mean"], row["difference"], row["pairs"]) == ("wide", 22.0, 2.0, 3)
    assert math.isclose(row["difference_standard_error"], 1 / math.sqrt(3))
    t = 0.95 * math.sqrt(2 / (1 - 0.95**2))
    assert math.isclose(row["high"] - 2, t / math.sqrt(3), rel_tol=1e-9)
    assert math.isclose(2 - row["low"], row["high"] - 2, rel_tol=1e-12)


def test_pairs_are_of_one_key():
    """In whatever order the rows of the parent and of the branch stand."""
    rows = [row for row in sample_rows(3) if row["point"] == "0"]
    roots = [row for row in rows if row["branch"] == "root"]
    others = [row for row in rows if row["branch"] != "root"]
    for one, other in zip(summed([*reversed(roots), *others]), summed([*roots, *others]), strict=True):
        assert one == pytest.approx(other, rel=1e-9)


def test_one_key_has_no_interval():
    rows = [row for row in sample_rows(1) if row["key"] == "0" * 64]
    for row in summed(rows):
        assert "standard_error" not in row and "low" not in row and "high" not in row
        assert not row["parent"] or row["measure"] == "late" or row["pairs"] == 1


def test_a_point_that_is_always_refused_is_one_line():
    rows = [*sample_rows(1), *({"point": "2", "size": "0", "key": str(key), "status": "5"} for key in range(3))]
    assert summed(rows)[-1] == {"point": "2", "size": "0", "refused": 3, "keys": 0}


@pytest.mark.parametrize("freedom, t", [(1, 12.706), (2, 4.303), (3, 3.182), (9, 2.262), (29, 2.045), (100, 1.984)])
def test_intervals_of_a_printed_table(freedom, t):
    """The half length of the interval over its standard error is the quantile that stands in any book's table."""
    group, values = numpy.zeros(freedom + 1, int), numpy.random.default_rng(freedom).random(freedom + 1)
    found = summary.of_pairs(group, values)
    assert round(float((found["high"] - found["difference"])[0] / found["difference_standard_error"][0]), 3) == t


def test_the_page_has_each_measure_of_each_point_and_branch():
    """With its interval, as the summary has it, and asks for nothing outside itself."""
    made = sample_plan(2, 7)
    frame = summary.summary_frame(pandas.DataFrame(sample_rows(2)).fillna(""), ["size"])
    drawn = page.figure(made, frame)
    traces = [trace for trace in drawn.data]
    assert len(traces) == len(summary.TABLE_MEASURES + ["late"]) * (3 + 2)
    wide = frame[(frame.measure == "volume") & (frame.branch == "wide")]
    below = [trace for trace in traces if trace.yaxis == "y2" and list(trace.y) == wide.difference.tolist()]
    assert len(below) == 1 and below[0].name == "wide"
    assert numpy.allclose(below[0].error_y.array, wide.high - wide.difference)
    above = [trace for trace in traces if trace.yaxis == "y" and list(trace.y) == wide["mean"].tolist()]
    half = stats.t.ppf(0.975, wide["keys"].to_numpy(float) - 1) * wide.standard_error
    assert numpy.allclose(above[0].error_y.array, half)
    text = page.page_text(made, frame)
    own = text.replace(text.split('id="plotly">')[1].split("</script>")[0], "")
    assert not re.search(r'(src|href)\s*=|url\(|@import', own)
    assert "<td>late</td>" in own and "volume" in own


# ------------------------------------------------------------ with Snakemake


def snakemake(folder, values, *more):
    """Starts Snakemake on a configuration and waits: its status and what it said."""
    (folder / "sweep.yaml").write_text(json.dumps(values))      # YAML has JSON in it
    done = subprocess.run(["snakemake", "--snakefile", str(HOME / "sweep" / "Snakefile"), "--configfile", "sweep.yaml",
                           "--cores", "1", *more],
                          cwd=folder, stdout=subprocess.PIPE, stderr=subprocess.STDOUT, text=True)
    return done.returncode, done.stdout


@needs_snakemake
def test_a_sweep_by_snakemake(tmp_path, program):
    """Its rows and summary are those of the jobs by themselves; a failure that may pass is tried again; the last line
    counts."""
    values = configuration(tmp_path, program, keys=2, grid={"agent.noise.size": [100, 0]}, refused="rows",
                           reports="first")
    made = carried_out(values)
    summary.summarise(made)
    expected = {name: Path("out", name).read_bytes() for name in ("points.csv", "summary.csv")}
    shutil.rmtree("out")
    seen = shlex.quote(str(tmp_path / "seen"))
    failing = logged(tmp_path, program, f'if [ "$1" = table ] && [ ! -e {seen} ]; then : > {seen}; '
                                        'echo "write failed" >&2; exit 7; fi')
    status, said = snakemake(tmp_path, values | {"program": str(failing)})
    assert status == 0, said
    assert {name: Path("out", name).read_bytes() for name in expected} == expected
    assert said.strip().splitlines()[-1] == "2 of 4 runs refused"
    assert "sweep: write failed" in said and "Trying to restart job" in said
    assert sorted(path.name for path in Path("out/reports").iterdir()) == ["0-0.html", "1-0.html"]
    assert "<table" in Path("out/reports/0-0.html").read_text()
    assert "study refused: rule 29, place 1" in Path("out/reports/1-0.html").read_text()


@needs_snakemake
def test_a_refused_sweep_by_snakemake(tmp_path, program):
    """It is one line, and nothing runs."""
    status, said = snakemake(tmp_path, configuration(tmp_path, program, grid={"agent.noise.size": [0]}))
    assert status != 0 and "sweep: 1 of 1 points are refused under all keys" in said and "Traceback" not in said
    assert not Path("out/runs").exists()


# ------------------------------------------------------------ what the docs say

PAGE = (HOME / "docs" / "SWEEPS.md").read_text()


def test_the_configuration_of_the_docs_is_the_one_that_is_there():
    text = (HOME / "sweep" / "ticks.yaml").read_text()
    assert f"```yaml\n{text.split(chr(10), 1)[1]}```\n" in PAGE
    rows = re.findall(r"^\| `(\w+)[^|]*` \| ", PAGE.split("| Setting |")[1].split("\n\n")[0], re.M)
    assert sorted(rows) == sorted(plan.SETTINGS)


def ticks(program, **changes):
    """The configuration of ticks.yaml without its measures, carried out below the test's folder."""
    return {"study": str(STUDY), "keys": 30, "output": "out", "program": str(program), "batch": 90,
            "grid": {"branch.wide.edit.0.bands": [[[0, 200]], [[0, 500]], [[0, 1000]]],
                     "agent.noise.size": [50, 100]}} | changes


def test_the_table_of_the_docs(tmp_path, program):
    summary.summarise(carried_out(ticks(program)))
    s = pandas.read_csv("out/summary.csv")
    names = ["branch.wide.edit.0.bands", "agent.noise.size", "pairs", "difference", "low", "high"]
    found = s[(s.branch == "wide") & (s.measure == "spread_sum")][names].to_numpy().astype(str).tolist()
    lines = PAGE.split("    branch.wide.edit.0.bands  agent")[1].split("\n\n")[0].splitlines()[1:]
    said = [re.match(r"\s*(\[\[.*\]\])\s+(.*)", line).groups() for line in lines]
    assert [[bands, *map(float, rest.split())] for bands, rest in said] == [
        [row[0], *(pytest.approx(float(value), abs=5e-7) for value in row[1:])] for row in found]


def test_the_effective_spread_of_the_docs(tmp_path, program):
    made = carried_out(ticks(program, measures=["effective_spread"], grid={"branch.wide.edit.0.bands": [[[0, 500]]]}))
    summary.summarise(made)
    row, = (row for row in rows_of("out/summary.csv")
            if (row["branch"], row["measure"]) == ("wide", "effective_spread"))
    cents = [f"{float(row[name]) / 100:.2f}" for name in ("difference", "low", "high")]
    assert "the effective spread of a trade is {} cents more than in the root over the same events ({} to {})".format(
        *cents) in PAGE
