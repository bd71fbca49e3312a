"""Calibration: planted parameters are found again; the journal, the distance, the surface and its profiles, the
errors."""

import importlib.util
import json
import math
from pathlib import Path

import numpy
import pytest

import biqsolur
import studies
from biqsolur import facts
from biqsolur.__main__ import main
from biqsolur.calibrate import MOMENTS, calibrate, calibration_of, moments_of, read_config
from biqsolur.calibrate import __main__ as jobs_main
from biqsolur.calibrate import search as searching
from biqsolur.calibrate.config import mean_and_error
from biqsolur.calibrate.evaluate import Evaluator, Objective, Runs, objective_of
from biqsolur.calibrate.journal import Journal
from biqsolur.errors import CalibrationError

SECOND = 10**9
PLANTED = (430, 12 * SECOND)
MOMENT_NAMES = ("spread", "volatility_10s", "orders_a_minute", "canceled")


def agent(kind, every, **own):
    words = {"kind": f'"{kind}"', "group": 0, "stock": '"ABM"', "first": 34_200 * SECOND, "every": every,
             "wobble": SECOND, "count": 10, "spread": every // 10, "size": 100, **own}
    return "[[agent]]\n" + "\n".join(f"{name} = {value}" for name, value in words.items()) + "\n"


def market(margin, every):
    """Six minutes of value and noise traders: how far a price must be off, and how often noise comes."""
    return studies.steady_market(360) + agent("value", 5 * SECOND, noise=300, margin=margin) + agent("noise", every)


def settings(folder, **more):
    """A configuration of the market from other values than the planted ones."""
    (folder / "start.toml").write_text(market(700, 6 * SECOND))
    return {"study": str(folder / "start.toml"), "keys": 4, "output": str(folder / "out"),
            "generations": 3, "population": 5, "parameters": {"agent.value.margin": [200, 900],
                           "noise": {"paths": ["agent.noise.every"], "low": 4 * SECOND, "high": 30 * SECOND,
                                     "scale": "log"}},
            "targets": {"numbers": {"spread": 6.0}}, **more}


@pytest.fixture(scope="module")
def planted(program, tmp_path_factory):
    """The configuration of a search for planted values, and its result. The targets come from keys of their own."""
    folder = tmp_path_factory.mktemp("planted")
    targets = {"numbers": dict.fromkeys(MOMENT_NAMES, 1)}
    known = calibration_of(settings(folder, keys=list(range(101, 109)), targets=targets))
    runs = Runs(known, program, folder)
    rows = [runs.answer(json.dumps([PLANTED, key])) for key in known.keys]
    numbers = {name: dict(zip(("value", "error"), mean_and_error(list(column))))
               for name, column in zip(MOMENT_NAMES, zip(*rows))}
    table = settings(folder, targets={"numbers": numbers})
    return table, calibrate(calibration_of(table), 1, program=program, progress=False)


def test_planted_parameters_are_found_again(planted):
    """Held against 99.99 per cent, not 95: where the search goes is scipy's, whose versions draw otherwise."""
    _, result = planted
    found = result.parameters()
    assert list(found.parameter) == ["agent.value.margin", "noise"]
    for row, profile, value in zip(found.itertuples(), result.profiles, PLANTED):
        risen = numpy.interp(value, profile.values, profile.distances) - profile.distances.min()
        assert risen < 15.1 and row.low < row.high
        assert row.high - row.low < (row.range_high - row.range_low) / 2
    assert abs(result.values[0] / 430 - 1) < 0.25 and abs(result.values[1] / PLANTED[1] - 1) < 0.15
    assert result.study.to_dict()["agent"][0]["margin"] == result.values[0]
    moments = result.moment_table()
    assert ((moments.low <= moments["mean"]) & (moments["mean"] <= moments.high)).all()
    assert list(moments.moment) == list(MOMENT_NAMES)


def test_planted_parameters_lie_in_the_intervals_of_a_fixed_design(planted, program, tmp_path):
    """The same with points that no library chooses: the interval of 95 per cent has the planted value."""
    calibration = calibration_of({**planted[0], "output": str(tmp_path)})
    evaluator = Evaluator(calibration, Journal(tmp_path / "journal.jsonl", calibration.mark), 2, program, False)
    objective = objective_of(calibration, evaluator.moments([calibration.own_values])[0])
    places = numpy.random.RandomState(2).random_sample((18, 2)) * 0.5 + [0.1, 0.3]
    evaluator.moments([searching.values_at(calibration, place) for place in places])
    surface = searching.surface_of(calibration, evaluator.asked, objective)
    for number, value in enumerate(PLANTED):
        profile = searching.profile_of(calibration, surface, objective, number)
        assert profile.told and profile.low <= value <= profile.high


def test_a_search_that_was_interrupted_ends_as_one_that_was_not(planted, program, tmp_path):
    table, result = planted
    whole = (Path(table["output"]) / "journal.jsonl").read_bytes()
    lines = whole.splitlines(keepends=True)
    (tmp_path / "journal.jsonl").write_bytes(b"".join(lines[:-4]) + lines[-4][:25])      # cut while a line was written
    again = calibrate(calibration_of({**table, "output": str(tmp_path)}), 1, program=program, progress=False)
    assert again.values == result.values and again.distance == result.distance and again.moments == result.moments
    assert (tmp_path / "journal.jsonl").read_bytes() == whole
    assert again.text() == result.text()


def test_the_result_is_written_and_read(planted, tmp_path, program, capsys):
    table, result = planted
    result.write()
    folder = Path(table["output"])
    said = json.loads((folder / "result.json").read_text())
    assert [row["value"] for row in said["parameters"]] == list(result.values) and said["points"] == result.points
    assert biqsolur.Study.read(folder / "study.toml") == result.study
    profile = (folder / "profile.csv").read_text().splitlines()
    assert profile[0] == "parameter,value,distance" and len(profile) == 1 + 2 * searching.PROFILE
    (tmp_path / "config.yaml").write_text(json.dumps(table))        # each JSON is YAML
    assert main(["calibrate", str(tmp_path / "config.yaml"), "--processes", "1", "--program", program]) == 0
    heard = capsys.readouterr().out
    assert heard == result.text() + f"written: study.toml, result.json and profile.csv in {folder}\n"


def test_a_study_gives_the_same_moments_under_the_same_keys_however_it_is_run(planted, program, tmp_path):
    table, result = planted
    calibration = calibration_of({**table, "output": str(tmp_path)})
    evaluator = Evaluator(calibration, Journal(tmp_path / "journal.jsonl", calibration.mark), 3, program, False)
    assert evaluator.moments([result.values, result.values]) == [result.moments] * 2
    branch = biqsolur.run(result.study, program=program, cache=False).branches["root"]
    assert moments_of(facts.tape_of_branch(branch), MOMENT_NAMES) == result.moments[0]


# ---------------------------------------------------------------- the distance and the surface

def test_the_distance_by_hand():
    objective = Objective(numpy.array([1.0, 10.0]), numpy.array([4.0, 0.25]))
    assert objective.distance([[2.0, 8.0], [4.0, 16.0]]) == 4 * (3 - 1)**2 + 0.25 * (12 - 10)**2
    assert objective.distance([]) == math.inf and objective.distance([[1.0, math.nan]]) == math.inf


def test_the_weights_come_from_the_keys_and_from_the_targets_errors(tmp_path):
    targets = {"numbers": {"spread": {"value": 5, "error": 0.3}, "depth": 100}}
    calibration = calibration_of(settings(tmp_path, targets=targets))
    objective = objective_of(calibration, [[1.0, 50.0], [2.0, 70.0], [3.0, 30.0], [2.0, 50.0]])
    assert numpy.allclose(1 / objective.weights, [2 / 3 / 4 + 0.09, 800 / 3 / 4])
    for lacking, said in ([[], "refuses"], [[[1.0, math.nan]] * 4, "no depth"]):
        with pytest.raises(CalibrationError, match=said):
            objective_of(calibration, lacking)


def test_profiles_of_moments_that_are_linear_are_the_textbooks_ones(tmp_path):
    calibration = calibration_of(settings(tmp_path, parameters={
        "agent.value.margin": [0, 1000], "agent.value.noise": [0, 1000]},
        targets={"numbers": {"spread": 7, "depth": 1}}))
    objective = Objective(numpy.array([7.0, 1.0]), numpy.array([4.0, 1.0]))
    draws = numpy.random.RandomState(1)
    points = {tuple(map(int, pair)): [[pair[0] / 100 + pair[1] / 200, pair[1] / 100 - 4]] * 2
              for pair in draws.randint(0, 1001, (60, 2))}
    surface = searching.surface_of(calibration, points, objective)
    low, places = searching.least(surface, objective, {}, 2)
    assert low < 1e-9 and numpy.allclose(places, [0.45, 0.5], atol=1e-4)      # 500 gives the second, 450 then the first
    second = searching.profile_of(calibration, surface, objective, 1)
    assert abs(second.low - (500 - 196)) < 5 and abs(second.high - (500 + 196)) < 5 and second.told
    first = searching.profile_of(calibration, surface, objective, 0)
    half = 1.96 * 100 * math.sqrt(1 / 4 + 1 / 4)       # the variance of (first moment - half of the second)
    assert abs(first.low - (450 - half)) < 6 and abs(first.high - (450 + half)) < 6
    assert abs(first.distances.min()) < 0.05


def test_too_few_points_give_no_surface_and_a_parameter_that_nothing_tells_is_open(tmp_path):
    parameters = {"agent.value.margin": [0, 1000], "agent.value.noise": [0, 1000]}
    calibration = calibration_of(settings(tmp_path, parameters=parameters))
    objective = Objective(numpy.array([7.0]), numpy.array([4.0]))
    points = {(place, (place * 37) % 1001): [[place / 100]] * 2 for place in range(0, 1001, 25)}
    assert searching.surface_of(calibration, dict(list(points.items())[:11]), objective) is None
    surface = searching.surface_of(calibration, points, objective)
    told, untold = (searching.profile_of(calibration, surface, objective, number) for number in (0, 1))
    assert told.told and abs(told.low - (700 - 98)) < 5 and not untold.told


def test_places_and_values_of_a_range(tmp_path):
    margin, every = calibration_of(settings(tmp_path)).parameters
    assert [margin.value(place) for place in (0, 0.5, 1)] == [200, 550, 900]
    assert [every.value(place) for place in (0, 1)] == [4 * SECOND, 30 * SECOND]
    assert abs(every.value(0.5) - math.sqrt(4 * 30) * SECOND) <= 1
    assert all(abs(one.place(one.value(place)) - place) < 2e-3 for one in (margin, every) for place in (0.1, 0.4, 0.9))


# ---------------------------------------------------------------- by Snakemake

def small_search(folder):
    """A search of a few points under two keys."""
    return settings(folder, keys=2, generations=0, population=1, parameters={"agent.value.margin": [200, 900]})


def jobs_one_by_one(folder, options):
    """Does what a workflow does, in this process."""
    assert options == ["--cores", "3"]
    for number in range(len(json.loads((folder / "plan.json").read_text())["points"])):
        jobs_main.write_point(str(folder / "plan.json"), number, str(folder / f"{number}.json"))


def test_a_search_by_jobs_is_the_one_by_processes(program, tmp_path, monkeypatch, capsys):
    """From the command's words to the journal; only Snakemake itself is left out."""
    journals, said = [], []
    monkeypatch.setattr("biqsolur.calibrate.jobs.run_workflow", jobs_one_by_one)
    for name, words in (("near", ["--processes", "2"]), ("far", ["--snakemake", "--cores", "3"])):
        output = tmp_path / name
        (tmp_path / f"{name}.yaml").write_text(json.dumps({**small_search(tmp_path), "output": str(output)}))
        assert main(["calibrate", str(tmp_path / f"{name}.yaml"), "--program", program, *words]) == 0
        journals.append((output / "journal.jsonl").read_bytes())
        said.append(capsys.readouterr().out.replace(str(output), ""))
        assert sorted(path.name for path in output.iterdir()) == [
            "journal.jsonl", "profile.csv", "result.json", "study.toml"]
    assert journals[0] == journals[1] and journals[0].count(b"\n") > 4 and said[0] == said[1]


@pytest.mark.skipif(importlib.util.find_spec("snakemake") is None, reason="snakemake is not installed")
def test_points_by_snakemake_after_one_that_failed(program, tmp_path):
    """A job that fails ends the search and leaves no line; the jobs that were done are not done again; a refused point
    is told as such."""
    (tmp_path / "program").write_text(f"""#!/bin/sh
echo run >> {tmp_path}/runs
if grep -q '^every = 6000000000' "$3" && [ ! -e {tmp_path}/failed ]; then
    : > {tmp_path}/failed; echo write failed >&2; exit 7
fi
exec {program} "$@"
""")
    (tmp_path / "program").chmod(0o755)
    calibration = calibration_of(settings(tmp_path, keys=2, parameters={"agent.noise.every": [0, 10 * SECOND]}))
    points = [(5 * SECOND,), (0,), (6 * SECOND,)]
    journal = Journal(tmp_path / "journal.jsonl", calibration.mark)
    evaluator = Evaluator(calibration, journal, None, str(tmp_path / "program"), False,
                          ["--cores", "1", "--keep-going"])
    with pytest.raises(CalibrationError, match="(?s)Snakemake ended with status 1; .*snakemake.log"):
        evaluator.moments(points)
    log = next(calibration.output.glob("jobs/*/snakemake.log")).read_text()
    assert f"agent.noise.every = {6 * SECOND}, key {1:064x}: the program ended with status 7: write failed" in log
    assert journal.known == {} and len((tmp_path / "runs").read_text().split()) == 2 + 1 + 1
    found = evaluator.moments(points)
    assert found[1] == [] and len((tmp_path / "runs").read_text().split()) == 4 + 2
    assert found == Evaluator(calibration, Journal(tmp_path / "other.jsonl", calibration.mark), 1, program,
                              False).moments(points)
    assert not (calibration.output / "jobs").exists()


def test_a_workflow_that_answers_nothing(program, tmp_path, monkeypatch):
    """As with Snakemake's option --dry-run."""
    monkeypatch.setattr("biqsolur.calibrate.jobs.run_workflow", lambda folder, options: None)
    with pytest.raises(CalibrationError, match="0.json is not there"):
        calibrate(calibration_of(small_search(tmp_path)), program=program, progress=False, snakemake=["-n"])


def test_snakemake_and_processes_are_one_of_both(tmp_path, monkeypatch, program, capsys):
    (tmp_path / "c.yaml").write_text(json.dumps(small_search(tmp_path)))
    assert main(["calibrate", str(tmp_path / "c.yaml"), "--processes", "2", "--snakemake"]) == 1
    assert "one of both" in capsys.readouterr().err
    monkeypatch.setattr("importlib.util.find_spec", lambda name: None)
    assert main(["calibrate", str(tmp_path / "c.yaml"), "--program", program, "--snakemake"]) == 1
    assert "has no package snakemake: pip install 'biqsolur[sweep]'" in capsys.readouterr().err


# ---------------------------------------------------------------- what is refused, and what fails

def test_a_point_that_the_program_refuses_is_told_as_such_and_never_chosen(program, tmp_path):
    calibration = calibration_of(settings(tmp_path, parameters={"agent.noise.every": [0, 10 * SECOND]}))
    journal = Journal(tmp_path / "journal.jsonl", calibration.mark)
    evaluator = Evaluator(calibration, journal, 1, program, False)
    refused, good = evaluator.moments([(0,), (6 * SECOND,)])
    assert refused == [] and len(good) == 4
    assert Journal(tmp_path / "journal.jsonl", calibration.mark).known == journal.known


def test_a_run_that_fails_ends_the_search_and_leaves_no_line(tmp_path):
    (tmp_path / "fails").write_text("#!/bin/sh\necho write failed >&2\nexit 7\n")
    (tmp_path / "fails").chmod(0o755)
    calibration = calibration_of(settings(tmp_path))
    journal = Journal(tmp_path / "journal.jsonl", calibration.mark)
    said = "agent.value.margin = 700, noise = 6000000000, key 0+1: .* status 7: write failed"
    with pytest.raises(CalibrationError, match=said):
        Evaluator(calibration, journal, 1, str(tmp_path / "fails"), False).moments([(700, 6 * SECOND)])
    assert (tmp_path / "journal.jsonl").read_text().count("\n") == 1 and journal.known == {}


def test_an_interrupt_is_one_line(tmp_path, capsys, monkeypatch):
    def interrupted(*_, **__):
        raise KeyboardInterrupt
    (tmp_path / "c.yaml").write_text(json.dumps(settings(tmp_path)))
    monkeypatch.setattr("biqsolur.calibrate.command.calibrate", interrupted)
    assert main(["calibrate", str(tmp_path / "c.yaml")]) == 130
    assert capsys.readouterr() == ("", "biqsolur: interrupted\n")


def test_the_journal_of_another_calibration(tmp_path):
    mark = calibration_of(settings(tmp_path)).mark
    assert mark == calibration_of(settings(tmp_path, generations=9, population=2, seed=7, output="elsewhere")).mark
    others = [settings(tmp_path, keys=5), settings(tmp_path, targets={"numbers": {"depth": 1}}),
              settings(tmp_path, parameters={"agent.value.margin": [1, 2]})]
    assert all(calibration_of(other).mark != mark for other in others)
    Journal(tmp_path / "journal.jsonl", mark).add((1, 2), [[1.5, math.nan]])
    assert str(Journal(tmp_path / "journal.jsonl", mark).known) == "{(1, 2): [[1.5, nan]]}"
    with pytest.raises(CalibrationError, match="another calibration"):
        Journal(tmp_path / "journal.jsonl", "other")


@pytest.mark.parametrize("text", [
    "no\n", "[]\n", '{"calibration": "m"}\n{"values": 5}\n', '{"calibration": "m"}\n{}\n'])
def test_a_file_that_is_no_journal(tmp_path, text):
    (tmp_path / "journal.jsonl").write_text(text)
    with pytest.raises(CalibrationError, match="no journal"):
        Journal(tmp_path / "journal.jsonl", "m")


def test_an_empty_journal_is_begun(tmp_path):
    for text in ("", '{"calibra'):
        (tmp_path / "journal.jsonl").write_text(text)
        assert Journal(tmp_path / "journal.jsonl", "m").known == {}
        assert (tmp_path / "journal.jsonl").read_text() == '{"calibration":"m"}\n'


@pytest.mark.parametrize("change, said", [
    ({"nonsense": 1}, "no such setting: nonsense"), ({"keys": 1}, "two at least"),
    ({"branch": "no"}, "no 'no'"), ({"symbol": "no"}, "no stock 'no'"), ({"generations": -1}, "generations: -1"),
    ({"population": 0}, "population: 0"), ({"seed": "x"}, "seed: 'x'"), ({"parameters": {}}, "parameters: a table"),
    ({"parameters": {"agent.value.margin": [900, 200]}}, "two whole numbers that rise"),
    ({"parameters": {"agent.value.margin": [1.5, 2.5]}}, "two whole numbers"),
    ({"parameters": {"agent.value.margin": {"range": [1, 2], "other": 3}}}, "two whole numbers"),
    ({"parameters": {"agent.value.margin": {"range": [0, 2], "scale": "log"}}}, "begins above 0"),
    ({"parameters": {"agent.value.margin": {"range": [0, 2], "scale": "odd"}}}, "linear or log"),
    ({"parameters": {"agent.value.margin": {"range": [0, 2], "paths": "x"}}}, "list of paths"),
    ({"parameters": {"agent.value.nothing": [1, 2]}}, "no whole number there"),
    ({"parameters": {"agent.value.kind": [1, 2]}}, "no whole number there"),
    ({"targets": {}}, "none; give"), ({"targets": {"numbers": {"no": 1}}}, "no moment 'no'"),
    ({"targets": {"numbers": {"spread": "x"}}}, "a number is wanted"),
    ({"targets": {"numbers": {"spread": {"value": 1, "error": -1}}}}, "a number is wanted"),
    ({"targets": {"from": "x.json"}}, "list of names"),
    ({"targets": {"from": [], "moments": ["spread"]}}, "list of pairs"),
    ({"targets": {"other": 1}}, "targets: a table")])
def test_what_no_calibration_is_made_of(tmp_path, change, said):
    with pytest.raises(CalibrationError, match=said):
        calibration_of(settings(tmp_path, **change))


@pytest.mark.parametrize("name, text, said", [
    ("c.toml", "study = ", "no TOML"), ("c.yaml", "a: [", "no YAML"), ("c.yaml", "5", "table of settings"),
    ("c.toml", "keys = 3", "wanted: study, output, parameters, targets")])
def test_files_that_are_no_configuration(tmp_path, name, text, said, capsys):
    (tmp_path / name).write_text(text)
    assert main(["calibrate", str(tmp_path / name)]) == 1
    heard = capsys.readouterr().err
    assert said in heard and heard.count("\n") == 1


def test_a_configuration_in_toml_is_the_one_in_yaml(tmp_path):
    table = settings(tmp_path)
    (tmp_path / "c.yaml").write_text(json.dumps(table))
    lines = [f"{name} = {json.dumps(table[name])}" for name in ("study", "keys", "output", "generations", "population")]
    lines += ["[parameters]", '"agent.value.margin" = [200, 900]',
              'noise = { paths = ["agent.noise.every"], low = 4000000000, high = 30000000000, scale = "log" }',
              "[targets]", "numbers = { spread = 6.0 }"]
    (tmp_path / "c.toml").write_text("\n".join(lines) + "\n")
    assert read_config(tmp_path / "c.toml") == read_config(tmp_path / "c.yaml")


# ---------------------------------------------------------------- where targets come from

def test_targets_come_from_facts_and_from_lobsters_files(planted, program, tmp_path):
    _, result = planted
    found = facts.of_study(result.study, 3, processes=1, program=program, progress=False)
    (tmp_path / "facts.json").write_text(found.to_json())
    source = {"from": str(tmp_path / "facts.json"), "moments": ["spread", "canceled"]}
    targets = calibration_of(settings(tmp_path, targets=source)).targets
    values = found.numbers["spread"]
    assert math.isclose(targets[0].value, sum(values) / 3) and math.isclose(
        targets[0].error, numpy.std(values, ddof=1) / math.sqrt(3))
    branch = biqsolur.run(result.study, program=program, cache=False).branches["root"]
    biqsolur.to_lobster(tmp_path / "day", branch, 1)
    pair = [str(tmp_path / "day" / f"ABM_{kind}_1.csv") for kind in ("message", "orderbook")]
    names = ["spread", "orders_a_minute", "depth"]
    for days, error in ((1, 0), (2, 0)):        # two days that are one have no spread
        of_days = calibration_of(settings(tmp_path, targets={"from": [pair] * days, "moments": names})).targets
        wanted = moments_of(facts.tape_of_branch(branch), tuple(names))
        assert [target.value for target in of_days] == pytest.approx(wanted)
        assert all(target.error == pytest.approx(error, abs=1e-9) for target in of_days)
    with pytest.raises(CalibrationError, match="has no depth"):
        calibration_of(settings(tmp_path, targets={**source, "moments": ["depth"]}))


def test_moments_of_a_market_by_plain_loops(planted, program):
    branch = biqsolur.run(planted[1].study, program=program, cache=False).branches["root"]
    tape = facts.tape_of_branch(branch)
    found = dict(zip(MOMENTS, moments_of(tape, tuple(MOMENTS))))
    orders = branch.trades.groupby("event").shares.sum()
    begin, end = tape.span
    assert found["orders_a_minute"] == pytest.approx(len(orders) * 60 / ((end - begin) / SECOND), rel=1e-8)
    assert found["shares_an_order"] == pytest.approx(orders.mean(), rel=1e-8)
    assert found["volatility_10s"] > found["volatility_1s"] > 0 and found["depth"] > 0


def test_mean_and_standard_error_by_hand():
    assert mean_and_error([3.0]) == (3.0, 0.0)
    assert mean_and_error([1.0, 2.0, 3.0, 6.0]) == (3.0, math.sqrt(14 / 3 / 4))
