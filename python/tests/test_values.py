"""Series files with character: their laws, their rounding, and that the program takes them."""

import math
import subprocess
from decimal import Decimal

import numpy
import pytest

from biqsolur import values
from biqsolur.errors import OutputExistsError, SeriesError

OPEN, HOUR = 34_200 * 10**9, 3_600 * 10**9
HOURS = {"open": OPEN, "close": OPEN + HOUR, "stock": [{"symbol": "ABM", "series": "rows"}]}
STUDY = """version = 1
key = "{key:064x}"
open = 34200000000000
close = 37800000000000
events = 2000
series = "{series}"
exchange = {{ group = 0, delay = 1000 }}
latency = {{ base = [[1000]], jitter = [[0]] }}
stock = [{{ symbol = "ABM", bands = [[0, 100]], add = 0, take = 0, series = "rows" }}]
[[agent]]
kind = "value"
group = 0
stock = "ABM"
first = 34200000000000
every = 1000000000
size = 100
noise = 10
margin = 100
count = 5
spread = 1000
"""


def prices_of(spec, key=7, study=HOURS):
    return values.series_for(spec, key, study).value.to_numpy() / 10000


COURSES = ["gbm(start=100)", "ou(start=100)", "garch(start=100)"]


@pytest.mark.parametrize("spec", COURSES)
def test_a_key_has_a_course_of_its_own_and_always_the_same(spec):
    rows = values.series_for(spec, 7, HOURS)
    assert rows.equals(values.series_for("values." + spec, f"{7:064x}", HOURS))
    assert not rows.value.equals(values.series_for(spec, 8, HOURS).value)
    assert (rows.time.iloc[0], rows.time.iloc[-1], rows.value.iloc[0]) == (OPEN, OPEN + HOUR, 1_000_000)
    assert (rows.time.diff().dropna() == 10**9).all() and rows.value.between(1, 1_999_999_900).all()


def test_each_stock_has_draws_of_its_own():
    study = {**HOURS, "stock": [{"symbol": name, "series": kind} for name, kind in
                                [("A", "rows"), ("B", "rule"), ("C", "rows")]]}
    rows = values.series_for("gbm(start=100)", 7, study)
    assert list(rows.symbol.unique()) == ["A", "C"]
    first, second = (rows.value[rows.symbol == name].to_numpy() for name in "AC")
    assert not numpy.array_equal(first, second)
    each = values.series_for({"A": "gbm(start=100)", "C": {"kind": "ou", "start": 20}}, 7, study)
    assert numpy.array_equal(each.value[each.symbol == "A"], first)
    assert each.value[each.symbol == "C"].iloc[0] == 200_000


def test_brownian_motion_has_its_drift_and_volatility():
    moves = numpy.diff(numpy.log(prices_of(values.gbm(start=1000, volatility=0.4, drift=900.0))))
    year, count = 252 * 23_400, 3_600
    assert abs(moves.std() * math.sqrt(year) / 0.4 - 1) < 4 / math.sqrt(2 * count)
    assert abs(moves.mean() * year - (900 - 0.08)) < 4 * 0.4 * math.sqrt(year / count)


def test_brownian_motion_is_a_plain_loop():
    draws = values.draws_of(3, "ABM")
    normals, jumps = draws.standard_normal(3_600), draws.poisson(500 / 23_400, 3_600)
    sizes = draws.standard_normal(3_600)
    level, expected, year = 0.0, [100.0], 252 * 23_400
    for normal, number, size in zip(normals, jumps, sizes):
        level += (0.1 - 0.3**2 / 2) / year + 0.3 / math.sqrt(year) * normal
        level += number * -0.002 + math.sqrt(number) * 0.004 * size
        expected.append(100 * math.exp(level))
    course = values.gbm(start=100, drift=0.1, volatility=0.3, jumps=500, jump_mean=-0.002, jump_deviation=0.004)
    found = prices_of(course, 3)
    assert jumps.sum() > 40 and numpy.allclose(found, expected, rtol=0, atol=0.00006)


def test_a_price_is_drawn_back_to_its_mean():
    found = prices_of(values.ou(start=90, mean=100, half_life="20s", deviation=0.5, every="100ms"))
    assert abs(found[200] - 95) < 2.5 and abs(found[20_000:].mean() - 100) < 0.2
    settled = found[20_000:] - 100
    assert abs(settled.std() / 0.5 - 1) < 0.25
    lagged = (settled[200:] * settled[:-200]).mean() / (settled**2).mean()      # over one half life
    assert abs(lagged - 0.5) < 0.2


def test_garch_clusters_and_has_its_volatility():
    course = values.garch(start=10_000, volatility=0.5, alpha=0.2, beta=0.7, every="100ms")
    moves = numpy.diff(numpy.log(prices_of(course)))
    assert abs(moves.std() * math.sqrt(252 * 234_000) / 0.5 - 1) < 0.1
    squares = moves**2 - (moves**2).mean()
    assert (squares[1:] * squares[:-1]).mean() / squares.var() > 0.15
    assert abs((moves[1:] * moves[:-1]).mean() / moves.var()) < 0.05


@pytest.mark.parametrize("dollars, whole", [
    ("0.00015", 2), ("0.00025", 2), ("0.00035", 4), ("100.00005", 1_000_000), ("100.00015", 1_000_002),
    ("0.000249999999999999999999999999999999", 2), ("0.000250000000000000000000000000000001", 3),
    ("0", 1), ("-5", 1), ("1e30", 1_999_999_900), ("Infinity", 1_999_999_900)])
def test_prices_are_rounded_to_the_nearest_and_halves_to_the_even_one(dollars, whole):
    assert values.exact_value(Decimal(dollars)) == whole


def test_a_file_of_prices(tmp_path):
    days = tmp_path / "day.csv"
    days.write_text("time,price\n1,100\n2,100.00015\n3,101.5\n4,99\n")
    own = values.series_for(values.prices(days, block=0), 7, HOURS).value
    assert own.tolist() == [1_000_000, 1_000_002, 1_015_000] + [990_000] * 3_598
    first, second = (values.series_for(values.prices(days, block=2), key, HOURS).value for key in (1, 2))
    assert first.iloc[0] == second.iloc[0] == 1_000_000 and not first.equals(second)
    steps = numpy.diff(numpy.log(first))
    file_steps = numpy.diff(numpy.log([100, 100.00015, 101.5, 99]))
    assert (numpy.abs(steps[:50, None] - file_steps).min(axis=1) < 1e-5).all()
    blocks = numpy.abs(steps[:50, None] - file_steps).argmin(axis=1).reshape(-1, 2)
    assert ((blocks[:, 0] + 1) % 3 == blocks[:, 1]).all()


def test_the_program_takes_the_file_and_the_traders_follow_it(program, tmp_path):
    rows = values.series_for("garch(start=50, volatility=0.4)", 5, HOURS)
    values.write_series(tmp_path / "series.csv", rows)
    with pytest.raises(OutputExistsError):
        values.write_series(tmp_path / "series.csv", rows)
    (tmp_path / "study.toml").write_text(STUDY.format(key=5, series="series.csv"))
    answer = subprocess.run([program, "check", "study.toml"], cwd=tmp_path, capture_output=True, text=True)
    assert (answer.returncode, answer.stdout) == (0, "accepted: agents 6, stocks 1, branches 1, segments 1\n")


@pytest.mark.parametrize("spec, said", [
    ("gbm(start=-1)", "start = -1"), ("gbm(start='100')", "start = '100'"), ("foo(start=1)", "'foo' is no course"),
    ("gbm(strt=1)", "no setting 'strt'"), ("gbm(100)", "named settings"),
    ("gbm(start=__import__('os'))", "named settings"),
    ("gbm", "named settings"), ("prices()", "path of a file"), ("garch(alpha=0.5, beta=0.5)", "below 1"),
    ("garch(alpha=-0.1)", "alpha"), ("gbm(every='1x')", "no length of time"), ("gbm(every=0)", "every = 0"),
    ("gbm(volatility=1e999)", "volatility"), ("ou(half_life='0s')", "half_life"), ("ou(deviation=-1)", "deviation"),
    ("prices(path='x', block=-1)", "block"), ({"ABM": "gbm()", "Z": "gbm()"}, "'Z' is none"),
    ({"kind": "no"}, "'no' is no course"),
    ({}, "'ABM' has none"), ("gbm(every='1ms')", "3,600,001 rows")])
def test_what_no_series_can_be_made_of(spec, said):
    with pytest.raises(SeriesError, match=said.replace("(", r"\(")):
        values.series_for(spec, 7, HOURS)


@pytest.mark.parametrize("text, said", [
    ("time,cost\n1,2\n", "no column 'price'"), ("price\n", "no prices"), ("price\n1\nx\n", "row 3: 'x'"),
    ("price\n-1\n", "row 2"), ("price\nnan\n", "row 2"), ("", "no table"), ("price\n1\n2\n", "1 returns, fewer than")])
def test_files_that_have_no_prices(tmp_path, text, said):
    (tmp_path / "day.csv").write_text(text)
    with pytest.raises(SeriesError, match=said):
        values.series_for(values.prices(tmp_path / "day.csv"), 7, HOURS)


@pytest.mark.parametrize("key", [-1, 1 << 256, "12", True, "g" * 64])
def test_what_is_no_key(key):
    with pytest.raises(SeriesError, match="key"):
        values.series_for("gbm()", key, HOURS)


def test_a_study_whose_stocks_look_at_no_file():
    with pytest.raises(SeriesError, match="series = \"rows\""):
        values.series_for("gbm()", 7, {**HOURS, "stock": [{"symbol": "ABM", "series": "rule"}]})
