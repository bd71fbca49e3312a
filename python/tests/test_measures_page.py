"""docs/MEASURES.md: each number on it comes out, by the package and by hand."""

import doctest
import inspect
import math
import re

import pandas
import pytest
from conftest import ROOT

import biqsolur
from biqsolur import measures

PAGE = ROOT / "docs" / "MEASURES.md"
STUDY = ROOT / "examples" / "worked_market.toml"
SETTINGS = {"horizon": "2s", "study": STUDY}
HAND = {"log": math.log, "sqrt": math.sqrt, "__builtins__": {}}


def tables():
    """The tables of the page, by their headings: a list of rows each, of the texts of their cells."""
    found = {}
    for line in PAGE.read_text().splitlines():
        cells = [cell.strip().replace("\\|", "|") for cell in re.split(r"(?<!\\)\|", line)[1:-1]]
        if line.startswith("|") and not set("".join(cells)) <= {"-"}:
            if last is None:
                last = found.setdefault(tuple(cells), [])
            else:
                last.append(cells)
        elif not line.startswith("|"):
            last = None
    return found


@pytest.fixture(scope="module")
def worked(program, tmp_path_factory):
    """Branch `worked` of the worked market."""
    import subprocess
    path = tmp_path_factory.mktemp("worked") / "worked.bundle"
    path.write_bytes(subprocess.run([program, "run", STUDY], capture_output=True, check=True).stdout)
    return biqsolur.read(path).branches["worked"]


@pytest.fixture(scope="module")
def numbers(worked):
    """All numbers of all measures, by their names."""
    found = {}
    for measure in measures.NAMES.values():
        found |= measure.compute(worked, **{name: value for name, value in SETTINGS.items() if name in measure.takes})
    return found


def test_each_number_is_that_of_the_page_and_that_by_hand(numbers):
    rows = {row[0].strip("`"): row for row in tables()["Number", "Formula", "By hand", "Value"]}
    assert set(rows) == set(numbers)
    for name, (_, formula, by_hand, value) in rows.items():
        assert formula
        assert numbers[name] == pytest.approx(eval(by_hand.strip("`"), HAND), rel=1e-9), name
        digits = len(value.split("e")[0].partition(".")[2])
        assert value in {f"{numbers[name]:.{digits}f}", f"{numbers[name]:.{digits}e}"}, name


def test_best_prices_are_those_of_the_page(worked):
    [told] = [rows for head, rows in tables().items() if head[0] == "9:30:"]
    top = worked.top()
    for seconds, _, _, _, bid, ask in told:
        own = top[top.time <= 34_200_000_000_000 + int(seconds) * 10**9].iloc[-1]
        for text, price, shares in ((bid, own.bid, own.bid_shares), (ask, own.ask, own.ask_shares)):
            expected = f"{price / 10_000:.2f} × {shares}" if shares else ""
            assert text == expected, seconds
    assert len(told) == len(worked.orders) + 1


def test_profits_are_those_of_the_page(worked):
    told = tables()["Agent", "Cash", "Fees", "Marked", "Profit"]
    found = measures.profits(worked, STUDY)
    assert [list(map(int, row)) for row in told] == found[["agent", "cash", "fees", "marked", "profit"]].values.tolist()


def test_fates_are_those_of_the_page(worked):
    names = [worked.bundle.tokens.text(token) for token in measures.lives(worked).token]
    fates = dict(zip(zip(names, measures.lives(worked).event), measures.lives(worked).fate))
    rows = {row[0].strip("`"): row[1] for row in tables()["Number", "Formula", "By hand", "Value"]}
    for fate in ("filled", "canceled", "open"):
        told = set(re.findall(r"[A-Z]{3,}", rows[f"orders_{fate}"]))
        assert told == {name for (name, _), of in fates.items() if of == fate}


def test_sessions_come_out(program, monkeypatch):
    monkeypatch.chdir(ROOT)
    monkeypatch.setenv("BIQSOLUR_PROGRAM", str(program))
    with pandas.option_context("display.width", 80):
        result = doctest.testfile(str(PAGE), module_relative=False)
    assert result.attempted >= 6 and result.failed == 0


def test_the_measures_value_is_that_of_the_study(worked):
    """Marked at its value of ten dollars a position is worth 1,000,000 millionths a share more than at no price."""
    found = measures.profits(worked, STUDY, mark="value")
    assert found.marked.tolist() == [100 * 10**7, 50 * 10**7, -50 * 10**7, -100 * 10**7]
    assert sum(found.profit) + sum(found.fees) == 0
    for mark in measures.agents.MARKS:          # behind the end nothing is earned
        assert not any(measures.profits(worked, STUDY, mark=mark, after=10**9).profit)


def test_a_horizon_may_reach_to_the_very_end_and_no_further(worked):
    last = measures.trade_spreads(worked, "6s").iloc[-1]
    assert (last.time + 6 * 10**9, last.later) == (34_220_000_000_000, 99_900)
    assert math.isnan(measures.trade_spreads(worked, 6 * 10**9 + 1).iloc[-1].later)


def test_times_begin_with_the_event_and_not_behind_it(worked):
    """Behind the event that rests LAST, at 9:30:16, four seconds are left, in all of which both sides are there."""
    rests = int(worked.orders.event.iloc[-1])
    assert worked.tape.window(rests).length == 4 * 10**9
    assert measures.NAMES["quoted_spread"].compute(worked, after=rests)["two_sided"] == 1.0
    before = measures.NAMES["quoted_spread"].compute(worked, after=rests - 1)
    assert worked.tape.window(rests - 1).length == 5 * 10**9 and before["two_sided"] == pytest.approx(4 / 5)


def test_too_few_trades_and_returns_give_no_number(worked):
    """The first three trades make one pair of changes, and a covariance of one pair is nothing; nor has a run of twenty
    seconds a return over thirty. A lag may be longer than there are trades."""
    trades = worked.trades.event.tolist()
    roll = measures.NAMES["roll_spread"].compute
    assert [math.isnan(roll(worked, after=trades[-place] - 1)["roll_spread"]) for place in (1, 2, 3, 4)] == [
        True, True, True, False]
    assert measures.signature_plot(worked, ["10s", "30s"])[["returns", "realised_variance"]].isna().values.tolist() == [
        [False, False], [False, True]]
    lags = measures.autocorrelations(worked, 40)
    assert lags.signs.notna().tolist() == [lag < 6 for lag in range(1, 41)]
    assert lags.returns.notna().tolist() == [lag <= 19 - 3 for lag in range(1, 41)]     # of the places 3 to 19


def test_inventories_begin_with_what_is_held_behind_the_event(worked):
    """Behind EIGHT, at 9:30:09, agent 4 is 100 short, and was 150 long: eleven seconds are left, in which agent 1 gets
    its 100 after five."""
    found = measures.inventory(worked, study=STUDY, after=33)
    assert found["inventory_watcher"] == pytest.approx((100 * 6 / 11 + 50 + 50 + 100) / 4)
    assert found["inventory_most_watcher"] == 100


def test_each_measure_names_its_units_and_what_it_is(numbers):
    """And its formula, and who has it in the literature; counts of orders by their fates have nobody. The page has all
    of these sources."""
    sources = PAGE.read_text().partition("## Sources")[2]
    for measure in measures.NAMES.values():
        assert measure.about.endswith(".") or len(measure.about) > 40
        about = " ".join(inspect.getdoc(measure.function).split())
        cited = re.findall(r"([A-Z][a-z]+)(?: and [A-Z][a-z]+)? \((\d{4})\)", about)
        assert " = " in about and (cited or measure.name == "order_fates"), measure.name
        for author, year in cited:
            assert re.search(rf"^- .*{author}.*\({year}\)", sources, re.MULTILINE), (author, year)
    for number in numbers:
        assert any(measure.unit(number) for measure in measures.NAMES.values()), number


def test_settings_that_are_named_with_a_measure_hold_until_others_are_given(worked):
    bound = measures.find({"name": "realised_spread", "horizon": "2s"})
    assert bound.compute(worked)["realised_spread"] == 350
    assert bound.compute(worked, horizon="6s") == measures.NAMES["realised_spread"].compute(worked, horizon="6s")
    assert bound.compute(worked, horizon="6s") != bound.compute(worked)
    frame = worked.bundle.compare([{"name": "realised_spread", "horizon": "2s"}], parent=False)
    assert frame.value[frame.branch == "worked"].tolist()[0] == 350
    frame = worked.bundle.compare(["quoted_spread", "realised_spread"], parent=False, horizon="2s", after=25)
    found = frame[frame.branch == "worked"].set_index("measure").value
    assert found["realised_spread"] == 0                # of the trades behind SIX TWELVE's alone has a later mid
    assert found["quoted_spread"] == measures.NAMES["quoted_spread"].compute(worked, after=25)["quoted_spread"]
    several = ["effective_spread", {"name": "realizedSpread", "horizon": "2s"}, {"name": bound, "horizon": "1.5s"},
               bound]
    frame = worked.bundle.compare(several, parent=False)
    frame = frame[(frame.branch == "worked") & frame.measure.str.startswith("realised_spread(")]
    assert frame.measure.tolist() == [f"realised_spread(horizon={length})" for length in ("2s", "1.5s", "2s")]
    assert frame.value.tolist()[::2] == [350, 350] and set(frame.unit) == {"0.0001 dollars"}
    assert measures.NAMES["profit"].unit("profit_maker.A.B(horizon=1.5s)") == "0.000001 dollars"
    assert measures.find({"name": bound, "after": 30}).compute(worked) == bound.compute(worked, after=30)
