"""The reference market: its stored facts against the program, its kin, and the figures of docs/REALISM.md."""

import re
import runpy

import pytest
import scipy

import biqsolur
from biqsolur import facts
from biqsolur.__main__ import main
from biqsolur.calibrate import read_config
from biqsolur.calibrate.evaluate import Evaluator
from biqsolur.calibrate.journal import Journal
from biqsolur.facts.judgement import short
from conftest import ROOT

STORED = ROOT / "docs" / "reference_facts.json"
MARKET, STOCKS, QUESTIONS = (
    ROOT / "examples" / f"reference_{name}.toml" for name in ("market", "two_stocks", "questions"))
REALISM, COUNTERFACTUALS = ((ROOT / "docs" / f"{name}.md").read_text() for name in ("REALISM", "COUNTERFACTUALS"))
DRAWN_BY = "1.10.1"
FEWEST = 9                  # facts of twelve
RECOMPUTED = [101, 117]     # of the thirty keys, in the tests that take no minute


def block_below(text, command):
    """The lines that a page shows below a command: those that are set in, up to the first that is not."""
    lines = text[text.index(f"    {command}\n"):].split("\n\n")[1].splitlines()
    return [line.removeprefix("    ") for line in lines]


def numbers_of(table):
    """Each number of stored facts, by name: its values by key."""
    return {number["name"]: dict(zip(table["tapes"], number["values"]))
            for fact in table["facts"] for number in fact["numbers"]}


@pytest.fixture(scope="module")
def stored():
    return facts.read_facts(STORED)


def test_nine_facts_at_least_are_met_under_thirty_keys(stored):
    assert stored["tapes"] == [str(key) for key in range(101, 131)]
    assert sum(fact["met"] for fact in stored["facts"]) == stored["met"] >= FEWEST
    again = facts.Facts.from_dict(stored)
    assert again.to_dict() == stored and sum(again.met.values()) == stored["met"]
    ranges = {number.name: [number.low, number.high] for number in facts.NUMBERS.values()}
    assert {number["name"]: number["range"] for fact in stored["facts"] for number in fact["numbers"]} == ranges


def test_the_stored_numbers_are_those_of_the_program(stored, program):
    found = facts.of_study(MARKET, RECOMPUTED, processes=1, program=program, progress=False)
    kept = numbers_of(stored)
    for name, values in found.numbers.items():
        assert values == pytest.approx([kept[name][str(key)] for key in RECOMPUTED], rel=1e-6, abs=1e-9), name


@pytest.mark.long
def test_all_stored_numbers_are_those_of_the_program(stored, program):
    found = facts.of_study(MARKET, range(101, 131), program=program, progress=False)
    kept = numbers_of(stored)
    for name, values in found.numbers.items():
        assert values == pytest.approx(list(kept[name].values()), rel=1e-6, abs=1e-9), name


def test_the_page_shows_what_the_command_tells(capsys):
    assert main(["facts", str(STORED)]) == 0
    told = capsys.readouterr().out.splitlines()
    assert block_below(REALISM, "python3 -m biqsolur facts examples/reference_market.toml --keys 101-130") == told


def test_the_page_lists_each_number_with_its_range():
    rows = []
    for fact in facts.FACTS:
        for place, number in enumerate(fact.numbers):
            words = f"`{number.name}`: {number.words}{', ' + number.unit if number.unit else ''}"
            rows.append(f"| {'' if place else fact.title} | {words} | {short(number.low)} to {short(number.high)} | "
                        f"{'' if place else fact.source} |")
    assert [line for line in REALISM.splitlines() if "| `" in line and " to " in line] == rows


def test_numbers_in_the_pages_words_are_the_stored_ones(stored):
    estimates = {number["name"]: number for fact in stored["facts"] for number in fact["numbers"]}
    said = re.search(r"absolute returns have an autocorrelation of ([0-9.]+)", REALISM)[1]
    assert said == f"{estimates['absolute_10s']['estimate']:.2f}"
    assert "interval begins just above 3" in REALISM and 3 < estimates["kurtosis_1s"]["interval"][0] < 3.5
    assert [fact["name"] for fact in stored["facts"] if not fact["met"]] == ["volatility_clusters"]


def test_ten_second_returns_are_autocorrelated_as_the_page_says(program):
    from biqsolur.facts import returns
    tape = facts.tape_of_branch(biqsolur.run(MARKET, program=program).branches["root"])
    assert "positively autocorrelated** (0.2)" in REALISM
    assert 0.1 < returns.autocorrelations(returns.returns(tape, 10), 1)[0] < 0.3


def test_the_studies_are_of_an_hour_and_keep_their_limits(program):
    for path in (MARKET, STOCKS):
        study = biqsolur.Study.read(path)
        table = study.to_dict()
        assert table["close"] - table["open"] == 3_600 * 10**9 and table["events"] == 500_000
        assert {kind for _, kind, _ in study.traders} == {"maker", "value", "noise", "momentum"}
        counts = biqsolur.table(study, program=program)
        assert list(counts.end) == ["Closed"] and 200_000 < counts.events[0] < 480_000


def test_the_questions_are_put_to_the_reference_market():
    market, asked = (biqsolur.Study.read(path).to_dict() for path in (MARKET, QUESTIONS))
    assert [branch["name"] for branch in asked.pop("branch")] == ["same", "wide", "slow", "shock", "halt", "resume"]
    assert (market.pop("version"), asked.pop("version")) == (1, 2) and asked == market


def test_the_second_market_has_the_first_ones_traders():
    market, stocks = (biqsolur.Study.read(path).to_dict() for path in (MARKET, STOCKS))
    assert stocks["stock"][0] == market["stock"][0] and stocks["agent"][:len(market["agent"])] == market["agent"]
    assert {agent["stock"] for agent in stocks["agent"][len(market["agent"]):]} == {"XYZ"}


@pytest.mark.long
@pytest.mark.parametrize("symbol, place", [("ABM", 0), ("XYZ", 1)])
def test_the_facts_of_two_stocks(symbol, place, program, capsys, monkeypatch):
    monkeypatch.chdir(ROOT)
    command = f"python3 -m biqsolur facts examples/reference_two_stocks.toml --keys 101-130 --symbol {symbol}"
    assert f"    {command}\n" in REALISM
    assert main([*command.split()[3:], "--program", program]) == 0
    last = capsys.readouterr().out.splitlines()[-1]
    assert re.findall(r"    (\d+ of 12 facts met: examples/reference_two_stocks.*)", REALISM)[place] == last


def questions(monkeypatch, keys=None):
    """The example's own names; with `keys`, it asks under so many."""
    path = ROOT / "examples" / "reference_questions.py"
    if keys is not None:
        real = biqsolur.map
        monkeypatch.setattr(biqsolur, "map", lambda study, _, function: real(study, keys, function, processes=1))
    return runpy.run_path(str(path), run_name="__main__")


def test_the_questions_under_one_key(monkeypatch, capsys):
    questions(monkeypatch, keys=2)
    said = dict(line.split(": ") for line in capsys.readouterr().out.splitlines())
    assert said["effective_spread_bps, same less root"] == "0.00 +- 0.00"
    assert said["realised_volatility_bps, same less root"] == "0.00 +- 0.00"
    assert float(said["effective_spread_bps, wide less root"].split()[0]) > 3
    assert float(said["realised_volatility_bps, shock less root"].split()[0]) > 5


@pytest.mark.long
def test_the_answers_of_the_page(monkeypatch, capsys):
    questions(monkeypatch)
    command = "PYTHONPATH=python python3 examples/reference_questions.py"
    assert block_below(COUNTERFACTUALS, command) == capsys.readouterr().out.splitlines()


def calibration(folder):
    """The page's calibration, with another folder for what it writes."""
    text = (ROOT / "examples" / "calibration.yaml").read_text().replace("out/calibration", str(folder / "out"))
    (folder / "calibration.yaml").write_text(text)
    return folder / "calibration.yaml"


COMMAND = "python3 -m biqsolur calibrate examples/calibration.yaml"


def test_the_moments_of_the_pages_calibration(tmp_path, program, monkeypatch):
    """What was found there has the moments that stand there, and meets the targets; whichever way a search took to
    it."""
    monkeypatch.chdir(ROOT)
    config = read_config(calibration(tmp_path))
    lines = [line.split() for line in block_below(REALISM, COMMAND)]
    found, moments = lines[1:3], lines[4:6]
    assert [row[0] for row in found] == [parameter.name for parameter in config.parameters]
    evaluator = Evaluator(config, Journal(tmp_path / "journal.jsonl", config.mark), 2, program, False)
    rows, = evaluator.moments([tuple(int(row[1]) for row in found)])
    for target, said, values in zip(config.targets, moments, zip(*rows)):
        assert said[:3] == [target.moment, short(target.value), short(sum(values) / len(values))]
        assert float(said[3]) <= target.value <= float(said[5])


@pytest.mark.long
def test_the_calibration_of_the_page(tmp_path, program, capsys, monkeypatch):
    if scipy.__version__ != DRAWN_BY:
        pytest.skip(f"the page's search was drawn by scipy {DRAWN_BY}, and this is {scipy.__version__}")
    monkeypatch.chdir(ROOT)
    assert main(["calibrate", str(calibration(tmp_path)), "--program", program]) == 0
    assert block_below(REALISM, COMMAND) == capsys.readouterr().out.splitlines()[:-1]
