"""Studies as objects: read, made, changed, written; their times, prices and edits."""

import copy
import datetime
import random
import subprocess
import tomllib
from decimal import Decimal
from pathlib import Path

import numpy
import pandas
import pytest

import biqsolur
import studies
from biqsolur import edits, prices, times
from biqsolur.errors import (InputError, OutputExistsError, PriceError, StudyError, StudySyntaxError, TimeError)
from biqsolur.fields import FIELDS
from biqsolur.ouch import Cancel, Enter
from biqsolur.study import Study
from conftest import ROOT, SEEDS

EXAMPLES = sorted(path for path in (ROOT / "examples").glob("*.toml") if b"\nversion" in b"\n" + path.read_bytes())
TICK_SIZE = ROOT / "examples" / "tick_size.toml"


@pytest.fixture
def study():
    """A study with comments, two branches and two kinds of trader."""
    return Study.read(TICK_SIZE)


# ---------------------------------------------------------------- reading and writing


def test_a_read_study_is_written_and_runs_as_it_was(market, tmp_path):
    """Over random studies: the text stays byte for byte, and the study of the dict is equal and gives the same
    bundle."""
    read = Study.read(market.folder / "study.toml")
    read.write(tmp_path / "read.toml")
    assert (tmp_path / "read.toml").read_bytes() == (market.folder / "study.toml").read_bytes()
    made = Study.from_dict(market.study)
    assert made == read == Study.from_text(made.to_text()) and hash(made) == hash(read)
    assert made.to_dict() == market.study
    assert all(len(line) <= 200 for line in made.to_text().splitlines())
    written = market.folder / f"written{tmp_path.name}.toml"
    made.write(written)
    answer = subprocess.run([market.program, "run", written.name], cwd=market.folder, capture_output=True)
    assert (answer.returncode, answer.stderr) == (0, b"")
    assert answer.stdout == market.bundle.read_bytes()


@pytest.mark.parametrize("path", EXAMPLES, ids=lambda path: path.stem)
def test_examples_stay_byte_for_byte(path):
    """What was read and not changed is the file, and says what Python's own reader says."""
    study = Study(path)
    assert study.to_text().encode() == path.read_bytes()
    assert study.to_dict() == tomllib.loads(path.read_text())
    assert Study.from_text(Study.from_dict(study.to_dict()).to_text()) == study


def test_a_study_from_each_source(study):
    """Path, text and dict give equal studies; one that differs in a value is another."""
    assert Study(TICK_SIZE) == Study(str(TICK_SIZE)) == Study(TICK_SIZE.read_text()) == Study(study.to_dict()) == study
    assert study.with_("close", "9:31") != study != "a text"
    assert len({study, Study(study.to_dict()), study.with_("close", "9:31")}) == 2


def test_the_dict_is_a_copy(study):
    """Changing what `to_dict` gave changes no study."""
    before = study.to_dict()
    before["stock"][0]["bands"][0][1] = 7
    assert study.to_dict()["stock"][0]["bands"] == [[0, 100]]
    table = study.to_dict()
    made = Study(table)
    table["agent"][0]["size"] = 1
    assert made == study


@pytest.mark.parametrize("end", ["\n", "\r\n"])
@pytest.mark.parametrize("mark", ["", "\ufeff"])
def test_line_ends_and_a_byte_order_mark_stay(end, mark, tmp_path):
    """They stay as they are in what is written, also behind a change."""
    data = (mark + TICK_SIZE.read_text().replace("\n", end)).encode()
    (tmp_path / "study.toml").write_bytes(data)
    study = Study.read(tmp_path / "study.toml")
    assert study.to_text().encode() == data and study == Study(TICK_SIZE)
    study = study.with_("events", 19_999).branch("more", after=1, edits=[edits.Silence(1)])
    study = study.with_agent("watcher", every=1).with_("branch.wide.edit", [edits.Silence(1), edits.Silence(2)])
    changed = study.with_("exchange", {"group": 0, "delay": 1}).to_text()
    assert changed.startswith(mark + "# Question") and ("\r" in changed) == (end == "\r\n")
    assert changed.count("\n") == changed.count(end)


def test_writing_never_replaces_a_file(study, tmp_path):
    """The file is whole or not there, and nothing else is left in the folder."""
    study.write(tmp_path / "study.toml")
    with pytest.raises(OutputExistsError, match="nothing was written"):
        study.with_("events", 5).write(tmp_path / "study.toml")
    with pytest.raises(biqsolur.OutputFolderError, match=r"no/study\.toml can't be written: there is no .*/no$"):
        study.write(tmp_path / "no" / "study.toml")
    assert [path.name for path in tmp_path.iterdir()] == ["study.toml"]
    assert (tmp_path / "study.toml").read_text() == study.to_text()


def test_an_error_while_writing_leaves_nothing(study, tmp_path, monkeypatch):
    """An interrupt between the bytes and the name takes the bytes away."""
    def interrupted(*_):
        raise KeyboardInterrupt
    monkeypatch.setattr("os.link", interrupted)
    with pytest.raises(KeyboardInterrupt):
        study.write(tmp_path / "study.toml")
    assert list(tmp_path.iterdir()) == []


# ---------------------------------------------------------------- changes


def leaves(value, places=()):
    """The places of all numbers and texts of a study."""
    if isinstance(value, dict):
        for key, item in value.items():
            yield from leaves(item, (*places, key))
    elif isinstance(value, list):
        for number, item in enumerate(value):
            yield from leaves(item, (*places, number))
    else:
        yield places


def is_changeable(places):
    """Whether a place's value can be any number of its own: not a word that others refer to."""
    return places[-1] not in ("kind", "symbol", "stock", "series", "name", "parent", "key", "message")


@pytest.mark.parametrize("seed", range(12))
def test_one_changed_value_is_that_and_no_other(seed):
    """Over random studies, read and made: `with_` does what an assignment in the dict does."""
    table, _ = studies.make_study(seed)
    chance = random.Random(seed)
    places = chance.sample([place for place in leaves(table) if is_changeable(place)], 8)
    for study in (Study.from_text(studies.toml(table)), Study.from_dict(table)):
        for place in places:
            wanted = copy.deepcopy(table)
            holder = wanted
            for part in place[:-1]:
                holder = holder[part]
            holder[place[-1]] = 123_456
            changed = study.with_(".".join(map(str, place)), 123_456)
            assert changed.to_dict() == wanted
            assert tomllib.loads(changed.to_text()) == wanted
            assert study.to_dict() == table


@pytest.mark.parametrize("path", EXAMPLES, ids=lambda path: path.stem)
def test_comments_stay_where_a_value_changes(path):
    """In each example: of all lines one alone differs, and that one in its value alone."""
    study = Study.read(path)
    for place, value in [("events", 4321), ("stock.0.take", 17), ("agent.0.first", study.to_dict()["open"] + 1)]:
        old, new = study.to_text().split("\n"), study.with_(place, value).to_text().split("\n")
        assert len(old) == len(new)
        [(before, after)] = [(first, second) for first, second in zip(old, new) if first != second]
        assert before.split("=")[0] == after.split("=")[0] and str(value) in after
        assert before.partition("#")[2] == after.partition("#")[2]


def test_paths_by_name(study):
    """A stock by its symbol, a branch by its name, an agent by its kind; plurals, numbers and lists of parts do too."""
    def value(changed):
        table = changed.to_dict()
        return (table["stock"][0]["take"], table["branch"][0]["edit"][0]["bands"], table["agent"][1]["size"])
    assert value(study.with_("stock.ABM.take", "0.005"))[0] == 5000
    assert value(study.with_("branch.wide.edit.0.bands.0.1", "0.02"))[1] == [[0, 200]]
    assert value(study.with_("agent.noise.size", 7))[2] == 7
    for path in ("stocks.ABM.take", ["stock", 0, "take"], ("stock", "ABM", "take")):
        assert study.with_(path, 1) == study.with_("stock.0.take", 1)
    wide = study.with_("branches.0.edits.0.bands", [("0", Decimal("0.02"))])
    assert wide == study.with_("branch.wide.edit.0.bands.0.1", 200)
    assert study.with_("latency.base.1.0", "7us").to_dict()["latency"]["base"] == [[1000, 50000], [7000, 80000]]
    assert study.with_("stride", 500).to_dict()["stride"] == 500
    assert study.with_("branch.wide.edit", [edits.Halt("ABM")]).edits("wide") == [edits.Halt("ABM")]


def test_a_whole_table_is_replaced(study):
    """Where tomlkit can't put it in the text, the study is written anew; what it says is right in each case."""
    still = {"base": [[0, 0], [0, 0]], "jitter": [[0, 0], [0, 0]]}
    for base in (study, Study(study.to_dict()), study.only("root"), Study(study.only("root").to_text())):
        base.to_text()
        for path, value in [("latency", still), ("exchange", {"group": 1, "delay": 0}), ("branch", []), ("change", []),
                            ("stock", base.to_dict()["stock"] * 2), ("agent", base.to_dict()["agent"][:1])]:
            changed = base.with_(path, value)
            assert changed.to_dict() == {**base.to_dict(), path: value} == tomllib.loads(changed.to_text())
            assert ("# Question" in changed.to_text()) == ("# Question" in base.to_text())
    many = [edits.AgentParameter(number, "every", "1s") for number in range(1, 17)]
    assert max(map(len, study.with_("branch.wide.edit", many).to_text().splitlines())) <= 140


def test_a_symbol_with_a_dot():
    """It is named in a list of parts."""
    table, _ = studies.make_study(0)
    table["stock"][0]["symbol"] = "A.B"
    assert Study(table).with_(["stock", "A.B", "add"], 5).to_dict()["stock"][0]["add"] == 5


def test_branches_come_and_go(study):
    """A branch is added behind the others, in text and table; taken away again the study says what it said."""
    made = [edits.Latency(0, 1, "1us"), edits.Fee("ABM", "0.001", -200)]
    more = study.branch("fast", parent="wide", after=6000, edits=made)
    assert more.branches == ["root", "wide", "same", "fast"]
    assert more.to_text().startswith(study.to_text()) and tomllib.loads(more.to_text()) == more.to_dict()
    assert more.to_dict()["branch"][2] == {
        "name": "fast", "parent": "wide", "at": 6000, "edit": [
            {"kind": "latency", "from": 0, "to": 1, "base": 1000, "jitter": 0},
            {"kind": "fee", "stock": "ABM", "add": 1000, "take": -200}]}
    assert more.without_branch("fast") == study
    assert more.only("fast").branches == ["root", "wide", "fast"] and more.only("root").branches == ["root"]
    assert "# Question" in more.only("root").to_text()
    assert study.without_branch("wide").without_branch("same") == study.only("root")
    assert study.only("root").branch("x", after=5).only("root") == study.only("root")


def test_a_branch_by_time_makes_version_2(study):
    """Leaving at a time needs it; comments stay."""
    root = study.only("root")
    timed = root.branch("halt", at="9:31", edits=[edits.Halt("ABM")])
    assert (timed.to_dict()["version"], timed.to_dict()["branch"][0]["when"]) == (2, 34_260_000_000_000)
    assert "version = 2                 # of this format" in timed.to_text()
    assert root.branch("a", after=5).to_dict()["version"] == 1
    hidden = root.branch("a", after=5, edits=[edits.Inject(1, Enter("H1", "B", 10, "ABM", "50", display="N"))])
    with pytest.raises(StudyError, match="hidden order"):
        hidden.branch("b", parent="a", at="9:31")
    assert hidden.with_("version", 2).branch("b", parent="a", at="9:31").branches == ["root", "a", "b"]


def test_a_study_with_an_inline_array_of_branches():
    """Where a branch can't be put behind the text, the study is written anew."""
    table, _ = studies.make_study(0)
    table["branch"] = [{"name": "a", "parent": "root", "at": 3}]
    rest = studies.toml({**table, "branch": []}).replace("branch = []\n", "")
    inline = 'branch = [{ name = "a", parent = "root", at = 3 }]\n' + rest
    study = Study.from_text(inline)
    assert study == Study(table)
    for changed in (study.branch("b", after=4), study.without_branch("a"), study.with_("branch.a.at", 2)):
        assert tomllib.loads(changed.to_text()) == changed.to_dict()
    assert study.branch("b", after=4).branches == ["root", "a", "b"]


def test_until_cuts_changes_branches_and_hours():
    """A prefix has the branch's way alone, the earlier dated changes, and closes at the time."""
    study = Study.read(ROOT / "examples" / "quiet_halt.toml")
    assert [branch["when"] for branch in study.to_dict()["branch"]] and study.to_dict()["change"]
    name = study.branches[-1]
    when = study.to_dict()["branch"][-1]["when"]
    cut = study.until(when, name).to_dict()
    assert cut["close"] == when and [branch["name"] for branch in cut["branch"]][-1] == name
    assert all(change["time"] <= when for change in cut["change"])
    first = study.to_dict()["change"][0]["time"]
    assert study.until(first).to_dict()["change"] and not study.until(first - 1).to_dict()["change"]
    with pytest.raises(StudyError, match="has not begun"):
        study.until(when - 1, name)
    with pytest.raises(StudyError, match="outside the hours"):
        study.until(study.to_dict()["close"] + 1)


def test_names_of_traders_and_stocks(study):
    """Traders are numbered from 1 over all entries, and called by kind and number."""
    assert study.symbols == ["ABM"]
    assert study.traders[:3] == [(1, "maker", "maker 1"), (2, "maker", "maker 2"), (3, "noise", "noise 3")]
    assert len(study.traders) == 32
    assert repr(study) == "<study of ABM: 32 traders, 2 branches beside the root>"


# ---------------------------------------------------------------- values


def test_values_of_a_dict_become_the_studys_own(study):
    """Times, lengths, prices, money and the key may be given as a reader thinks of them."""
    table = study.to_dict()
    table.update(key=0xA5, open="9:30", close=pandas.Timedelta(hours=9, minutes=32))
    table["stock"][0].update(start="50", mean=Decimal("50.00"), bands=[("0", "0.01")], take="0.003",
                             add=Decimal("-0.002"), every="1s", shock="0.02")
    table["agent"][0].update(first=datetime.time(9, 30), every="2s", spread="500ms", pause="100ns", half="0.02",
                             step=numpy.int64(100), size=numpy.uint16(200))
    table["latency"]["base"] = numpy.array([[1000, 50000], [50000, 80000]])
    table["branch"][0]["edit"] = [edits.Tick("ABM", [("0", "0.05")])]
    made = Study(table)
    assert made == study
    assert type(made.to_dict()["agent"][0]["size"]) is type(made.to_dict()["latency"]["base"][0][0]) is int


@pytest.mark.parametrize("seed", range(3))
def test_times_of_day_and_their_words(seed):
    """Words of a time are read back as that time."""
    chance = random.Random(seed)
    for _ in range(300):
        time = chance.randrange(times.LAST_OF_DAY + 1) // 10 ** chance.randrange(10) * 10 ** chance.randrange(3)
        time %= times.LAST_OF_DAY
        assert times.nanoseconds(times.clock_text(time)) == time == times.nanoseconds(pandas.Timedelta(time, "ns"))
        microseconds = time // 1000
        assert times.nanoseconds(datetime.timedelta(microseconds=microseconds)) == microseconds * 1000
    assert times.nanoseconds("9:30:00.5") == 34_200_500_000_000
    assert times.nanoseconds("23:59:59.999999999") == times.LAST_OF_DAY
    assert times.clock_text(34_200_500_000_000) == "9:30:00.5"


def test_lengths_of_time():
    """A number and a unit, exact to the nanosecond."""
    cases = {"1s": 10**9, "1.5s": 1_500_000_000, "250ms": 250_000_000, "0.001us": 1, "20 µs": 20_000,
             "5min": 300 * 10**9, "1h": 3600 * 10**9, "7ns": 7, "0.5h": 1800 * 10**9}
    assert {text: times.duration(text) for text in cases} == cases
    assert times.duration(pandas.Timedelta("3ms4ns")) == 3_000_004 and times.duration(12) == 12


@pytest.mark.parametrize("seed", range(3))
def test_prices_are_exact(seed):
    """Each whole number of ten-thousandths comes back from its decimal and its words."""
    chance = random.Random(seed)
    for _ in range(300):
        number = chance.randrange(-10**10, 10**10) // 10 ** chance.randrange(5)
        dollars = Decimal(number).scaleb(-4)
        assert prices.price(dollars) == prices.price(format(dollars, "f")) == number
        assert prices.price(prices.price_text(number)) == number
        assert prices.money(Decimal(number).scaleb(-6)) == number
        assert prices.price(dollars * 10 / 10) == number
    assert [prices.price_text(number) for number in (100_500, 100_525, -5)] == ["10.05", "10.0525", "-0.0005"]
    assert prices.price(Decimal("1E+2")) == 1_000_000 and prices.price("10.050000") == 100_500


EDITS = [
    edits.Tick("ABM", [(0, 100), ("1", "0.05")]), edits.Fee("ABM", "0.001", -200), edits.Halt("ABM"),
    edits.Resume("ABM"), edits.Latency(0, 1, "5us", 7), edits.AgentParameter(2, "every", "2s"),
    edits.AgentParameter(1, "half", "0.03"),
    edits.Silence(3), edits.Inject(1, Cancel("T0001000000001"), after="1ms"), edits.SeriesOffset("ABM", "-0.50"),
]


@pytest.mark.parametrize("edit", EDITS, ids=lambda edit: type(edit).__name__)
def test_edits_and_their_tables(edit):
    """An edit's table has the keys of its kind in order, and gives the edit back."""
    table = edit.to_dict()
    assert edits.edit_of(table) == edit and hash(edits.edit_of(table)) == hash(edit)
    assert list(table)[0] == "kind" and set(table) <= set(FIELDS["edit"])
    assert {type(value) for value in table.values()} <= {int, str, list}


def test_units_of_edits():
    """Values are those of the study: nanoseconds, four decimals, millionths."""
    assert edits.AgentParameter(2, "every", "2s").value == 2_000_000_000
    assert edits.AgentParameter(2, "half", "0.03").value == 300
    assert edits.AgentParameter(2, "size", 30).value == 30
    assert edits.SeriesOffset("ABM", "-0.50").offset == -5000
    assert edits.Fee("ABM", "0.001", -200).to_dict() == {"kind": "fee", "stock": "ABM", "add": 1000, "take": -200}
    order = Enter("A", "B", 5, "ABM", "1.00")
    assert edits.Inject(1, order) == edits.Inject(1, order.to_bytes()) == edits.Inject(1, order.hex(), after=0)


@pytest.mark.parametrize("seed", SEEDS)
def test_edits_of_random_studies_come_back(seed):
    """All edits of a study, as objects, make the same study again."""
    table, _ = studies.make_study(seed)
    study = Study(table)
    again = {**table, "branch": [{**branch, "edit": study.edits(branch["name"])} for branch in table["branch"]]}
    assert Study(again) == study


# ---------------------------------------------------------------- bad input

READ = Study.read(TICK_SIZE)


def table_with(place, value):
    """The study's dict with one value put in."""
    table = READ.to_dict()
    holder = table
    for part in place[:-1]:
        holder = holder[part]
    holder[place[-1]] = value
    return table


@pytest.mark.parametrize("place, value, error, words", [
    (("stock", 0, "start"), 50.0, PriceError, "stock 0: start: 50.0 is a floating-point number.*Decimal"),
    (("stock", 0, "bands"), [[0, 0.01]], PriceError, "stock 0: bands: 0.01 is a floating-point"),
    (("stock", 0, "start"), "50.00001", PriceError, "more than 4 decimals"),
    (("stock", 0, "start"), "fifty", PriceError, "is no price"),
    (("stock", 0, "start"), Decimal("NaN"), PriceError, "no price"),
    (("stock", 0, "start"), Decimal("1E+99"), PriceError, "too large"),
    (("stock", 0, "take"), 0.003, PriceError, "floating-point"),
    (("stock", 0, "take"), True, PriceError, "no amount of money"),
    (("stock", 0, "pull"), 10.0, StudyError, "stock 0: pull: 10.0 is no whole number of the type int.*write 10$"),
    (("stock", 0, "pull"), 10.5, StudyError, "pull: 10.5 is of the type float; this key takes a whole number"),
    (("events",), 1e4, StudyError, "events: 10000.0 is no whole number of the type int"),
    (("events",), float("nan"), StudyError, "events: nan is of the type float"),
    (("events",), "20000", StudyError, "events: '20000' is of the type str"),
    (("events",), None, StudyError, "NoneType"),
    (("open",), 34200.0, TimeError, "open: 34200.0 is a floating-point"),
    (("open",), "half past nine", TimeError, "no time of day"),
    (("open",), "24:00", TimeError, "last one is"),
    (("open",), "9:60", TimeError, "no time of day"),
    (("agent", 0, "every"), "2 seconds", TimeError, "agent 0: every: .*no length of time"),
    (("agent", 0, "every"), "0.5ns", TimeError, "whole number of nanoseconds"),
    (("agent", 0, "every"), [1], TimeError, "type list"),
    (("agent", 0, "sise"), 5, StudyError, "agent 0: sise: no such key; the keys here are kind, group"),
    (("colour",), 5, StudyError, "colour: no such key"),
    (("exchange",), 5, StudyError, "exchange: this is a table"),
    (("stock",), {}, StudyError, "stock: this key takes a list of tables"),
    (("stock", 0), 5, StudyError, "stock 0: this is a table"),
    (("stock", 0, "symbol"), 5, StudyError, "takes a text"),
    (("key",), 1 << 256, StudyError, "key: .* is no key"),
    (("latency", "base"), 5, StudyError, "latency: base: 5 is of the type int; this key takes a list"),
    (("latency", "base"), [5], StudyError, "takes a list"),
    (("branch", 0, "edit", 0, "kind"), 5, StudyError, "branch 0: edit 0: kind: .*takes a text"),
])
def test_bad_values_of_a_dict(place, value, error, words):
    """Each says where it stands, what is wrong and what is wanted."""
    with pytest.raises(error, match=words):
        Study.from_dict(table_with(place, value))
    if len(place) > 1 and not isinstance(place[-1], int) and place[-1] in ("start", "pull", "every", "sise"):
        with pytest.raises(error, match=r"^(stock|agent)\.0\."):
            READ.with_(".".join(map(str, place)), value)


@pytest.mark.parametrize("do, words", [
    (lambda: READ.with_("", 5), "no such key: ''"),
    (lambda: READ.with_([], 5), "path is empty"),
    (lambda: READ.with_("agent.5.size", 5), "agent.5.size: no entries are '5'; they have the numbers from 0 to 1, in "
                                            "order maker, noise"),
    (lambda: READ.with_("close", 34260.5), "^close: 34260.5 is a floating-point"),
    (lambda: READ.with_("key", 1.0), "^key: 1.0 is of the type float; a key is 64 hexadecimal digits"),
    (lambda: READ.with_("agent.maker", 5), "is a whole table"),
    (lambda: READ.with_("stock.XYZ.add", 5), "no entries are 'XYZ'"),
    (lambda: READ.with_("change.0.time", 5), "has no 'change'"),
    (lambda: READ.with_("stock.ABM.bands.3.1", 5), "none of the places"),
    (lambda: READ.with_("stock.ABM.bands.0.1.2", 5), "nothing is below"),
    (lambda: READ.with_("close.0", 5), "nothing is below"),
    (lambda: READ.with_("latency.speed", 5), "no such key: 'speed'; the keys there are base, jitter"),
    (lambda: READ.branch("new"), "give one of the two"),
    (lambda: READ.branch("new", after=1, at="9:31"), "give one of the two"),
    (lambda: READ.branch("wide", after=1), "there is a branch 'wide' already"),
    (lambda: READ.branch("root", after=1), "there is a branch 'root' already"),
    (lambda: READ.branch("new", parent="none", after=1), "no branch 'none'; there are root, wide, same"),
    (lambda: READ.branch("new", after=1.0), "after a number|no whole number"),
    (lambda: READ.branch("new", after=1, edits=["halt"]), "branch 'new': edit 0: this is a table"),
    (lambda: READ.branch("new", after=1, edits=edits.Halt("ABM")), "is to be a list of edits"),
    (lambda: READ.without_branch("none"), "no branch 'none'"),
    (lambda: READ.without_branch("root"), "the root is the market itself"),
    (lambda: READ.branch("new", parent="wide", after=6000).without_branch("wide"), "branches of its own.*new"),
    (lambda: READ.only("none"), "no branch 'none'"),
    (lambda: Study(5), "made from a path, text or dict"),
    (lambda: Study.from_dict("text"), "is to be a dict"),
    (lambda: edits.Tick("ABM", [(0, 0.05)]), "Tick: bands: 0.05 is a floating-point"),
    (lambda: edits.Silence("maker"), "Silence: agent: 'maker' is of the type str"),
    (lambda: edits.Inject(1, "XYZ"), "is no order"),
    (lambda: edits.Inject(1, "4fzz"), "is no order"),
    (lambda: edits.Inject(1, 5), "is no order"),
    (lambda: edits.edit_of({"kind": "stop"}), "no kind of edit; there are tick, fee"),
    (lambda: edits.edit_of({"kind": "halt"}), "has the keys stock"),
])
def test_bad_changes(do, words):
    """What cannot be changed so says what there is."""
    with pytest.raises(StudyError, match=words) as caught:
        do()
    assert isinstance(caught.value, InputError)


def test_no_toml_says_where(tmp_path):
    """Line and column, from text and file; bytes that are no text too."""
    with pytest.raises(StudySyntaxError, match="line 2, column 9"):
        Study.from_text("version = 1\nopen = 9:30\n")
    (tmp_path / "study.toml").write_bytes(b"version = 1\nopen = \xff\n")
    with pytest.raises(StudySyntaxError, match=r"study\.toml: line 2, column 8: byte 0xff"):
        Study.read(tmp_path / "study.toml")
    with pytest.raises(biqsolur.NoSuchFile, match="there is no .*none.toml") as caught:
        Study.read(tmp_path / "none.toml")
    assert isinstance(caught.value, FileNotFoundError)
    with pytest.raises(biqsolur.ReadFailed, match="is a folder, and is to be a file") as caught:
        Study.read(tmp_path)
    assert isinstance(caught.value, OSError)


# ---------------------------------------------------------------- the series file


def test_where_a_series_file_is_looked_for(tmp_path, monkeypatch):
    """From the working folder where it is there, as the program does; else beside the study."""
    seed = next(seed for seed in SEEDS if studies.make_study(seed)[1] is not None)
    table, rows = studies.make_study(seed)
    beside, here = tmp_path / "beside", tmp_path / "here"
    for folder in (beside, here):
        folder.mkdir()
    (beside / "study.toml").write_text(studies.toml(table))
    (beside / table["series"]).write_text(rows)
    monkeypatch.chdir(here)
    study = Study.read(beside / "study.toml")
    assert study.folder == beside and study.series_path.read_text() == rows
    assert study.with_("events", 200).folder == beside
    (here / table["series"]).write_text("symbol,time,value\n")
    assert Study.read(beside / "study.toml").folder == here
    assert Study.read(beside / "study.toml", folder=beside).folder == beside
    far = Study.read(beside / "study.toml", folder="../beside").with_series_found().series_path
    assert far.is_absolute() and far.samefile(beside / table["series"])
    found = study.with_series_found()
    assert Path(found.to_dict()["series"]) == beside / table["series"] and found.series_path.read_text() == rows
    assert Study.read(TICK_SIZE).folder is None and Study.read(TICK_SIZE).series_path is None


def test_type_checkers_see_the_names_of_the_package():
    """Each name is imported for them from the module in which it is looked for when the package runs."""
    import ast
    tree = ast.parse(Path(biqsolur.__file__).read_text())
    block = next(node for node in tree.body if isinstance(node, ast.If) and isinstance(node.body[0], ast.ImportFrom))
    seen = {name.asname: line.module for line in block.body for name in line.names}
    assert seen == {**{name: f"biqsolur.{home}" for name, home in biqsolur.HOMES.items()},
                    **dict.fromkeys(biqsolur.MODULES, "biqsolur")}


def test_names_of_the_package():
    """What a user reaches by the package itself."""
    for name in ("Study", "Tick", "Fee", "Halt", "Resume", "Latency", "AgentParameter", "Silence", "Inject",
                 "SeriesOffset", "play", "Game", "Observation", "StudyError", "PolicyError"):
        assert getattr(biqsolur, name).__name__ == name


@pytest.mark.parametrize("text", [
    "version = 1\n", "branch = 5\n", "agent = [1]\n", "[[branch]]\nat = 3\n", "[[agent]]\ncount = 'x'\n",
    "[[branch]]\nname = 'a'\nparent = 'a'\nat = 1\n", "open = 'x'\nclose = 1.5\n", "[exchange]\n"])
def test_a_study_that_is_none_is_never_an_error_without_a_name(text, tmp_path):
    """Whatever a text of TOML says, each question is answered or ends with StudyError, and the program refuses the
    study."""
    study = Study.from_text(text)
    for ask in (
            lambda: study.branches, lambda: study.symbols, lambda: study.traders, lambda: repr(study),
            lambda: hash(study), lambda: study.only("a"), lambda: study.until(5), lambda: study.until("9:30", "a"),
            lambda: study.edits("a"),
            lambda: study.without_branch("a"), lambda: study.branch("b", after=1).branch("c", at="9:31"),
            lambda: study.with_agent("watcher"), lambda: study.with_("agent.0.every", 5),
            lambda: study.with_("events", 5), lambda: study.with_series_found()):
        try:
            ask()
        except StudyError as error:
            assert str(error)
    assert study.to_text() == text
    for ask in (study.check, lambda: study.schedule(1, [("9:31", Cancel("A"))]),
                lambda: biqsolur.play(study, 1, lambda seen: None)):
        with pytest.raises(biqsolur.StudyRefused) as caught:
            ask()
        assert (caught.value.rule, caught.value.sentence != "") == (1, True)


def test_check_says_rule_place_and_sentence(study):
    """As the program refuses it, with the sentence of `why`; an accepted study says nothing."""
    assert study.check() is None
    with pytest.raises(biqsolur.StudyRefused, match="`half` is -1, and is to be 0 to 1,000,000,000") as caught:
        study.with_("agent.maker.half", -1).check()
    assert (caught.value.rule, caught.value.place) == (29, 0) and "agent entry 0" in caught.value.sentence


def test_a_trader_more(study):
    """It stands behind the others, with what it usually has; comments stay, and so do the numbers of the others."""
    for base in (study, study.only("root"), Study(study.to_dict())):
        more = base.with_agent("watcher", every="1s")
        assert more.to_dict()["agent"][-1] == {
            "kind": "watcher", "group": 0, "stock": "ABM", "first": 34_200_000_000_000, "every": 10**9}
        assert more.traders[:-1] == base.traders and more.traders[-1] == (33, "watcher", "watcher 33")
        assert more.to_dict() == {**base.to_dict(), "agent": more.to_dict()["agent"]}
        assert tomllib.loads(more.to_text()) == more.to_dict()
        assert ("# Question" in more.to_text()) == ("# Question" in base.to_text())
        more.check()
    with pytest.raises(StudyError, match="agent 2: evry: no such key"):
        study.with_agent("watcher", evry="1s")
