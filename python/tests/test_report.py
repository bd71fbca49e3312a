"""The report: its numbers against the program's table, and the page opened in a browser where there is one."""

import csv
import functools
import html.parser
import io
import json
import os
import re
import shutil
import subprocess
import sys
from pathlib import Path

import numpy
import pytest

pytest.importorskip("plotly", reason="no plotly: Debian's python3-plotly")

PACKAGE = Path(__file__).resolve().parent.parent
ROOT = PACKAGE.parent
sys.path.insert(0, str(PACKAGE))

import biqsolur  # noqa: E402
from biqsolur import measures, report, report_data, report_page, report_series, wording  # noqa: E402
from biqsolur.__main__ import main  # noqa: E402
from biqsolur.program import find_program  # noqa: E402

BROWSER = next(filter(None, map(shutil.which, ("chromium", "chromium-browser", "google-chrome"))), None)
NO_BROWSER = pytest.mark.skipif(BROWSER is None, reason="no browser: Debian's chromium")


def needs_browser(test):
    """Marks a test of a page in a real browser."""
    return pytest.mark.browser(NO_BROWSER(test))



PLOTS = ["mid", "spread", "depth", "volume", "fees", "cash", "position"]


def program():
    """The program."""
    return str(find_program())


@pytest.fixture(scope="module")
def made(tmp_path_factory):
    """The bundle of a halt and its end, its page and its table."""
    folder = tmp_path_factory.mktemp("report")
    study = ROOT / "examples" / "halt.toml"
    with open(folder / "halt.bundle", "wb") as file:
        subprocess.run([program(), "run", study], stdout=file, check=True)
    done = subprocess.run([program(), "table", study], stdout=subprocess.PIPE, check=True, text=True)
    report.write_report(folder / "halt.bundle", folder / "halt.html")
    return folder, list(csv.DictReader(io.StringIO(done.stdout)))


class Tables(html.parser.HTMLParser):
    """The tables of a page by caption, as lists of rows of texts; and all attributes that may refer outside."""

    def __init__(self):
        super().__init__()
        self.tables, self.references, self.words = {}, [], None

    def handle_starttag(self, tag, attributes):
        self.references += [value for name, value in attributes if name in ("src", "href", "data", "action", "srcset")]
        if tag == "tr":
            self.row = []
        if tag in ("td", "th", "caption"):
            self.words = ""

    def handle_data(self, text):
        if self.words is not None:
            self.words += text

    def handle_endtag(self, tag):
        if tag == "caption":
            self.rows = self.tables.setdefault(self.words, [])
        if tag in ("td", "th"):
            self.row.append(self.words)
        if tag == "tr":
            self.rows.append(self.row)
        if tag in ("td", "th", "caption"):
            self.words = None


def tables_of(page):
    reader = Tables()
    reader.feed(re.sub(r"(?s)<script.*?</script>", "", page))
    return reader


def test_the_numbers_are_those_of_the_table(made):
    folder, expected = made
    rows = tables_of((folder / "halt.html").read_text()).tables["The branches"][1:]
    assert len(rows) == len(expected) == 3
    for row, line in zip(rows, expected):
        number = [text.replace(",", "") for text in row]
        assert (row[0], row[1].strip("–")) == (line["branch"], line["parent"])
        assert int(number[4]) == int(line["events"]) and int(number[9]) == int(line["volume"])
        assert round(float(number[10]) * 1_000_000) == int(line["fees"])
        assert row[7] in ("–", "none") if line["first_difference"] == "0" else number[7] == line["first_difference"]


def test_the_accounts_are_the_closings(made):
    folder, _ = made
    bundle = biqsolur.read(folder / "halt.bundle")
    rows = tables_of((folder / "halt.html").read_text()).tables["Each agent at the end: settled cash and positions"][2:]
    assert len(rows) == bundle.agents - 1
    for number, branch in enumerate(bundle.branches.values()):
        agents = branch.closing.agents[1:]
        for row, agent in zip(rows, agents.itertuples()):
            cash, shares = (text.replace(",", "").replace("−", "-") for text in row[1 + 2 * number:3 + 2 * number])
            whole, part = cash.split(".")
            amount = int(whole.strip("-")) * 10**6 + int(part.ljust(6, "0"))
            assert (int(row[0]), -amount if cash.startswith("-") else amount) == (agent.agent, agent.cash)
            assert int(shares) == agent.position_ABM


def test_the_pictures_end_as_the_frames_do(made):
    """The last point of each picture is the last book, all trades and all fees."""
    folder, _ = made
    bundle = biqsolur.read(folder / "halt.bundle")
    page = report_data.page_data(bundle, report_data.bundle_data(bundle))
    assert len(page["branches"]) == len(bundle.branches)
    for data, branch in zip(page["branches"], bundle.branches.values()):
        (series,) = data["stocks"]
        last = branch.book(report_series.LEVELS).iloc[-1]
        for side, columns in zip(("bid", "ask"), series["depth"][1:]):
            shares = [last[f"{side}_shares_{level}"] for level in range(1, report_series.LEVELS + 1)]
            assert [column[-1] for column in columns] == shares
        both = last.bid_1 > 0 and last.ask_1 > 0
        assert series["mid"][1][-1] == (last.bid_1 + last.ask_1 if both else None)
        assert series["spread"][1][-1] == (last.ask_1 - last.bid_1 if both else None)
        assert series["volume"][1][-1] == branch.trades.shares.sum() > 0
        assert series["fees"][1][-1] == branch.trades.fees.sum() != 0


def test_nothing_outside_is_referred_to(made):
    page = (made[0] / "halt.html").read_text()
    assert all(value.startswith("#") for value in tables_of(page).references)
    outside = re.sub(r'(?s)<script type="text/plain" id="plotly">.*?</script>', "", page)
    assert re.findall(r"https?://[^\s\"'<]+", outside.replace("http://www.w3.org/2000/svg", "")) == []
    assert "default-src &#x27;none&#x27;" in page
    assert len(page) < 4_000_000


def test_the_same_bundle_gives_the_same_page(made, tmp_path):
    report.write_report(made[0] / "halt.bundle", tmp_path / "again.html")
    assert (tmp_path / "again.html").read_bytes() == (made[0] / "halt.html").read_bytes()


def test_a_file_that_is_there_is_kept(made, tmp_path):
    (tmp_path / "kept.html").write_text("mine")
    with pytest.raises(biqsolur.OutputExistsError):
        report.write_report(made[0] / "halt.bundle", tmp_path / "kept.html")
    assert (tmp_path / "kept.html").read_text() == "mine"


def test_a_cut_bundle_leaves_no_page(made, tmp_path):
    (tmp_path / "cut.bundle").write_bytes((made[0] / "halt.bundle").read_bytes()[:-5])
    with pytest.raises(biqsolur.BundleError):
        report.write_report(tmp_path / "cut.bundle", tmp_path / "cut.html")
    assert not (tmp_path / "cut.html").exists()


def test_the_command(made, tmp_path):
    done = subprocess.run([sys.executable, "-m", "biqsolur", "report", made[0] / "halt.bundle", "-o",
                           tmp_path / "page.html"], env={**os.environ, "PYTHONPATH": str(PACKAGE)})
    assert done.returncode == 0
    assert (tmp_path / "page.html").read_bytes() == (made[0] / "halt.html").read_bytes()


def test_a_branch_is_cut_where_it_left(tmp_path):
    """One that leaves at a time, one of it at an event number below that, and an order that sets the ended market
    going."""
    order = b"OT0001000000001S" + (100).to_bytes(4, "big") + b"ABM     " + (100_000).to_bytes(4, "big") + \
        (99_999).to_bytes(4, "big") + b"ABIDYPN" + bytes(4) + b"NN"
    text = (ROOT / "examples" / "two_watchers.toml").read_text()
    text = text.replace("version = 1", "version = 2").replace("close = 1005", "close = 2000")
    for name, parent, stop, edit in (("x", "root", "when = 1004", ""), ("w", "x", "at = 1", ""), (
            "i", "root", "when = 2000", f'{{ kind = "inject", agent = 1, after = 100, message = "{order.hex()}" }}')):
        text += f'\n[[branch]]\nname = "{name}"\nparent = "{parent}"\n{stop}\nedit = [{edit}]\n'
    (tmp_path / "study.toml").write_text(text)
    with open(tmp_path / "study.bundle", "wb") as file:
        subprocess.run([program(), "run", tmp_path / "study.toml"], stdout=file, check=True)
    report.write_report(tmp_path / "study.bundle", tmp_path / "study.html")
    branches = report_data.bundle_data(biqsolur.read(tmp_path / "study.bundle"))
    assert [(data.shared, data.fork, data.end) for data in branches] == [
        (0, 1000, 1010), (2, 1000, 1010), (2, 1000, 1010), (6, 1010, 1115)]
    rows = tables_of((tmp_path / "study.html").read_text()).tables["The branches"][1:]
    assert [row[2] for row in rows] == ["–", "2", "2", "6"]


def test_hidden_orders_are_in_no_picture_of_the_book(tmp_path):
    """While one rests that is better than each shown order of its side; what it trades is in the other pictures."""
    study = ROOT / "examples" / "hidden.toml"
    for command, more in (("run", []), ("rewind", ["hidden:3000"])):
        with open(tmp_path / command, "wb") as file:
            subprocess.run([program(), command, study, *more], stdout=file, check=True)
    bundle = biqsolur.read(tmp_path / "run")
    orders = biqsolur.read_rewind(tmp_path / "rewind").state("hidden", 3000).closing.orders
    (hidden,) = orders[orders.hidden].itertuples()
    shown = orders[(orders.side == "S") & ~orders.hidden]
    assert (hidden.side, hidden.agent, bundle.tokens.text(hidden.token)) == ("S", 5, "S")
    assert hidden.price < shown.price.min()
    branch = bundle.branches["hidden"]
    (series,) = report_data.branch_data(bundle, branch).stocks
    state = series.at(branch.events.time[branch.events.number == 3000])[0]
    levels = shown.groupby("price").open.sum()[:report_series.LEVELS].tolist()
    assert series.ask[state] == shown.price.min()
    assert series.ask_shares[state].tolist() == levels + [0] * (report_series.LEVELS - len(levels))
    trades = branch.trades[branch.trades.reference == 0]
    assert set(trades.resting) == {5} and set(trades.side) == {"B"} and len(trades) > 0
    assert series.volume[-1] == branch.closing.stocks.matched[0] == branch.trades.shares.sum()
    assert series.trade_fees[-1] == branch.closing.stocks.fees[0]


# ---- thinning

def drawn_at(times, values, instants):
    """The values of a step at some instants."""
    return values[numpy.searchsorted(times, instants, side="right") - 1]


@pytest.mark.parametrize("seed", range(20))
def test_thinning_keeps_the_extremes_of_each_cell(seed):
    random = numpy.random.default_rng(seed)
    count, cells, span = 5000, 50, (1000, 101_000)
    times = numpy.sort(random.choice(numpy.arange(*span), count, replace=False))
    values = random.integers(0, 1000, count).astype(float)
    values[random.random(count) < 0.01] = numpy.nan
    rows = report_series.thin(times, values, [values], cells, span)
    assert len(rows) <= 10 * (cells + 1) and (numpy.diff(rows) > 0).all() and rows[0] == 0
    width = -(-(span[1] - span[0] + 1) // cells)
    for cell in range(cells):
        inside = (times - span[0]) // width == cell
        kept = numpy.isin(numpy.arange(count), rows) & inside
        assert numpy.nanmin(values[inside]) == numpy.nanmin(values[kept])
        assert numpy.nanmax(values[inside]) == numpy.nanmax(values[kept])
        assert numpy.isnan(values[inside]).any() == numpy.isnan(values[kept]).any()


def test_a_short_series_is_kept_whole():
    times = numpy.arange(10) * 7
    values = numpy.array([1, 1, 2, numpy.nan, numpy.nan, 2, 2, 1, 5, 5.0])
    rows = report_series.thin(times, values, [values], 40, (0, 63))
    assert rows.tolist() == [0, 2, 3, 5, 7, 8]
    instants = numpy.arange(64)
    assert numpy.array_equal(drawn_at(times, values, instants), drawn_at(times[rows], values[rows], instants), True)


def test_the_mean_spread_by_hand():
    """Over 100 ns: 20 ns of 2 cents, 30 ns without a bid, 50 ns of 4 cents; from 60 ns on 4 cents alone."""
    none = numpy.zeros(0, int)
    series = report_series.StockSeries(
        times=numpy.array([0, 20, 50]), bid=numpy.array([10000, 0, 10000]), ask=numpy.array([10200, 10200, 10400]),
        bid_shares=none, ask_shares=none, trade_times=numpy.array([10, 70]), volume=numpy.array([5, 12]),
        trade_fees=numpy.array([50, 120]), begin=0, end=100)
    assert series.mean_spread(0) == (20 * 200 + 50 * 400) / 70
    assert series.mean_spread(60) == 400
    assert series.traded(0) == (12, 120) and series.traded(10) == (7, 70) and series.traded(70) == (0, 0)


@pytest.mark.parametrize("amount, text", [(0, "0.000"), (1, "0.000001"), (-1500000, "−1.500"),
                                          (1234567890123, "1,234,567.890123")])
def test_money_is_exact(amount, text):
    assert report_data.money_text(amount) == text


def test_names_cannot_leave_their_place():
    """Data that looks like the end of a script stays data."""
    script = report_page.data_script({"name": "</script><script>alert(1)</script>"})
    assert "<" not in script and json.loads(script)["name"].startswith("</script>")


# ---- in a browser

@functools.cache
def browse(page, width, *words):
    """The page as the browser has it after its scripts ran, without a network; and what it wrote to its console."""
    folder = Path(page).parent
    done = subprocess.run(
        [BROWSER, "--headless=new", "--no-sandbox", "--disable-gpu", "--hide-scrollbars", "--no-first-run",
         f"--user-data-dir={folder / 'browser'}", f"--window-size={width},3000", "--virtual-time-budget=30000",
         "--host-resolver-rules=MAP * ~NOTFOUND", "--enable-logging=stderr", "--v=0", *words, Path(page).as_uri()],
        stdout=subprocess.PIPE, stderr=subprocess.PIPE, text=True, timeout=600)
    console = [line for line in done.stderr.splitlines() if "CONSOLE" in line]
    return done.stdout, console


def with_script(made, name, script, source="halt.html"):
    """A copy of the page that does something once it is ready, and writes what `script` gives into #trouble."""
    page = (made[0] / source).read_text()
    waiting = ("<script>const wait = setInterval(() => { if (!document.documentElement.dataset.ready) return; "
               "clearInterval(wait); byId('trouble').textContent = JSON.stringify((() => {" + script + "})()); }, 50);"
               "</script></body>")
    path = made[0] / name
    path.write_text(page.replace("</body>", waiting))
    return str(path)


def answer(made, name, script, source="halt.html"):
    page, console = browse(with_script(made, name, script, source), 1400, "--dump-dom")
    assert console == []
    return json.loads(html.unescape(re.search(r'<p id="trouble"[^>]*>(.*?)</p>', page).group(1)))


@needs_browser
@pytest.mark.parametrize("width", [1400, 700])
def test_the_page_draws_its_pictures(made, width):
    page, console = browse(str(made[0] / "halt.html"), width, "--dump-dom")
    assert console == []
    assert 'data-ready="yes"' in page
    assert re.search(r'<p id="trouble"[^>]*></p>', page)
    for name in PLOTS:
        place = re.search(rf'<div [^>]*id="plot-{name}"[^>]*>', page).group()
        assert "js-plotly-plot" in place
    for title in ("Mid price, dollars", "Spread, cents", "Shares traded", "Fees, dollars", "Cash, dollars",
                  "ABM, shares", "Time of day", "09:31:00"):
        assert title in page
    assert ("resume: event 4302" if width == 700 else "resume: first difference, event 4302, 09:30:58.500") in page


@needs_browser
def test_the_page_can_be_photographed(made):
    picture = made[0] / "halt.png"
    browse(str(made[0] / "halt.html"), 1400, f"--screenshot={picture}")
    assert picture.read_bytes().startswith(b"\x89PNG") and picture.stat().st_size > 50_000


@needs_browser
def test_branches_are_switched_and_laid_over_each_other(made):
    script = """
        const names = () => byId("plot-mid").data.filter((trace) => trace.mode === "lines").map((trace) => trace.name);
        const isShown = (number) =>
            getComputedStyle(document.querySelector(`td.of-${number}, tr.of-${number}`)).display !== "none";
        const seen = [names(), [0, 1, 2].map(isShown)];
        byId("branch-1").click();
        seen.push(names(), [0, 1, 2].map(isShown));
        byId("second").value = "1";
        byId("first").value = "2";
        byId("pair").click();
        seen.push(names(), byId("plot-mid").data[1].line.dash);
        seen.push(document.querySelector("#figure-depth h3").textContent);
        byId("pair").click();
        byId("none").click();
        seen.push(names());
        byId("all").click();
        seen.push(names());
        return seen;"""
    assert answer(made, "switched.html", script) == [
        ["root", "halt", "resume"], [True, True, True], ["root", "resume"], [True, False, True],
        ["resume", "halt"], "5px,3px", "Depth by level: resume (filled) and halt (lines)", [],
        ["root", "halt", "resume"]]


@needs_browser
def test_a_branch_without_its_parent_is_drawn_from_the_opening(made):
    script = """
        const first = () => byId("plot-volume").data.filter((trace) => trace.name === "resume")[0].x[0];
        const fork = first();
        byId("branch-1").click();
        return [fork > toAxis(data.begin) + 50000, first() < toAxis(data.begin) + 5000];"""
    assert answer(made, "whole.html", script) == [True, True]


@needs_browser
def test_the_times_are_chosen_by_keyboard(made):
    script = """
        byId("from").value = "09:30:30";
        byId("to").value = "09:31";
        byId("to").dispatchEvent(new Event("change"));
        const ranges = ["mid", "fees"].map((name) =>
            byId(`plot-${name}`).layout.xaxis.range.map((value) => fromAxis(value) / 1e9));
        byId("from").value = "soon";
        byId("from").dispatchEvent(new Event("change"));
        const said = byId("trouble").textContent.length > 0;
        const reached = [...document.querySelectorAll("#controls input, #controls select, #controls button")]
            .every((control) => control.tabIndex === 0);
        return [ranges, said, reached];"""
    assert answer(made, "times.html", script) == [[[34230, 34260], [34230, 34260]], True, True]


@needs_browser
def test_two_stocks_and_an_odd_symbol(made):
    study = (ROOT / "examples" / "halt.toml").read_text()
    symbol = "X<b>&"
    head, *rest = study.split("[[stock]]")
    stock = "[[stock]]" + rest[0].split("[[agent]]")[0]
    text = study.replace("[[agent]]", stock.replace('"ABM"', f'"{symbol}"') + "[[agent]]", 1)
    (made[0] / "two.toml").write_text(text)
    with open(made[0] / "two.bundle", "wb") as file:
        subprocess.run([program(), "run", made[0] / "two.toml"], stdout=file, check=True)
    report.write_report(made[0] / "two.bundle", made[0] / "two.html")
    script = """
        const state = () => [[...document.querySelectorAll("section.stock")].map((section) => section.hidden),
            byId("plot-mid").data[0].y.some((value) => value !== null), byId("plot-position").layout.yaxis.title.text];
        const bold = document.querySelectorAll("h3 b, td b, th b").length;
        const seen = [byId("stock").options[1].textContent, bold, ...state()];
        byId("stock").value = "1";
        byId("stock").dispatchEvent(new Event("change"));
        return [...seen, ...state()];"""
    assert answer(made, "second.html", script, "two.html") == [
        symbol, 0, [False, True], True, "ABM, shares", [True, False], False, "X&lt;b&gt;&amp;, shares"]


@needs_browser
def test_the_page_prints(made):
    paper = made[0] / "halt.pdf"
    browse(str(made[0] / "halt.html"), 1400, f"--print-to-pdf={paper}")
    assert paper.read_bytes().startswith(b"%PDF")


# ---- with a study

@pytest.fixture(scope="module")
def known(tmp_path_factory):
    """The page of a small market with its study: a branch whose edits move the value and a trader, one of it that
    changes nothing, and a control; and its bundle."""
    folder = tmp_path_factory.mktemp("known")
    study = biqsolur.Study(ROOT / "examples" / "tick_size.toml").with_("events", 4000).with_("branch.wide.at", 1500)
    study = study.with_("branch.same.at", 1500).branch("moved", parent="wide", after=2500, edits=[
        biqsolur.SeriesOffset("ABM", 700), biqsolur.Silence(2)])
    study.write(folder / "study.toml")
    bundle = biqsolur.run(study)
    (folder / "study.bundle").write_bytes(Path(bundle.path).read_bytes())
    report.write_report(folder / "study.bundle", folder / "study.html", folder / "study.toml")
    return folder, bundle


def test_edits_are_in_words_and_agents_have_names(known):
    tables = tables_of((known[0] / "study.html").read_text()).tables
    assert [row[:2] for row in tables["Edits"][1:]] == [
        ["wide", "tick of ABM: 5 cents from 0 dollars"], ["moved", wording.edit_words(known[1].study, "moved", 0)],
        ["moved", wording.edit_words(known[1].study, "moved", 1)]]
    assert "maker 2" in tables["Edits"][3][1]
    names = [row[0] for row in tables["Each agent at the end: settled cash and positions"][2:]]
    assert names == known[1].agent_names[1:] and names[:3] == ["maker 1", "maker 2", "noise 3"]


def dollars(text):
    """Money in millionths of a dollar."""
    return round(float(text.replace(",", "").replace("−", "-")) * 1e6)


def test_profit_by_kind_is_that_of_the_measures(known):
    """And with the venue's fees it adds up to nothing."""
    rows = tables_of((known[0] / "study.html").read_text()).tables["Profit by kind of trader"][2:]
    assert [row[:2] for row in rows] == [["maker", "2"], ["noise", "30"]]
    for number, branch in enumerate(known[1].branches.values()):
        for place, mark in ((2, "mid"), (3, "value")):
            profits = measures.NAMES["profit"].compute(branch, mark=mark)
            found = {row[0]: dollars(row[2 + 4 * number + place]) for row in rows}
            assert found == {kind: profits[f"profit_{kind}"] for kind in ("maker", "noise")}
            assert profits["profit_maker"] != 0
            assert sum(found.values()) + sum(dollars(row[3 + 4 * number]) for row in rows) == 0
        assert sum(dollars(row[3 + 4 * number]) for row in rows) == branch.trades.fees.sum()


def test_spreads_are_those_of_the_measures(known):
    """Behind the fork, of the branch and of its parent."""
    rows = tables_of((known[0] / "study.html").read_text()).tables["Effective and realised spreads"][2:]
    branches = known[1].branches
    for row, branch in zip(rows, branches.values(), strict=True):
        for place, name in ((2, "effective_spread"), (4, "realised_spread")):
            for more, holder in ((0, branch), (1, branches[branch.parent] if branch.parent else None)):
                if holder is None:
                    assert row[place + more] == "–"
                else:
                    value = measures.NAMES[name].compute(holder, after=branch.fork)[name]
                    assert row[place + more] == (f"{value / 100:.3f}" if value == value else "–")
    assert len({row[2] for row in rows}) > 1


def test_values_and_marks_are_those_of_the_frames(known):
    """A value stands where it is another one than the parent's; marks are the trades behind the fork."""
    bundle, study = known[1], known[1].study
    page = report_data.page_data(bundle, report_data.bundle_data(bundle, study))
    for data, branch in zip(page["branches"], bundle.branches.values(), strict=True):
        (series,) = data["stocks"]
        frame, trades = branch.value("ABM", study), branch.trades[branch.trades.event > branch.fork]
        times, prices, shares, sides = series["trades"]
        assert (numpy.cumsum(times) == trades.time).all() and prices == trades.price.tolist() and len(trades) > 20
        assert shares == trades.shares.tolist() and sides == "".join(trades.side)
        if branch.name in ("wide", "same"):
            assert series["value"] == []
            continue
        begin = data["fork"] if branch.parent else frame.time.iat[0]
        times = numpy.cumsum(series["value"][0])
        places = numpy.searchsorted(frame.time, times, side="right") - 1
        assert series["value"][1] == frame.value.to_numpy()[places].tolist() and times[0] == begin and len(times) > 5
    assert report_data.trade_marks(bundle.branches["root"].trades, 5) is None


def test_a_bundle_alone_says_so(known, tmp_path):
    """Its agents are numbers and its edits kinds; with a record beside it the page is as with the study, and says
    whence."""
    for name in ("alone.bundle", "recorded.bundle"):
        (tmp_path / name).write_bytes((known[0] / "study.bundle").read_bytes())
    known[1].write(tmp_path / "written.bundle")
    for name in ("alone", "written"):
        report.write_report(tmp_path / f"{name}.bundle", tmp_path / f"{name}.html")
    alone, written = ((tmp_path / f"{name}.html").read_text() for name in ("alone", "written"))
    assert "No record of its run stands beside the bundle, so agents are numbers" in alone
    assert tables_of(alone).tables["Edits"][1][1] == "tick"
    assert "Profit by kind of trader" not in tables_of(alone).tables
    assert "No record" not in written and f"version: {known[1].provenance.version}" in written
    assert tables_of(written).tables == tables_of((known[0] / "study.html").read_text()).tables


def test_another_study_is_refused(known, tmp_path, capsys):
    study, bundle = str(ROOT / "examples" / "halt_at.toml"), str(known[0] / "study.bundle")
    assert main(["report", bundle, "--study", study, "-o", str(tmp_path / "none.html")]) == 1
    assert "is not the study of" in capsys.readouterr().err and not (tmp_path / "none.html").exists()


@needs_browser
def test_controls_values_and_marks_are_drawn(known):
    """A control is dotted and hides no line; trades are marked once few are in sight; the value stands once and where
    it moves."""
    script = """
        const names = () => byId("plot-mid").data.map((trace) => trace.name).filter((name) => name);
        const dash = (name) => byId("plot-spread").data.find((trace) => trace.name === name).line.dash;
        const whole = names();
        byId("from").value = "09:30:30";
        byId("to").value = "09:30:31";
        byId("to").dispatchEvent(new Event("change"));
        const near = names().filter((name) => name.startsWith("trades"));
        const marked = byId("plot-mid").data.find((trace) => trace.name === "trades of root").x.length;
        byId("branch-1").click();
        const some = byId("some").textContent;
        return [whole, near.includes("trades of root"), marked, dash("same"), dash("root"), some];"""
    trades = known[1].branches["root"].trades
    inside = ((trades.time >= 34_230 * 10**9) & (trades.time <= 34_231 * 10**9)).sum()
    assert answer(known, "marked.html", script, "study.html") == [
        ["root", "wide", "same", "moved", "value", "value in moved"], True, inside, "1px,7px", "solid",
        "3 of 4 branches are shown, in the pictures and in the tables; the boxes above show the others."]
    assert 0 < inside
