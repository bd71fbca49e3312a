"""The explorer's server: what it answers against the program's own bytes, what it refuses, and what it leaves
behind."""

from __future__ import annotations

import json
import os
import random
import signal
import socket
import subprocess
import sys
from collections.abc import Iterator
from pathlib import Path
from typing import Any

import numpy
import pytest
import studies
from explored import LONGEST, TOKEN, Served, slow_program, wait_until

import biqsolur
from biqsolur.explore.engine import Engine, Stopped
from biqsolur.explore.model import KEPT_RUNS
from biqsolur.explore.states import States, cut_study, path_of
from biqsolur.explore.timeline import kept_rows, step_rows, volume
from biqsolur.explore.words import clock, dollars, money, sentence
from biqsolur.study import Study

SEEDS = range(20)
EVENTS = 20             # of each study
ROOT = Path(__file__).resolve().parents[2]
EXAMPLE = ROOT / "examples" / "tick_size.toml"


class Explored:
    """A random study that is served, and what the program says of it."""

    def __init__(self, served: Served, folder: Path, program: str, seed: int) -> None:
        self.served, self.folder, self.program = served, folder, program
        self.random = random.Random(f"explored {seed}")
        self.study = served.explorer.history[0][1]
        self.table = self.study.to_dict()
        self.bundle = served.explorer.run.bundle

    def output(self, *words: str) -> bytes:
        """What the program writes."""
        return subprocess.run([self.program, *words], cwd=self.folder, check=True, capture_output=True).stdout

    def targets(self) -> list[tuple[str, int]]:
        """Some branches and events: of each branch also its opening, its fork and its last event."""
        out = []
        for name, branch in self.bundle.branches.items():
            count = len(branch.events)
            out += [(name, 0), (name, min(branch.fork, count)), (name, count)]
        names = list(self.bundle.branches)
        while len(out) < EVENTS:
            name = self.random.choice(names)
            out.append((name, self.random.randint(0, len(self.bundle.branches[name].events))))
        return list(dict.fromkeys(out))[:EVENTS]

    def states(self, targets: list[tuple[str, int]]) -> list[biqsolur.State]:
        """The states of the whole study, as the package reads them from the program's bytes."""
        path = self.folder / "some.states"
        path.write_bytes(self.output("rewind", "--", "study.toml", *(f"{name}:{event}" for name, event in targets)))
        return biqsolur.read_rewind(path).states


@pytest.fixture(scope="module", params=SEEDS)
def explored(request: pytest.FixtureRequest, program: str,
             tmp_path_factory: pytest.TempPathFactory) -> Iterator[Explored]:
    folder = tmp_path_factory.mktemp(f"explored{request.param}")
    study, series = studies.make_study(request.param)
    (folder / "study.toml").write_text(studies.toml(study))
    if series is not None:
        (folder / study["series"]).write_text(series)
    with Served(lambda: Study.read(folder / "study.toml", folder), program) as served:
        assert served.explorer.failure is None
        yield Explored(served, folder, program, request.param)


@pytest.fixture(scope="module")
def example(program: str) -> Iterator[Served]:
    """The example of the tick size, whose study changes as tests fork it."""
    with Served(EXAMPLE, program) as served:
        yield served


# ---------------------------------------------------------------- what it shows

def test_a_state_is_what_the_package_reads_from_the_programs_bytes(explored: Explored) -> None:
    """Counters, books, accounts and waiting messages at 20 events of 20 studies."""
    targets = explored.targets()
    for (name, event), state in zip(targets, explored.states(targets)):
        shown = explored.served.ask("state", branch=name, event=event)
        assert (shown["branch"], shown["event"]) == (name, event)
        assert shown["counts"] == state.closing.counts and shown["time"] == state.closing.counts["time"]
        check_books(shown["stocks"], state)
        check_agents(shown["agents"], state)
        check_waiting(shown, state)


def check_books(stocks: list[dict], state: biqsolur.State) -> None:
    """Each ladder against the orders that rest, its queues by a plain loop."""
    assert len(stocks) == len(state.closing.stocks)
    for row, shown in zip(state.closing.stocks.to_dict("records"), stocks):
        assert [shown[name] for name in ("state", "last", "matched", "offset", "live")] == [
            row[name] for name in ("state", "last", "matched", "offset", "live")]
        assert shown["fees"] == money(row["fees"])
        orders = state.closing.orders[state.closing.orders.stock == row["stock"]].to_dict("records")
        for side, levels, count in (("B", shown["bids"], shown["bid_levels"]),
                                    ("S", shown["asks"], shown["ask_levels"])):
            prices = sorted({order["price"] for order in orders if order["side"] == side}, reverse=side == "B")
            assert count == len(prices) and [level["price"] for level in levels] == prices[:40]
            for level in levels:
                check_queue(level, [order for order in orders if (order["side"], order["price"])
                                    == (side, level["price"])])


def check_queue(level: dict, orders: list[dict]) -> None:
    """One level: shown orders before hidden ones, each group by arrival."""
    queue = [order for order in orders if not order["hidden"]] + [order for order in orders if order["hidden"]]
    assert level["count"] == len(queue)
    assert level["shown"] == sum(order["open"] for order in queue if not order["hidden"])
    assert level["hidden"] == sum(order["open"] for order in queue if order["hidden"])
    for place, (shown, order) in enumerate(zip(level["orders"], queue)):
        assert [shown[name] for name in ("reference", "agent", "open", "intended", "hidden")] == [
            order[name] for name in ("reference", "agent", "open", "intended", "hidden")]
        assert (shown["before"], shown["ahead"]) == (place, sum(one["open"] for one in queue[:place]))


def check_agents(agents: list[dict], state: biqsolur.State) -> None:
    assert len(agents) == len(state.closing.agents)
    for shown, row in zip(agents, state.closing.agents.to_dict("records")):
        names = ("agent", "silenced", "own_time", "tokens", "draws", "own_position", "orders", "quotes")
        assert [shown[name] for name in names] == [row[name] for name in names]
        assert (shown["cash"], shown["own_cash"]) == (money(row["cash"]), money(row["own_cash"]))
        assert shown["positions"] == [row[name] for name in row if name.startswith("position_")]


def check_waiting(shown: dict, state: biqsolur.State) -> None:
    names = ("time", "message", "sender", "receiver", "kind")
    rows = [[row[name] for name in names] for row in state.waiting.to_dict("records")]
    assert shown["waiting_count"] == len(rows)
    assert [[row[name] for name in names] for row in shown["waiting"]] == rows[:500]
    known = {"order": state.waiting_orders, "reply": state.waiting_replies, "quote": state.waiting_quotes}
    for kind, frame in known.items():
        assert sum(1 for row in rows if row[4] == kind) == len(frame)
    assert all(row["words"] for row in shown["waiting"])


def test_the_cut_study_has_the_bytes_of_the_whole_one(explored: Explored) -> None:
    """All frames of a state but `b`, which has the branch's number, are those of the whole study; and the bytes that
    the page hands out are the whole study's own."""
    run = explored.served.explorer.run
    targets = explored.targets()
    for (name, event), whole in zip(targets, explored.states(targets)):
        cut = run.state(name, event)
        assert closing_bytes(whole) == closing_bytes(cut)
    name, event = targets[-1]
    assert explored.served.take("state", branch=name, event=event) == explored.output(
        "rewind", "--", "study.toml", f"{name}:{event}")


def closing_bytes(state: biqsolur.State) -> bytes:
    """The bytes of a state without its `b` frame."""
    frames = state.frames
    return frames.raw[frames.offset(state.part.counts):frames.offset(state.part.end)].tobytes()


def test_an_event_is_told_as_the_bundle_has_it(explored: Explored) -> None:
    for name, event in explored.targets():
        what = explored.served.ask("state", branch=name, event=event)["what"]
        if event == 0:
            assert what["kind"] == "opening"
            continue
        branch = explored.bundle.branches[name]
        row = branch.events.iloc[event - 1]
        columns = ("number", "time", "message", "sender", "receiver", "kind", "put_back", "busy_until")
        assert [what[column] for column in columns] == [row[column] for column in columns]
        assert what["fee"] == str(row.fee)
        assert b"".join(bytes.fromhex(field["bytes"]) for field in what["fields"]) == bytes.fromhex(what["bytes"])
        trades = branch.trades[branch.trades.event == event]
        assert [[one["price"], one["shares"], one["match"]] for one in what["trades"]] == trades[["price", "shares",
                "match"]].values.tolist()


def test_every_event_has_words(explored: Explored) -> None:
    """No event of any branch is without a sentence, and each names its agents."""
    run = explored.served.explorer.run
    for name, view in run.views.items():
        for event in range(view.count + 1):
            words = sentence(view, event)
            assert words[0].isupper() and words.endswith(".") and "\n" not in words
            if event and chr(view.heads["delivery"][event - 1]) == "P":
                assert "is put back to" in words


def test_rules_in_force_are_those_that_trades_and_orders_kept(explored: Explored) -> None:
    """The fee of each trade is that of the rules shown, and each order that came to rest has a price that their ticks
    allow: dated changes and edits are in force when the program has them in force."""
    run, checked = explored.served.explorer.run, 0
    from biqsolur.explore.rules import rules_at
    for name, view in run.views.items():
        branch = view.branch
        edited = set(branch.edits.event.tolist())
        matched = branch.trades.groupby("event").agg(shares=("shares", "sum"), fees=("fees", "sum"),
                                                     stock=("stock", "first"))
        for event, row in matched.iterrows():
            if event not in edited:
                stock = rules_at(run.table, view, event)["stocks"][row.stock]
                assert row.fees == (stock["add"] + stock["take"]) * row.shares
                checked += 1
        for row in branch.feed[branch.feed.kind == "A"].itertuples():
            if row.event not in edited:
                bands = rules_at(run.table, view, row.event)["stocks"][row.stock]["bands"]
                tick = [tick for start, tick in bands if start <= row.price][-1]
                assert row.price % tick == 0
                checked += 1
    assert checked or not any(len(branch.trades) for branch in explored.bundle.branches.values())


def test_a_dated_change_comes_before_an_edit_at_the_same_event(program: str) -> None:
    """Both set the fees at one event: the branch that edits has the edit's, as its trades show, and the root the
    change's."""
    with Served(EXAMPLE, program) as served:
        times = served.explorer.run.views["root"].times
        event = next(event for event in range(5001, 6000) if times[event - 1] > times[event - 2])
        study = served.explorer.history[0][1].to_dict()
    study["change"] = [{"time": int(times[event - 1]), "stock": "ABM", "kind": "fee", "add": 1000, "take": 2000}]
    study["branch"] = [{"name": "own", "parent": "root", "at": event,
                        "edit": [{"kind": "fee", "stock": "ABM", "add": 7, "take": 8}]}]
    with Served(lambda: Study.from_dict(study), program) as served:
        for branch, at, fees in (("root", event - 1, [-2000, 3000]), ("root", event, [1000, 2000]),
                                 ("own", event, [7, 8])):
            stock = served.ask("state", branch=branch, event=at)["rules"]["stocks"][0]
            assert [stock["add"], stock["take"]] == fees
        trades = served.explorer.run.bundle.branches["own"].trades
        later = trades[trades.event > event]
        assert len(later) and (later.fees == 15 * later.shares).all()


def test_searches_find_what_a_plain_loop_finds(explored: Explored) -> None:
    for name, branch in explored.bundle.branches.items():
        events = branch.events
        trading = set(branch.trades.event.tolist())
        agent = explored.random.randrange(explored.bundle.agents)
        wanted = {
            "trade": [event for event in events.number if event in trading],
            "agent": events.number[(events.sender == agent) | (events.receiver == agent)].tolist(),
            "difference": [branch.first_difference] if branch.first_difference else [],
        }
        for kind, numbers in wanted.items():
            event = explored.random.randint(0, len(events))
            later, earlier = [n for n in numbers if n > event], [n for n in numbers if n < event]
            for way, expected in (("on", later[:1]), ("back", earlier[-1:])):
                status, found = explored.served.get("find", branch=name, event=event, kind=kind, way=way, agent=agent)
                assert (status, [found.get("event")]) == ((200, expected) if expected else (404, [None]))


def test_events_of_a_stock(explored: Explored) -> None:
    """A message that names a stock is of that stock, and each other one of its trader's."""
    traders = [None, *[entry["stock"] for entry in explored.table["agent"] for _ in range(entry.get("count", 1))]]
    for name, branch in explored.bundle.branches.items():
        view = explored.served.explorer.run.views[name]
        named = {row.event: row.symbol for row in branch.orders[branch.orders.kind == "enter"].itertuples()}
        named |= {row.event: row.symbol for row in branch.quotes.itertuples()}
        for row in branch.events[~branch.events.put_back & ~branch.events.kind.isin(["reply",
                                                                                     "question"])].itertuples():
            symbol = named.get(row.number, traders[row.sender or row.receiver])
            number = view.symbols.index(symbol) if symbol in view.symbols else -1
            assert view.stocks[row.number - 1] == number


def test_a_time_leads_to_the_last_event_by_then(explored: Explored) -> None:
    for name, branch in explored.bundle.branches.items():
        times = branch.events.time.tolist()
        for time in [0, explored.table["open"], *times[::37], explored.table["close"] + 1]:
            found = explored.served.ask("at", branch=name, time=time)
            assert found["event"] == sum(1 for one in times if one <= time)


def test_causes_and_effects_are_those_of_the_package(explored: Explored) -> None:
    for name, event in explored.targets()[::4]:
        shown = explored.served.ask("why", branch=name, event=event)
        branch = explored.bundle.branches[name]
        run = explored.served.explorer.run
        causes = run.causes(run.views[name])
        assert [row["event"] for row in shown["causes"]] == [link.event for _, link in causes.chain(event, 4)]
        effects = causes.effects(event)
        assert [row["event"] for row in shown["effects"]] == [one["event"] or one["first"] for one in effects[:60]]
        end = run.state(name, len(branch.events)).waiting
        known = set(branch.events.message.tolist())
        before = run.state(name, event - 1).closing.counts["next_message"] if event else 0
        after = run.state(name, event).closing.counts["next_message"]
        injected = int(((branch.edits.event == event) & (branch.edits.kind == "inject")).sum())
        unseen = [number for number in end.message if number not in known and before <= number < after - injected]
        assert shown["waiting"] == len(unseen)


# ---------------------------------------------------------------- series

def test_a_small_picture_has_each_stretchs_extremes() -> None:
    """Against a plain loop: first, least, greatest and last of each stretch, and nothing else."""
    generator = numpy.random.RandomState(7)
    for count, points in ((0, 5), (3, 5), (5000, 7), (4000, 100)):
        times = numpy.sort(generator.randint(0, 10_000, count))
        values = generator.randint(0, 50, count).astype(float)
        values[generator.rand(count) < 0.1] = numpy.nan
        rows = kept_rows(times, values, 1000, 9000, points).tolist()
        inside = [row for row in range(count) if 1000 <= times[row] <= 9000]
        if len(inside) <= 4 * points:
            assert rows == inside
            continue
        stretches: dict[int, list[int]] = {}
        for row in inside:
            stretches.setdefault(int((times[row] - 1000) * (points / 8000)), []).append(row)
        assert len(rows) <= 4 * len(stretches)
        for own in stretches.values():
            kept = [row for row in own if row in set(rows)]
            assert {own[0], own[-1]} <= set(kept)
            real = [values[row] for row in own if values[row] == values[row]]
            if real:
                assert {min(real), max(real)} <= {values[row] for row in kept}


def test_a_step_series_begins_with_the_value_that_holds() -> None:
    times, values = numpy.array([10, 20, 30]), numpy.array([1.0, 2.0, 3.0])
    assert step_rows(times, values, 15, 25, 10).tolist() == [0, 1]
    assert step_rows(times, values, 10, 25, 10).tolist() == [0, 1]
    assert step_rows(times, values, 0, 5, 10).tolist() == []


def test_shares_of_each_bar() -> None:
    times, shares = numpy.array([0, 4, 5, 9, 10]), numpy.array([1, 2, 4, 8, 16])
    bars = volume(times, shares, 0, 9, 2)
    assert (bars["x"], bars["y"], bars["width"]) == ([0, 5], [3, 12], 5)
    assert sum(volume(times, shares, 0, 10, 3)["y"]) == 31


def test_the_series_of_a_branch_are_those_of_the_package(example: Served) -> None:
    """Zoomed in until nothing is left out: mid, spread, trades, shares and value of the example."""
    study = example.ask("study")
    branch = example.explorer.run.bundle.branches["root"]
    begin = study["open"] + 20 * 10**9
    end = begin + 10**10
    picture = example.ask("timeline", branch="root", stock=0, begin=begin, end=end, points=4000)
    top = branch.top()
    top = top[(top.time >= begin) & (top.time <= end) & (top.bid > 0) & (top.ask > 0)]
    assert picture["mid"]["y"][1:] == ((top.bid
                                        + top.ask) / 20000).tolist() and picture["mid"]["x"][1:] == top.time.tolist()
    assert picture["spread"]["y"][1:] == ((top.ask - top.bid) / 10000).tolist()
    trades = branch.trades[(branch.trades.time >= begin) & (branch.trades.time <= end)]
    assert picture["trades"]["x"] == trades.time.tolist() and picture["trades"]["shares"] == trades.shares.tolist()
    assert sum(picture["volume"]["y"]) == trades.shares.sum()
    value = branch.value("ABM")
    value = value[(value.time >= begin) & (value.time <= end)]
    assert picture["value"]["x"][1:] == value.time.tolist()
    assert picture["value"]["y"][1:] == (value.value / 10000).tolist()


def test_texts_of_numbers() -> None:
    assert [clock(time) for time in (0, 34_200_000_000_001, 86_399_999_999_999)] == [
        "00:00:00.000000000", "09:30:00.000000001", "23:59:59.999999999"]
    assert [dollars(price) for price in (100_000, 1, 12_345_678, -500)] == ["10.00", "0.0001", "1,234.5678", "-0.05"]
    assert [money(number) for number in (0, -1, 10**30, 27_162_000)] == [
        "0.00", "-0.000001", "1,000,000,000,000,000,000,000,000.00", "27.162"]


# ---------------------------------------------------------------- states

def test_states_near_by_cost_no_further_rewind(example: Served) -> None:
    """One question to the program serves the steps around an event."""
    run = example.explorer.run
    run.state("wide", 6000)
    before = run.states.asked
    for event in range(6000 - 3, 6000 + 8):
        assert run.state("wide", event).event == event
    assert run.states.asked == before


def test_states_are_given_up_where_they_are_too_many(example: Served, monkeypatch: pytest.MonkeyPatch) -> None:
    from biqsolur.explore import states as module
    run = example.explorer.run
    monkeypatch.setattr(module, "KEPT_BYTES", 60_000)
    kept = States(run.table, run._ask)
    for event in range(0, 5000, 250):
        assert kept.state(run.view("root"), event).event == event
        assert kept.bytes <= 60_000 or len(kept.kept) == 1
    assert kept.bytes == sum(kept.sizes.values()) and kept.sizes.keys() == kept.kept.keys()


def test_a_cut_study_keeps_the_branches_path() -> None:
    table = {"events": 1000, "branch": [
        {"name": "a", "parent": "root", "at": 100}, {"name": "b", "parent": "a", "at": 300},
        {"name": "c", "parent": "root", "at": 50}]}
    assert path_of(table, "b") == ["a", "b"] and path_of(table, "root") == []
    cut = cut_study(table, "b", 400)
    assert [branch["name"] for branch in cut["branch"]] == ["a", "b"] and cut["events"] == 401
    assert cut_study(table, "b", 10)["events"] == 300       # no stop above the limit
    assert cut_study(table, "b", 1000)["events"] == 1000
    assert cut_study(table, "root", 7)["branch"] == []


# ---------------------------------------------------------------- changes

NINE_EDITS: list[dict[str, Any]] = [
    {"kind": "tick", "stock": "ABM", "bands": [["0.00", "0.02"]]},
    {"kind": "fee", "stock": "ABM", "add": "-0.002", "take": "0.005"},
    {"kind": "halt", "stock": "ABM"},
    {"kind": "resume", "stock": "ABM"},
    {"kind": "latency", "from": 0, "to": 1, "base": "70us", "jitter": "0ns"},
    {"kind": "agent", "agent": 1, "name": "half", "value": "0.03"},
    {"kind": "silence", "agent": 2},
    {"kind": "inject", "agent": 5, "after": "1ms", "order": {
        "what": "enter", "token": "MINE1", "side": "B", "shares": "300", "symbol": "ABM", "price": "50.10",
        "time_in_force": "99999", "display": "Y"}},
    {"kind": "series", "stock": "ABM", "offset": "-0.25"},
]


def test_all_nine_edits_fork_and_the_study_taken_along_gives_the_branch(
        program: str, tmp_path: Path) -> None:
    """The study that is taken along is accepted, and its bundle is the one of the page, byte for byte."""
    with Served(EXAMPLE, program) as served:
        served.change("fork", name="nine", parent="wide", at=5500, edits=NINE_EDITS)
        made = served.ask("study")["branches"][-1]
        assert (made["name"], made["parent"], made["fork"]) == ("nine", "wide", 5500)
        assert [edit["kind"] for edit in made["edits"]] == [edit["kind"] for edit in NINE_EDITS]
        shown = served.ask("state", branch="nine", event=5500)
        stock = shown["stocks"][0]
        assert (stock["bands"], stock["add"], stock["take"], stock["offset"]) == ([[0, 200]], -2000, 5000, -2500)
        assert (shown["rules"]["base"][0][1], shown["rules"]["jitter"][0][1]) == (70_000, 0)
        assert shown["rules"]["agents"][1]["half"] == 300 and shown["agents"][2]["silenced"]
        assert served.ask("state", branch="wide", event=5500)["rules"]["agents"][1]["half"] == 200
        (tmp_path / "taken.toml").write_bytes(served.take("study"))
        bundle = subprocess.run([program, "run", "taken.toml"], cwd=tmp_path, check=True, capture_output=True).stdout
        assert bundle == served.take("bundle")
        injected = served.ask("why", branch="nine", event=served.ask(
            "find", branch="nine", event=5500, kind="agent", agent=5)["event"])
        assert injected["causes"]
        report = served.take("report")
        assert report.startswith(b"<!doctype html>") and b"nine" in report


def test_the_five_minutes_of_the_document(program: str) -> None:
    """Each number of the walk in docs/EXPLORER.md."""
    with Served(EXAMPLE, program) as served:
        assert served.ask("find", branch="root", event=4990, kind="trade")["event"] == 4992
        said = (ROOT / "docs" / "EXPLORER.md").read_text()
        assert served.ask("state", branch="root", event=4992)["what"]["words"] in said
        why = served.ask("why", branch="root", event=4992)
        direct = [(row["link"], row["event"]) for row in why["causes"] if row["depth"] == 1]
        assert direct == [("sent during", 4991), ("met an order of", 4863)]
        assert "ask 328 at 49.98" in why["causes"][0]["words"]
        behind = {row["link"]: row["event"] for row in reversed(why["causes"]) if row["depth"] == 2}
        assert (behind["sent during"], behind["ask set by"]) == (4990, 4863)
        assert sorted(row["event"] for row in why["effects"]) == [4993, 4994, 4995]
        served.change("fork", name="wider", parent="root", at=4992,
                      edits=[{"kind": "tick", "stock": "ABM", "bands": [["0.00", "0.05"]]}])
        compared = served.ask("compare", branch="wider")
        assert compared["difference"] == 5032 and "at 49.90" in compared["ours"] and "at 49.94" in compared["theirs"]
        measures = {row["name"]: (row["theirs"], row["ours"]) for row in compared["measures"]}
        assert measures["trades"] == (298, 294)
        assert [round(100 * number, 1) for number in measures["quoted spread, dollars"]] == [4.0, 9.9]


def test_undo_and_redo_go_through_the_texts(program: str) -> None:
    with Served(EXAMPLE, program) as served:
        first = served.take("study")
        served.change("fork", name="one", parent="root", at=100, edits=[])
        second = served.take("study")
        served.change("remove", branch="wide")
        third = served.take("study")
        study = served.ask("study")
        assert study["undo"] == "remove wide" and study["redo"] is None
        for by, text in ((-1, second), (-1, first), (1, second), (1, third), (-1, second)):
            status, _ = served.post("step", by=by)
            assert status == 200
            served.idle()
            assert served.take("study") == text
        assert served.ask("study")["redo"] == "remove wide"
        served.change("fork", name="two", parent="root", at=100, edits=[])      # a change gives up what could be redone
        assert served.ask("study")["redo"] is None
        assert served.post("step", by=1)[0] == 400


def test_renaming_and_removing_take_children_along(program: str) -> None:
    with Served(EXAMPLE, program) as served:
        served.change("fork", name="child", parent="wide", at=6000, edits=[NINE_EDITS[2]])
        served.change("rename", branch="wide", name="wider")
        branches = {branch["name"]: branch for branch in served.ask("study")["branches"]}
        assert list(branches) == ["root", "wider", "same", "child"] and branches["child"]["parent"] == "wider"
        served.change("change", branch="child", edits=[NINE_EDITS[1], NINE_EDITS[6]])
        assert [edit["kind"] for edit in served.ask("study")["branches"][-1]["edits"]] == ["fee", "silence"]
        served.change("remove", branch="wider")
        assert [branch["name"] for branch in served.ask("study")["branches"]] == ["root", "same"]


def test_a_fork_at_a_time_makes_a_study_of_version_2(program: str) -> None:
    with Served(ROOT / "examples" / "makers_and_noise.toml", program) as served:
        study = served.ask("study")
        time = served.ask("at", branch="root", event=study["branches"][0]["count"] // 2)["time"]
        served.change("fork", name="late", parent="root", when=time, edits=[])
        assert served.ask("study")["version"] == 2
        assert served.ask("study")["branches"][-1]["fork_time"] <= time


@pytest.mark.parametrize("table, words", [
    ({"name": "Wide!", "parent": "root", "at": 10, "edits": []}, "name"),
    ({"name": "x", "parent": "wide", "at": 10, "edits": []}, "at"),
    ({"name": "x", "parent": "root", "at": 10, "edits": [{"kind": "silence", "agent": 99}]}, "agent"),
    ({"name": "x", "parent": "root", "at": 10, "edits": [{"kind": "tick", "stock": "ABM", "bands": [["0.00", "-1"]]}]},
     "tick"),
])
def test_a_refused_fork_is_told_in_a_sentence_and_changes_nothing(example: Served, table: dict[str, Any],
                                                                  words: str) -> None:
    before = example.take("study")
    status, answer = example.post("change", kind="fork", **table)
    assert status == 422 and answer["kind"] == "StudyRefused" and isinstance(answer["rule"], int)
    assert words in answer["error"] and example.take("study") == before


@pytest.mark.parametrize("table", [
    {"kind": "fork", "name": "x", "parent": "root", "edits": []},
    {"kind": "fork", "name": "x", "parent": "root", "at": 1, "when": 2, "edits": []},
    {"kind": "fork", "name": "x", "parent": "root", "at": "1", "edits": []},
    {"kind": "fork", "name": 7, "parent": "root", "at": 1, "edits": []},
    {"kind": "fork", "name": "x", "parent": "root", "at": 1, "edits": ["halt"]},
    {"kind": "fork", "name": "x", "parent": "root", "at": 1, "edits": [
        {"kind": "inject", "agent": 1, "after": 0, "order": {"what": "cancel", "token": "A", "shares": "many"}}]},
    {"kind": "nothing"}, {}, {"kind": "rename", "branch": "wide", "name": "same"}, {"kind": "remove", "branch": "root"},
])
def test_what_makes_no_sense_is_a_bad_request(example: Served, table: dict[str, Any]) -> None:
    before = example.take("study")
    assert example.post("change", table)[0] == 400
    assert example.take("study") == before


@pytest.mark.parametrize("table, words", [
    ({"kind": "fork", "name": "wide", "parent": "root", "at": 1, "edits": []}, "there is a branch 'wide' already"),
    ({"kind": "fork", "name": "x", "parent": "nobody", "at": 1, "edits": []}, "there is no branch 'nobody'"),
    ({"kind": "fork", "name": "x", "parent": "root", "at": 1,
      "edits": [{"kind": "fee", "stock": "ABM", "add": "much", "take": "1"}]},
     "add"),
    ({"kind": "fork", "name": "x", "parent": "root", "at": 1, "edits": [
        {"kind": "inject", "agent": 1, "after": 0, "order": {"what": "cancel", "token": "a b", "shares": "1"}}]},
        "token"),
])
def test_what_the_package_refuses_is_told_as_it_says_it(example: Served, table: dict[str, Any], words: str) -> None:
    status, answer = example.post("change", table)
    assert status == 422 and words in answer["error"]


def test_a_session_over_the_opened_study_gives_the_same_state(program: str, tmp_path: Path) -> None:
    """The script that is taken along, run by the program over the study as it was opened."""
    with Served(EXAMPLE, program) as served:
        served.change("fork", name="mine", parent="wide", at=6000, edits=NINE_EDITS[:2])
        served.change("change", branch="same", edits=[NINE_EDITS[6]])
        for branch in ("mine", "same"):
            (tmp_path / "script.toml").write_bytes(served.take("session", branch=branch, event=7000))
            words = [program, "session", str(EXAMPLE), "script.toml"]
            answers = subprocess.run(words, cwd=tmp_path, check=True, capture_output=True).stdout
            state = served.take("state", branch=branch, event=7000)
            assert answers.startswith(state[:-5])        # behind the state stands the end of the rewind
        served.change("remove", branch="same")
        status, answer = served.get("take", what="session", branch="mine", event=7000)
        assert status == 422 and "takes no branch of its study away" in answer["error"]


def test_another_tab_is_told_that_the_study_changed(program: str) -> None:
    """What it asks is answered as its own version stands, with the number of the new one; what it wants done is not."""
    with Served(EXAMPLE, program) as served:
        old = served.explorer.tag
        before = served.ask("state", branch="wide", event=6000)
        served.change("change", branch="wide", edits=[{"kind": "halt", "stock": "ABM"}])
        assert served.ask("state", tag=old, branch="wide", event=6000) == before | {"now": old + 1}
        assert served.ask("state", branch="wide", event=5001) != served.ask("state", tag=old, branch="wide", event=5001)
        for name, words in (("timeline", {"begin": 0, "end": 9}), ("why", {"event": 9}), ("at", {"event": 9})):
            assert served.get(name, tag=old, **words)[0] == 200
        for status, answer in (served.get("state", tag=old - 1, branch="root", event=5),
                               served.get("state", tag=old + 2, branch="root", event=5),
                               served.post("change", kind="remove", branch="wide", tag=old),
                               served.post("step", by=-1, tag=old)):
            assert status == 409 and answer["kind"] == "Stale" and answer["tag"] == old + 1


def test_only_the_last_versions_are_kept(program: str) -> None:
    """Each undo and redo makes a version; a page that knows one of long ago is told so."""
    with Served(EXAMPLE, program) as served:
        old = served.explorer.tag
        served.change("fork", name="one", parent="root", at=100, edits=[])
        for number in range(KEPT_RUNS - 1):
            assert served.get("at", tag=old, event=1)[0] == 200
            assert served.post("step", by=1 if number % 2 else -1)[0] == 200
            served.idle()
        status, answer = served.get("at", tag=old, event=1)
        assert status == 409 and answer["kind"] == "Stale" and answer["tag"] == old + KEPT_RUNS


# ---------------------------------------------------------------- runs that fail

def is_running(pid: int) -> bool:
    """Whether a process of this number runs."""
    try:
        os.kill(pid, 0)
    except ProcessLookupError:
        return False
    return True


def test_a_run_can_be_stopped_and_leaves_no_process(tmp_path: Path, program: str) -> None:
    with Served(EXAMPLE, str(slow_program(tmp_path, program)), wait=False) as served:
        pid = int(wait_until(lambda: (tmp_path / "pid").exists() and (tmp_path / "pid").read_text().strip(), "the run"))
        status, answer = served.get("status")
        assert status == 200 and answer["running"] and answer["events"] == 60_000 and 0 <= answer["share"] < 1
        assert served.post("reopen")[0] == 409
        assert served.post("stop")[0] == 200
        served.idle()
        assert not is_running(pid)
        failure = served.get("status")[1]["failure"]
        assert failure == {"error": "the run was stopped", "stopped": True}
        assert served.get("study")[0] == 409


def test_an_end_of_the_explorer_ends_the_program(tmp_path: Path, program: str) -> None:
    engine = Engine(slow_program(tmp_path, program), 1)
    raised: list[BaseException] = []

    def run() -> None:
        try:
            engine.run(Study.read(EXAMPLE))
        except Stopped as error:
            raised.append(error)
    import threading
    thread = threading.Thread(target=run)
    thread.start()
    pid = int(wait_until(lambda: (tmp_path / "pid").exists() and (tmp_path / "pid").read_text().strip(), "the run"))
    engine.close()
    thread.join(LONGEST)
    assert raised and not is_running(pid) and not engine.folder.exists()
    with pytest.raises(Stopped):
        engine.check(Study.read(EXAMPLE))


def test_a_program_that_ends_otherwise_is_told_and_can_be_run_again(tmp_path: Path, program: str) -> None:
    script = tmp_path / "once"
    script.write_text(f'#!/bin/sh\ncase "$*" in *check*) exec {program} "$@" ;; esac\n'
                      f'if [ -e {tmp_path}/again ]; then exec {program} "$@"; fi\ntouch {tmp_path}/again\necho out of '
                      'memory >&2\nexit 10\n')
    script.chmod(0o755)
    with Served(EXAMPLE, str(script)) as served:
        status = served.get("status")[1]
        assert not status["ready"] and "memory" in status["failure"]["error"]
        assert served.post("reopen")[0] == 200
        served.idle()
        assert served.get("status")[1]["ready"] and served.get("status")[1]["failure"] is None


def test_a_refused_study_is_told_and_can_be_mended(tmp_path: Path, program: str) -> None:
    path = tmp_path / "study.toml"
    text = EXAMPLE.read_text()
    path.write_text(text.replace("events = 20000", "events = 0"))
    with Served(path, program) as served:
        failure = served.get("status")[1]["failure"]
        assert "events" in failure["error"] and not failure["stopped"]
        path.write_text(text.replace("[latency]", "[latency"))
        served.post("reopen")
        served.idle()
        assert "line" in served.get("status")[1]["failure"]["error"]
        path.write_text(text)
        served.post("reopen")
        served.idle()
        assert served.get("status")[1]["ready"]


def test_the_server_ends_while_a_request_hangs(program: str) -> None:
    """A connection on which half a request came, and another on which nothing came, hold up no end."""
    with Served(EXAMPLE, program) as served:
        with socket.create_connection(("127.0.0.1", served.port), timeout=LONGEST) as half, \
                socket.create_connection(("127.0.0.1", served.port), timeout=LONGEST):
            half.sendall(f"POST /{TOKEN}/api/change HTTP/1.1\r\nHost: 127.0.0.1:{served.port}\r\nContent-Length: "
                         f"9\r\n\r\n{{".encode())
            served.ask("status")
            served.end()


# ---------------------------------------------------------------- refusals of the server

def raw(served: Served, data: bytes) -> bytes:
    """What the server answers to these very bytes, until it closes."""
    with socket.create_connection(("127.0.0.1", served.port), timeout=LONGEST) as connection:
        connection.sendall(data)
        parts = []
        while part := connection.recv(65536):
            parts.append(part)
    return b"".join(parts)


def status_of(answer: bytes) -> int:
    """The status of an answer."""
    return int(answer.split(b" ", 2)[1])


def requested(served: Served, line: str, *headers: str, host: str | None = None) -> int:
    """The status of a request of these lines."""
    lines = [line, f"Host: {host or f'127.0.0.1:{served.port}'}", "Connection: close", *headers, "", ""]
    return status_of(raw(served, "\r\n".join(lines).encode()))


@pytest.mark.parametrize("path", ["/", "/api/study", "/wrong/api/study", "//", f"/{TOKEN[:-1]}/", f"/{TOKEN}x/",
                                  "/page/main.js",
                                  "/../etc/passwd", f"/x/{TOKEN}/"])
def test_no_secret_word_no_answer(example: Served, path: str) -> None:
    assert requested(example, f"GET {path} HTTP/1.1") == 403


@pytest.mark.parametrize("path", [
    "page/../../../../etc/passwd", "../etc/passwd", "page/%2e%2e/%2e%2e/etc/passwd", "page/..%2f..%2fserver.py",
    "page/server.py",
    "page//etc/passwd", "page/", "page/index.html/", "api/nothing", "etc/passwd", "api/../api/study/x", "page/%00",
    "page/main.js%00"])
def test_a_path_that_climbs_or_is_nowhere_is_404(example: Served, path: str) -> None:
    assert requested(example, f"GET /{TOKEN}/{path} HTTP/1.1") == 404


@pytest.mark.parametrize("headers, host, status", [
    (["Origin: http://evil.example"], None, 403), (["Origin: null"], None, 403),
    (["Origin: https://127.0.0.1"], None, 403),
    ([], "evil.example", 403), ([], "127.0.0.1", 403), ([], "127.0.0.1:1", 403), ([], None, 200)])
def test_a_foreign_origin_or_host_is_403(example: Served, headers: list[str], host: str | None, status: int) -> None:
    assert requested(example, f"GET /{TOKEN}/api/status HTTP/1.1", *headers, host=host) == status


def test_the_pages_own_origin_and_the_name_localhost_are_served(example: Served) -> None:
    for host in (f"127.0.0.1:{example.port}", f"localhost:{example.port}"):
        assert requested(example, f"GET /{TOKEN}/api/status HTTP/1.1", f"Origin: http://{host}", host=host) == 200


def test_a_body_of_a_hundred_megabytes_is_413(example: Served) -> None:
    """By its stated length before a byte of it came, and without one as soon as it is too long."""
    assert requested(example, f"POST /{TOKEN}/api/change HTTP/1.1", "Content-Length: 104857600") == 413
    chunk = b"%x\r\n%s\r\n" % (1 << 20, b" " * (1 << 20))
    head = f"POST /{TOKEN}/api/change HTTP/1.1\r\nHost: 127.0.0.1:{example.port}\r\nTransfer-Encoding: chunked\r\n\r\n"
    with socket.create_connection(("127.0.0.1", example.port), timeout=LONGEST) as connection:
        connection.sendall(head.encode() + chunk + b"1\r\n \r\n")
        assert status_of(connection.recv(65536)) == 413
    assert requested(example, f"GET /{TOKEN}/api/status HTTP/1.1") == 200


@pytest.mark.parametrize("body", [b"{", b"[]", b"7", b"\xff", b"[" * 100_000, b'{"tag": "1"}', b'{"tag": true}', b""])
def test_a_body_that_is_no_table_is_400(example: Served, body: bytes) -> None:
    status, _, answer = example.request("POST", f"/{TOKEN}/api/change", body)
    assert status == 400 and "error" in json.loads(answer)


@pytest.mark.parametrize("name, words, status", [
    ("state", {"branch": "nobody", "event": 1}, 404), ("state", {"branch": "root", "event": 10**7}, 404),
    ("state", {"branch": "root", "event": -1}, 404), ("state", {"branch": "root", "event": "x"}, 400),
    ("state", {"branch": "root", "event": 1, "agent": 33}, 400), ("state", {"branch": "root"}, 400),
    ("timeline", {"begin": 5, "end": 5}, 400), ("timeline", {"begin": 0, "end": 9, "stock": 1}, 400),
    ("find", {"branch": "root", "event": 1, "kind": "luck"}, 422), ("compare", {"branch": "root"}, 400),
    ("take", {"what": "all", "event": 1}, 400), ("why", {"branch": "root", "event": 10**9}, 404),
    ("state", {"tag": "", "event": 1}, 400)])
def test_a_question_with_wrong_words_is_told_why(example: Served, name: str, words: dict[str, Any],
                                                 status: int) -> None:
    found, answer = example.get(name, **words)
    assert found == status and answer["error"] and "Traceback" not in answer["error"]


def test_each_answer_forbids_what_the_page_does_not_need(example: Served) -> None:
    for path in ("", "page/main.js", "api/status", "api/nothing"):
        _, headers, _ = example.request("GET", f"/{TOKEN}/{path}")
        assert "default-src 'none'" in headers["content-security-policy"]
        assert headers["x-content-type-options"] == "nosniff" and headers["referrer-policy"] == "no-referrer"
        assert "access-control-allow-origin" not in headers and "server" not in headers


def test_the_page_refers_to_nothing_outside(example: Served) -> None:
    """No file of the page names another host; all that it loads is served."""
    folder = ROOT / "python" / "biqsolur" / "explore" / "page"
    for path in folder.iterdir():
        assert "http://" not in path.read_text() and "https://" not in path.read_text()
        status, headers, body = example.request("GET", f"/{TOKEN}/page/{path.name}")
        assert status == 200 and body == path.read_bytes()
    status, headers, body = example.request("GET", f"/{TOKEN}/page/plotly.js")
    assert status == 200 and headers["content-type"].startswith("text/javascript") and len(body) > 1_000_000


# ---------------------------------------------------------------- the command

def test_the_command_prints_its_address_and_ends_with_ctrl_c(program: str, tmp_path: Path) -> None:
    """A real start: the page is there, and after an interrupt there is no process, no file and no traceback."""
    environment = {**os.environ, "PYTHONPATH": str(ROOT / "python"), "TMPDIR": str(tmp_path)}
    words = [sys.executable, "-m", "biqsolur", "explore", str(EXAMPLE), "--no-browser", "--program", program,
             "--workers", "1"]
    process = subprocess.Popen(words, stdout=subprocess.PIPE, stderr=subprocess.PIPE, text=True, env=environment,
                               start_new_session=True)
    try:
        process.stdout.readline()
        address = process.stdout.readline().strip()
        assert address.startswith("http://127.0.0.1:")
        doors = list(tmp_path.glob("biqsolur-*.html"))
        assert len(doors) == 1 and doors[0].stat().st_mode & 0o777 == 0o600 and address in doors[0].read_text()
        assert not any(address.split("/")[3] in word for word in process.args)
        import urllib.request
        with urllib.request.urlopen(address, timeout=LONGEST) as page:
            assert b"<h1>" in page.read()
        assert not doors[0].exists()
        process.send_signal(signal.SIGINT)
        _, said = process.communicate(timeout=LONGEST)
    finally:
        if process.poll() is None:
            os.killpg(process.pid, signal.SIGKILL)
    assert process.returncode == 0 and "Traceback" not in said
    assert list(tmp_path.glob("biqsolur-*")) == []
    with pytest.raises(ProcessLookupError):
        os.killpg(process.pid, 0)


@pytest.mark.parametrize("words, said", [
    (["no_such.toml"], "No such file"), ([str(EXAMPLE), "--workers", "65"], "--workers 65"),
    ([str(EXAMPLE), "--port", "70000"], "port 70000"), ([str(EXAMPLE), "--program", "/no/program"], "/no/program")])
def test_the_command_says_what_is_wrong(words: list[str], said: str, capfd: pytest.CaptureFixture[str]) -> None:
    from biqsolur.__main__ import main
    assert main(["explore", "--no-browser", *words]) == 1
    error = capfd.readouterr().err
    assert said in error and "Traceback" not in error
