"""Measures against plain loops over random markets of both versions, and the identities that bind them."""

import math

import numpy
import pandas
import plain
import plain_measures
import pytest

import biqsolur
from biqsolur import measures
from biqsolur.errors import InputError, MeasureError, StudyNeededError
from biqsolur.study import Study

MARKETS = range(40)
WITH_ORDERS = ("order_fates", "order_lifetime", "cancel_ratio", "fill_probability", "time_to_fill", "queue_at_entry",
               "reaction_latency")
OF_AGENTS = ("profit", "maker_income", "inventory")


class Measured:
    """A random market: its study, its bundle, and of the root and the last branch the plain tape."""

    def __init__(self, market):
        self.entry = market.study
        self.study = Study(market.study, folder=market.folder)
        self.bundle = biqsolur.read(market.bundle)
        told = plain.read_plain(market.bundle.read_bytes())[2]
        self.tapes = {}
        for number in {0, len(told) - 1}:
            branch = list(self.bundle.branches.values())[number]
            tape = plain_measures.PlainTape(told[number], self.bundle.symbols)
            self.tapes[branch.name] = (branch, tape, plain_measures.lives(tape))
        span = market.study["close"] - market.study["open"]
        self.interval, self.horizon = max(1, span // 40), max(1, span // 60)
        self.levels, self.lag = 1 + market.study["events"] % 6, 1 + market.study["events"] % 4

    def pairs(self):
        """(branch, tape, lives, after) for the root from the opening on, and for the last branch from its fork on."""
        for name, (branch, tape, found) in self.tapes.items():
            yield branch, tape, found, branch.fork


KEPT = {}


@pytest.fixture(scope="module")
def measured(market):
    """Each market is read once: the last one is kept, as the tests of one market come in a row."""
    if market.folder not in KEPT:
        KEPT.clear()
        KEPT[market.folder] = Measured(market)
    return KEPT[market.folder]


each_market = pytest.mark.parametrize("market", MARKETS, indirect=True)


def same(one, two):
    assert set(one) == set(two)
    for name, value in one.items():
        if math.isnan(value) or math.isnan(two[name]):
            assert math.isnan(value) and math.isnan(two[name]), (name, value, two[name])
        else:
            assert value == pytest.approx(two[name], rel=1e-6, abs=1e-9), name


def named(branch, stock, numbers):
    suffix = "" if len(branch.symbols) == 1 else f".{branch.symbols[stock]}"
    return {f"{name}{suffix}": value for name, value in numbers.items()}


@each_market
def test_measures_are_those_of_plain_loops(measured):
    for branch, tape, found, after in measured.pairs():
        for name in set(measures.NAMES) - set(OF_AGENTS):
            settings = {"after": after, "horizon": measured.horizon, "interval": measured.interval,
                        "levels": measured.levels, "lag": measured.lag}
            measure = measures.NAMES[name]
            own = {key: value for key, value in settings.items() if key in measure.takes}
            expected = {}
            for stock in range(len(branch.symbols)):
                numbers = getattr(plain_measures, name)(tape, stock, **settings, found=found)
                expected |= named(branch, stock, numbers)
            same(measure.compute(branch, **own), expected)


@each_market
def test_data_frames_over_intervals_are_those_of_plain_loops(measured):
    """Realised variances, correlations at lags up to more than a series has, and the flows of each interval."""
    for branch, tape, _, after in measured.pairs():
        plots = measures.signature_plot(branch, [measured.interval, 7 * measured.interval], after=after)
        lags = measures.autocorrelations(branch, 45, interval=measured.interval, after=after)
        assert len(plots) == 2 * len(branch.symbols) and len(lags) == 45 * len(branch.symbols)
        traded = measures.trade_flows(branch, measured.interval, after=after)
        for stock in range(len(branch.symbols)):
            series = {length: plain_measures.returns(tape, stock, after, length) for length in plots.interval.unique()}
            for row in plots[plots.stock == stock].itertuples():
                known = [value for value in series[row.interval] if not math.isnan(value)]
                expected = math.fsum(value * value for value in known) if known else math.nan
                assert row.returns == len(known) and branch.symbols[row.stock] == row.symbol
                assert row.realised_variance == pytest.approx(expected, rel=1e-6, nan_ok=True)
            moves, signs = series[measured.interval], [trade[3] for trade in tape.own_trades(stock, after)]
            for row in lags[lags.stock == stock].itertuples():
                expected = [plain_measures.self_correlation(values, row.lag)
                            for values in (moves, [abs(move) for move in moves], signs)]
                found = [row.returns, row.absolute, row.signs]
                assert found == pytest.approx(expected, rel=1e-6, abs=1e-9, nan_ok=True)
            own = traded[traded.stock == stock]
            expected = plain_measures.flows(tape, stock, after, measured.interval)
            assert own.start.tolist() == plain_measures.grid(tape, after, measured.interval)[:-1]
            assert (own.bought - own.sold).tolist() == [flow for flow, _, _, _ in expected]
            assert (own[["bought", "sold"]] >= 0).all().all()
            for name, place in (("dollars", 1), ("move", 2), ("part", 3)):
                assert own[name].tolist() == pytest.approx([row[place] for row in expected], rel=1e-9, nan_ok=True)


@each_market
def test_depths_are_those_after_each_event_that_changed_one(measured):
    for branch, tape, _, _ in measured.pairs():
        expected = []
        for stock, moments in enumerate(tape.moments):
            before = (0, 0)
            for event, time, _, *sides in {moment[0]: moment for moment in moments}.values():
                now = tuple(sum(shares for _, shares in side[:measured.levels]) for side in sides)
                if now != before:
                    expected.append((event, time, stock, *now))
                before = now
        found = measures.depths(branch, measured.levels)
        assert list(found.itertuples(index=False, name=None)) == sorted(expected)
        assert list(found) == ["event", "time", "stock", "bid_depth", "ask_depth"]


@each_market
def test_data_frames_of_orders_are_those_of_plain_loops(measured):
    for branch, tape, found, after in measured.pairs():
        frame, expected = measures.reaction_times(branch), []
        for order in found:
            quote = ([(0, -1)] + [(event, time) for event, time, agent, greatest in tape.quotes if agent ==
                                  order["agent"] and event < order["event"] and greatest < order["message"]])[-1]
            told = order.get("told", -1) if order["first_fill"] >= 0 else -1
            expected.append([order["event"], order["agent"], order["stock"], *quote, order["time"],
                             order["first_fill"], told])
        assert list(frame) == ["event", "agent", "stock", "quote", "quoted", "arrived", "filled", "told"]
        assert frame.values.tolist() == expected
        groups = {}
        for order in found:
            if order["rested"] and order["event"] > after and not math.isnan(plain_measures.distance(order)):
                groups.setdefault((order["stock"], plain_measures.distance(order)), []).append(order)
        told = list(measures.fills_by_distance(branch, after=after).itertuples(index=False, name=None))
        assert [row[:3] for row in told] == [(*key, len(groups[key])) for key in sorted(groups)]
        for *key, _, filled, wait in told:
            fills = [order for order in groups[tuple(key)] if order["executed"] > order["on_entry"]]
            assert filled == pytest.approx(len(fills) / len(groups[tuple(key)]))
            waits = [order["first_fill"] - order["time"] for order in fills]
            assert wait == pytest.approx(plain_measures.middle(waits), nan_ok=True)


@each_market
def test_best_prices_are_those_after_each_event_that_changed_them(measured):
    for branch, tape, _, _ in measured.pairs():
        expected = []
        for stock, moments in enumerate(tape.moments):
            last = {moment[0]: moment for moment in moments}
            before = (0, 0, 0, 0)
            for event, time, _, bids, asks in last.values():
                now = (*(bids[0] if bids else (0, 0)), *(asks[0] if asks else (0, 0)))
                if now != before:
                    expected.append((event, time, stock, *now))
                before = now
        found = branch.top()
        assert list(found.itertuples(index=False, name=None)) == sorted(expected)
        assert list(found) == ["event", "time", "stock", "bid", "bid_shares", "ask", "ask_shares"]


@each_market
def test_best_prices_are_the_first_level_of_the_book(measured):
    for branch in measured.bundle.branches.values():
        book = branch.book(levels=1)
        columns = [book[name].tolist() for name in ("event", "stock", "bid_1", "bid_shares_1", "ask_1", "ask_shares_1")]
        last = {(event, stock): prices for event, stock, *prices in zip(*columns) if event > 0}
        expected, before = [], {}
        for (event, stock), prices in last.items():
            if prices != before.get(stock, [0, 0, 0, 0]):
                expected.append([event, stock, *prices])
            before[stock] = prices
        found = branch.top()[["event", "stock", "bid", "bid_shares", "ask", "ask_shares"]]
        assert found.to_numpy().tolist() == sorted(expected)


@each_market
def test_effective_is_realised_spread_and_impact_trade_by_trade(measured):
    for branch, tape, _, _ in measured.pairs():
        frame = measures.trade_spreads(branch, measured.horizon)
        assert len(frame) == len(branch.trades) == len(tape.trades)
        known = frame[frame.realised.notna() & frame.impact.notna()]
        assert (known.effective == known.realised + known.impact).all()
        assert frame.index.tolist() == branch.trades.index.tolist()
        assert frame.event.tolist() == branch.trades.event.tolist()


@each_market
def test_lives_part_the_orders_and_agree_with_the_closing(measured):
    for branch, _, found, _ in measured.pairs():
        frame = measures.lives(branch)
        assert len(frame) == len(found) == (branch.orders.kind == "enter").sum()
        for name in ("fate", "on_entry", "executed", "canceled", "open", "rested", "first_fill", "end", "ahead", "bid",
                     "ask", "hidden"):
            assert frame[name].tolist() == [order[name] for order in found], name
    for branch in measured.bundle.branches.values():
        frame = measures.lives(branch)
        counts, closing = frame.fate.value_counts(), branch.closing
        taken = frame[frame.fate.isin(["filled", "canceled", "open"])]
        assert counts.sum() == len(frame)
        assert (taken.executed + taken.canceled + taken.open == taken.shares).all()
        assert counts["ignored"] == closing.counts["ignored_enters"]
        assert counts["open"] == len(closing.orders) and frame.open.sum() == closing.orders.open.sum()
        assert len(taken) <= closing.counts["orders"] <= len(taken) + counts["unheard"]
        known = taken[taken.reference > 0].reference
        assert known.is_unique and (known <= closing.counts["orders"]).all()


@each_market
def test_who_is_filled_next_has_nobody_before_it(measured):
    for branch, tape, _, _ in measured.pairs():
        assert {ahead for _, _, ahead in tape.fills} <= {0}
        for event, reference, ahead in tape.fills:
            path = measures.queue_path(branch, reference)
            fill = path[(path.event == event) & (path.open.diff() < 0)]
            assert fill.ahead.tolist() == [ahead] == [0]
            assert path.ahead.is_monotonic_decreasing and path.open.iloc[-1] >= 0
        frame = measures.lives(branch)
        for row in frame[frame.ahead >= 0].itertuples():
            path = measures.queue_path(branch, row.reference)
            assert (path.event.iloc[0], path.ahead.iloc[0], path.open.iloc[0]) == (row.event, row.ahead, row.rested)
            assert path.open.iloc[-1] == row.open
            assert ((path.ahead.diff() != 0) | (path.open.diff() != 0)).all()


@each_market
def test_profits_and_fees_add_up_to_nothing_and_to_the_closing(measured):
    start = [0] + [entry.get("cash", 0) for entry in measured.entry["agent"] for _ in range(entry.get("count", 1))]
    for branch, _, _, after in measured.pairs():
        for since in {0, after}:
            for mark in ("mid", "last", "value"):
                frame = measures.profits(branch, measured.study, mark=mark, after=since)
                assert sum(frame.profit) + sum(frame.fees) == 0
        whole, closing = measures.profits(branch, measured.study), branch.closing
        assert sum(whole.fees) == sum(closing.stocks.fees) == branch.trades.fees.sum()
        if (branch.trades.resting >= 0).all():
            settled = [cash - first for cash, first in zip(closing.agents.cash[1:], start[1:])]
            assert settled == [cash - fees for cash, fees in zip(whole.cash, whole.fees)]
        numbers = measures.NAMES["profit"].compute(branch, study=measured.study)
        assert set(numbers) >= {f"profit_{entry['kind']}" for entry in measured.entry["agent"]}


@each_market
def test_marked_profits_are_those_of_plain_loops(measured):
    """What each agent has at the end, less what it had at the fork, each marked at the price of its own moment."""
    for branch, tape, _, after in measured.pairs():
        fees = iter(measures.accounts(branch, measured.study).fee)
        sides = []
        for (event, _, stock, sign, price, shares, aggressor, _), resting in zip(tape.trades, branch.trades.resting):
            sides += [(agent, event, stock, way * shares, price, next(fees))
                      for agent, way in ((aggressor, sign), (resting, -sign))]
        values = {event: [2 * int(branch.value_at(symbol, [event], measured.study)[0]) if event else 0
                          for symbol in branch.symbols] for event in {0, after, middle_trade(tape), len(tape.times)}}
        for mark in ("mid", "last", "value"):
            for since in {0, after, middle_trade(tape)}:
                frame = measures.profits(branch, measured.study, mark=mark, after=since).set_index("agent")
                marks = {event: [doubled(tape, stock, event, mark) if mark != "value" else values[event][stock]
                                 for stock in range(len(branch.symbols))] for event in (since, len(tape.times))}
                for agent in frame.index:
                    own = [side for side in sides if side[0] == agent]
                    late = [side for side in own if side[1] > since]
                    cash, paid = -sum(100 * side[3] * side[4] for side in late), sum(side[5] for side in late)
                    first, last = (sum(50 * of[side[2]] * side[3] for side in own if side[1] <= event)
                                   for event, of in marks.items()) if len(marks) == 2 else (0, 0)
                    assert frame.loc[agent, ["cash", "fees", "marked", "profit"]].tolist() == [
                        cash, paid, last - first, cash - paid + last - first]


def middle_trade(tape):
    """The event of the trade in the middle of a run, 0 where there is none."""
    return tape.trades[len(tape.trades) // 2][0] if tape.trades else 0


def doubled(tape, stock, event, mark):
    """Twice the price at which a stock is marked after an event."""
    mids = [bids[0][0] + asks[0][0] for number, _, _, bids, asks in {
        moment[0]: moment for moment in tape.moments[stock]}.values() if number <= event and bids and asks]
    prices = [trade[4] for trade in tape.own_trades(stock, 0) if trade[0] <= event]
    return mids[-1] if mids and mark == "mid" else 2 * prices[-1] if prices else 0


@each_market
def test_accounts_end_as_the_closing_has_them(measured):
    for branch, _, _, _ in measured.pairs():
        frame = measures.accounts(branch)
        assert (frame.cash == -100 * frame.price * frame.shares).all() and len(frame) == 2 * len(branch.trades)
        held = {}
        for pair in zip(*[frame.itertuples()] * 2):
            for row in pair:
                held[row.agent] = held.get(row.agent, 0) + row.cash
            assert [row.balance for row in pair] == [held[row.agent] for row in pair]
        last = frame[frame.agent >= 0].drop_duplicates(["agent", "stock"], keep="last")
        for row in last.itertuples():
            if (branch.trades.resting >= 0).all():
                assert row.position == branch.closing.agents[f"position_{branch.symbols[row.stock]}"][row.agent]


@each_market
def test_agents_measures_are_those_of_plain_loops(measured):
    kinds = {number: kind for number, kind, _ in measured.study.traders}
    for branch, tape, _, after in measured.pairs():
        income = measures.NAMES["maker_income"].compute(branch, study=measured.study, horizon=measured.horizon,
                                                        after=after)
        names = [f"{name}_{kind}" for name in ("earned", "lost", "kept") for kind in kinds.values()]
        expected = dict.fromkeys(names, 0.0)
        resting = dict(zip(zip(branch.trades.event, branch.trades.match), branch.trades.resting))
        matches = iter(resting.values())
        for trade, agent in zip(tape.trades, matches):
            effective, realised, impact, shares, _ = plain_measures.spreads(
                PlainOne(tape, trade), trade[2], 0, measured.horizon)[0]
            if trade[0] > after and not math.isnan(realised + impact):
                for name, value in (("earned", effective), ("lost", impact), ("kept", realised)):
                    key = f"{name}_{kinds.get(agent, 'unknown')}"
                    expected[key] = expected.get(key, 0.0) + 50 * shares * value
        same(income, expected)
        for since in {after, middle_trade(tape)}:
            held = measures.NAMES["inventory"].compute(branch, study=measured.study, after=since)
            same(held, inventories(branch, tape, kinds, since))


class PlainOne:
    """A tape with one of its trades alone."""

    def __init__(self, tape, trade):
        self.tape, self.trade = tape, trade
        self.window, self.before, self.at = tape.window, tape.before, tape.at

    def own_trades(self, stock, after):
        return [self.trade]


def inventories(branch, tape, kinds, after):
    """Positions summed over each nanosecond of the window, from one trade to the next."""
    start, end = tape.window(after)
    numbers = {}
    for stock in range(len(branch.symbols)):
        of_kinds = {kind: [] for kind in kinds.values()}
        for agent, kind in kinds.items():
            position, time, area, most = 0, start, 0, None
            for row in branch.trades[branch.trades.stock == stock].itertuples():
                sign = 1 if row.side == "B" else -1
                change = sign * row.shares * ((row.aggressor == agent) - (row.resting == agent))
                if row.event > after:
                    most = abs(position) if most is None else max(most, abs(position))
                    area += abs(position) * (row.time - time)
                    time = row.time
                position += change
                most = max(most, abs(position)) if row.event > after else None
            most = abs(position) if most is None else most
            area += abs(position) * (end - time)
            of_kinds[kind].append((area / (end - start) if end > start else float(abs(position)), float(most)))
        for kind, pairs in of_kinds.items():
            numbers |= named(branch, stock, {f"inventory_{kind}": sum(mean for mean, _ in pairs) / len(pairs),
                                             f"inventory_most_{kind}": max(most for _, most in pairs)})
    return numbers


@each_market
def test_a_comparison_has_each_branch_beside_its_parent_behind_the_fork(measured):
    wanted = ["effective_spread", {"name": "realised_spread", "horizon": measured.horizon}]
    frame = measured.bundle.compare(wanted)
    assert list(frame) == ["branch", "measure", "value", "parent", "difference", "unit"]
    for name, branch in measured.bundle.branches.items():
        own = frame[frame.branch == name].set_index("measure")
        numbers = [measures.find(each).compute(of, after=branch.fork) for each in wanted
                   for of in (branch, measured.bundle.branches[branch.parent or name])]
        same(own.value.to_dict(), numbers[0] | numbers[2])
        if branch.parent is not None:
            same(own.parent.to_dict(), numbers[1] | numbers[3])
            same(own.difference.to_dict(), {key: own.value[key] - own.parent[key] for key in own.index})
        else:
            assert own.parent.isna().all() and own.difference.isna().all()
    assert set(frame.unit) <= {"0.0001 dollars", "basis points"}


# ---------------------------------------------------------------- naming, settings, and what is refused

@pytest.fixture(scope="module")
def root(market):
    return biqsolur.read(market.bundle).branches["root"]


one_market = pytest.mark.parametrize("market", [3], indirect=True)


@one_market
def test_measures_are_found_by_each_way_of_naming_them(root, tmp_path):
    assert measures.find("effectiveSpread") is measures.NAMES["effective_spread"]
    bound = measures.find({"name": "realized_spread", "horizon": "5ms"})
    same(bound.compute(root), measures.NAMES["realised_spread"].compute(root, horizon=5_000_000))
    assert measures.find(len_of_trades).compute(root) == {"len_of_trades": len(root.trades)}
    (tmp_path / "mine.py").write_text("def both(branch, after=0):\n"
                                      "    return {'trades': len(branch.trades), 'after': after}\n")
    mine = measures.find("mine.py:both", tmp_path)
    assert mine.compute(root, after=3, stock=None) == {"trades": len(root.trades), "after": 3}
    assert mine.unit("trades") == "" and measures.NAMES["profit"].unit("profit_maker") == "0.000001 dollars"


def len_of_trades(branch):
    return len(branch.trades)


@one_market
@pytest.mark.parametrize("wanted, said", [
    ("no_such", "no measure 'no_such'; there are quoted_spread"), ({"horizon": "1s"}, "has no name"),
    ({"name": "effective_spread", "horizon": "1s"}, "effective_spread has no setting 'horizon'; it has after, stock"),
    ("absent.py:profit", "there is no file"), (7, "no measure 7"),
])
def test_an_unknown_measure_is_refused(market, wanted, said):
    with pytest.raises(MeasureError, match=said):
        measures.find(wanted)


@one_market
@pytest.mark.parametrize("name, settings, said", [
    ("quoted_spread", {"after": -1}, "after = -1: take a whole number, 0 or more"),
    ("quoted_spread", {"stock": "NONE"}, "no stock 'NONE'"),
    ("realised_spread", {"horizon": -5}, "horizon = -5"), ("realised_spread", {"horizon": "soon"}, "soon"),
    ("realised_variance", {"interval": 0}, "interval = 0"), ("displayed_depth", {"levels": 0}, "levels = 0: take"),
    ("imbalance", {"levels": 2.5}, "levels = 2.5: take a whole number, 1 or more"),
    ("profit", {}, "needs the study"), ("autocorrelation", {"lag": 0}, "lag = 0: take a whole number, 1 or more"),
    ("effective_spread", {"colour": 1}, "has no setting 'colour'"),
])
def test_a_setting_that_cannot_be_is_refused(root, name, settings, said):
    with pytest.raises(InputError, match=said):
        measures.NAMES[name].compute(root, **settings)


@one_market
@pytest.mark.parametrize("after", [-1, 2.5, "5", True])
def test_events_are_whole_numbers_to_every_measure(root, market, after):
    for measure in measures.NAMES.values():
        with pytest.raises(MeasureError, match="after = .*: take a whole number, 0 or more"):
            measure.compute(root, after=after, study=Study(market.study, folder=market.folder))
    for frame in (measures.order_flows, measures.trade_flows, measures.signature_plot, measures.fills_by_distance):
        with pytest.raises(MeasureError, match="after = "):
            frame(root, after=after)


@one_market
def test_more_is_refused_in_words(root, market, tmp_path):
    with pytest.raises(MeasureError, match="none of the measures .* has a setting 'horizon'"):
        root.bundle.compare("effective_spread", horizon=1)
    with pytest.raises(MeasureError, match="has no function nothing"):
        (tmp_path / "mine.py").write_text("other = 1\n")
        measures.find("mine.py:nothing", tmp_path)
    with pytest.raises(MeasureError, match="has to answer a number"):
        measures.find(lambda branch: "much").compute(root)
    with pytest.raises(MeasureError, match="added no order 987654"):
        measures.queue_path(root, 987654)
    with pytest.raises(StudyNeededError, match="is not the study of"):
        measures.profits(root, Study.read(biqsolur_example("fees.toml")))
    with pytest.raises(MeasureError, match="lags = 0: take a whole number, 1 or more"):
        measures.autocorrelations(root, 0)
    with pytest.raises(MeasureError, match="take one of mid, last, value"):
        measures.profits(root, Study(market.study, folder=market.folder), mark="guess")


def biqsolur_example(name):
    from conftest import ROOT
    return ROOT / "examples" / name


@one_market
def test_what_is_kept_is_given_up(root):
    assert measures.lives(root) is measures.lives(root)
    kept = measures.lives(root)
    root.forget()
    assert measures.lives(root) is not kept and measures.lives(root).equals(kept)


def enter(token, side, shares, price, force, display):
    """The bytes of an Enter for ABM."""
    return (b"O" + token.ljust(14) + side + shares.to_bytes(4, "big") + b"ABM     " + price.to_bytes(4, "big")
            + force.to_bytes(4, "big") + b"ABID" + display + b"PN" + bytes(4) + b"NN")


def test_fates_at_the_very_end_are_those_that_feed_and_closing_tell(program):
    """Half a second before the close no reply is heard any more: a hidden order and its part cancel stand in the
    closing, a displayed order in the feed, and of an order with time in force 0 that met nothing neither tells."""
    study = Study.read(biqsolur_example("worked_market.toml")).without_branch("worked").in_version_2()
    messages = [enter(b"HIDDEN", b"B", 900, 99_800, 99_999, b"N"),
                b"X" + b"HIDDEN".ljust(14) + (400).to_bytes(4, "big"),
                enter(b"SHOWN", b"B", 50, 99_700, 99_999, b"Y"), enter(b"NOTHING", b"B", 70, 99_900, 0, b"Y"),
                enter(b"SHOWN", b"B", 60, 99_700, 99_999, b"Y"), enter(b"TAKES", b"S", 100, 99_800, 0, b"Y")]
    edits = [biqsolur.Inject(1, message, after=f"{18_700 + place}ms") for place, message in enumerate(messages)]
    branch = biqsolur.run(study.branch("late", after=12, edits=edits), program=program, cache=False).branches["late"]
    frame = measures.lives(branch)
    assert not (branch.replies.handled >= 34_219_700_000_000).any()
    assert frame.fate.tolist() == ["open", "open", "unheard", "ignored", "filled"]
    assert frame[["executed", "canceled", "open", "rested"]].values.tolist() == [
        [100, 500, 300, 900], [0, 0, 50, 50], [0, 0, 0, 0], [0, 0, 0, 0], [100, 0, 0, 0]]
    assert measures.NAMES["order_fates"].compute(branch)["orders_unheard"] == 1


@pytest.mark.parametrize("change, edit", [(True, None), (False, 25), (True, 25), (False, 32), (True, 32)])
def test_fees_change_with_the_very_event(program, change, edit):
    """A dated change of fees at the nanosecond of a trade holds for it, also where an edit stands right before its
    event; an edit behind a trade's event does not."""
    table = Study.read(biqsolur_example("worked_market.toml")).to_dict()
    if change:
        table["change"] = [{"time": 34_209_000_000_000, "stock": "ABM", "kind": "fee", "add": 7, "take": 11}]
    study = Study(table)
    if edit:
        study = study.branch("free", parent="worked", after=edit, edits=[biqsolur.Fee("ABM", 0, 0)])
    branch = list(biqsolur.run(study, program=program, cache=False).branches.values())[-1]
    added, taken = measures.agents.fees_of(branch, study)
    late = (7, 11) if change else (0, 0)
    rates = [(-2000, 3000)] * 3 + [late] * 3
    assert branch.trades.event.tolist()[:4] == [21, 25, 25, 33]
    assert list(zip(added // branch.trades.shares, taken // branch.trades.shares)) == rates
    assert (added + taken).tolist() == branch.trades.fees.tolist()
    assert measures.accounts(branch, study).fee.sum() == branch.trades.fees.sum()


def test_a_branch_that_begins_behind_its_parents_end_is_compared_from_there(program):
    """The parent has 57 events, and the branch leaves it at 150: what counts is what comes behind event 57."""
    study = Study.read(biqsolur_example("worked_market.toml"))
    sale = biqsolur.Inject(3, enter(b"LATE", b"S", 100, 99_700, 0, b"Y"))
    study = study.branch("revived", parent="worked", after=150, edits=[sale])
    bundle = biqsolur.run(study, program=program, cache=False)
    branch = bundle.branches["revived"]
    assert (branch.stop, branch.fork, len(branch.events)) == (150, 57, 58)
    frame = bundle.compare("effective_spread").set_index(["branch", "measure"])
    assert frame.value["revived", "effective_spread"] == 400        # twice from 9.99 to 9.97
    assert math.isnan(frame.parent["revived", "effective_spread"])


@pytest.mark.parametrize("most", [10**17, 2**62])
def test_sums_of_cash_stay_exact(most):
    """Each group's own, also where they leave 64 bits."""
    values = [most, -7, most - 1, 3, most, -most, 2**31, -(2**31), most, -1]
    groups = [1, 1, 2, 2, 1, 2, 1, 2, 1, 2]
    expected = [sum(value for value, of in zip(values[:place + 1], groups) if of == groups[place])
                for place in range(10)]
    found = measures.agents.running_sums(pandas.Series(groups), pandas.Series(values))
    assert found.tolist() == expected
    assert measures.agents.exact_sums(pandas.Series(groups), pandas.Series(values)) == {1: expected[8], 2: expected[9]}
    assert found.dtype == (object if most == 2**62 else numpy.int64)


def test_the_exchange_remembers_so_many_pairs_and_no_more():
    """An order under a remembered pair is ignored; once 131,072 are remembered, one under another pair is rejected."""
    pairs = [*range(131_074), 5, 131_071, 131_072, 131_080, 131_080]
    orders = measures.orders.Entered(*[None] * 11, numpy.array(pairs))
    remembered, again, full = set(), [], []
    for pair in pairs:
        again.append(pair in remembered)
        full.append(pair not in remembered and len(remembered) == 131_072)
        if not (again[-1] or full[-1]):
            remembered.add(pair)
    found = measures.orders.repeats(orders)
    assert found[1].tolist() == again and found[2].tolist() == full
    assert sum(again) == 2 and sum(full) == 5
