"""Facts: each number against a plain loop or a law that is known, the judgement over tapes, the command and its
files."""

import json
import math
import re
import subprocess
from itertools import groupby

import numpy
import pytest

import biqsolur
import studies
from biqsolur import facts
from biqsolur.__main__ import main
from biqsolur.errors import FactsError, TapeError
from biqsolur.facts import catalogue, curves, flow, judgement, page, returns
from biqsolur.facts.tape import ADDED, DELETED, EXECUTED, HIDDEN, REDUCED, Tape

SECOND = 10**9
SEEDS = range(12)


@pytest.fixture(scope="module")
def bundles(program, tmp_path_factory):
    """Bundles of small random markets, some with hidden orders and several stocks."""
    out = []
    for seed in SEEDS:
        study, series = studies.make_study(seed)
        folder = tmp_path_factory.mktemp("facts")
        (folder / "study.toml").write_text(studies.toml(study))
        if series is not None:
            (folder / study["series"]).write_text(series)
        with open(folder / "study.bundle", "wb") as file:
            subprocess.run([program, "run", "study.toml"], cwd=folder, stdout=file, check=True)
        out.append(biqsolur.read(folder / "study.bundle"))
    return out


@pytest.fixture(scope="module")
def hour(program, tmp_path_factory):
    """The bundle of a market of an hour in which all five kinds but watchers trade."""
    folder = tmp_path_factory.mktemp("hour")
    (folder / "study.toml").write_text(HOUR)
    with open(folder / "study.bundle", "wb") as file:
        subprocess.run([program, "run", "study.toml"], cwd=folder, stdout=file, check=True)
    return folder / "study.toml", biqsolur.read(folder / "study.bundle")


def agent(kind, count, every, **own):
    words = {"kind": f'"{kind}"', "group": 0, "stock": '"ABM"', "first": 34_200 * SECOND, "every": every * SECOND // 10,
             "wobble": SECOND, "count": count, "spread": every * SECOND // 10 // count, "size": 100, **own}
    return "[[agent]]\n" + "\n".join(f"{name} = {value}" for name, value in words.items()) + "\n"


HOUR = studies.steady_market(1_800) + agent("maker", 2, 20, half=100, step=100, levels=2, pause=0) + agent("value", 10, 200, noise=300, margin=300) \
    + agent("noise", 10, 100) + agent("momentum", 8, 100, short=2, long=6)


def tapes_of(bundles):
    for bundle in bundles:
        for branch in bundle.branches.values():
            for symbol in bundle.symbols:
                yield branch, facts.tape_of_branch(branch, symbol)


# ---------------------------------------------------------------- tapes

def test_a_tape_has_the_messages_and_best_prices_of_the_feed(bundles):
    rows = 0
    for branch, tape in tapes_of(bundles):
        book = branch.book(levels=1)
        own = book[(book.symbol == tape.name) & book.kind.isin(list("AEXDP"))]
        for name in ("bid", "bid_shares", "ask", "ask_shares"):
            assert getattr(tape, name).tolist() == own[f"{name}_1"].tolist()
        feed = branch.feed.loc[own.index]
        assert tape.time.tolist() == feed.time.tolist() and tape.reference.tolist() == feed.reference.tolist()
        assert [" AXDEP"[kind] for kind in tape.kind] == feed.kind.tolist()
        rows += len(own)
    assert rows > 2_000


def test_a_tape_of_lobsters_files_is_the_branchs_own(bundles, tmp_path):
    hidden = 0
    for place, bundle in enumerate(bundles):
        branch = list(bundle.branches.values())[-1]
        biqsolur.to_lobster(tmp_path / str(place), branch, 3)
        for symbol in bundle.symbols:
            name = biqsolur.output.plain_name(symbol, bundle.symbols.index(symbol), "stock")
            pair = [tmp_path / str(place) / f"{name}_{kind}_3.csv" for kind in ("message", "orderbook")]
            tape = facts.tape_of_branch(branch, symbol)
            if not len(tape.time):
                continue
            other = facts.tape_of_lobster(*pair)
            for field in ("time", "kind", "reference", "shares", "price", "direction", "bid", "bid_shares", "ask",
                          "ask_shares"):
                assert getattr(tape, field).tolist() == getattr(other, field).tolist(), field
            assert same(facts.numbers_of(tape), facts.numbers_of(other))
            hidden += (tape.kind == HIDDEN).sum()
    assert hidden > 0


def same(first, second):
    return first.keys() == second.keys() and all(
        first[name] == second[name] or (math.isnan(first[name]) and math.isnan(second[name])) for name in first)


@pytest.mark.parametrize("message, book, said", [
    ("34200.1,1,5,100,1000000,1\n", "1000100,50,1000000,100\n1,1,1,1\n", "1 rows and .* 2: they are not of one market"),
    ("34200.2,1,5,100,1000000,1\n34200.1,1,6,100,1000000,1\n", "1,1,1,1\n1,1,1,1\n", "row 2 is earlier"),
    ("34200.1,1,5,100\n", "1,1,1,1\n", "6 columns of numbers"),
    ("time,type,a,b,c,d\n", "1,1,1,1\n", "6 columns of numbers"),
    ("", "1,1,1,1\n", "is empty"), ("34200.1,1,5,100,1000000,1\n", "1,1,x,1\n", "4 columns of numbers")])
def test_files_that_are_no_tape(tmp_path, message, book, said):
    (tmp_path / "m.csv").write_text(message)
    (tmp_path / "o.csv").write_text(book)
    with pytest.raises(TapeError, match=said):
        facts.tape_of_lobster(tmp_path / "m.csv", tmp_path / "o.csv")


def test_crosses_halts_and_empty_sides_of_lobsters_files(tmp_path):
    (tmp_path / "m.csv").write_text("34200.000000001,7,0,0,-1,-1\n34200.5,1,5,100,1000000,1\n"
                                    "34201.25,6,-1,10,1000000,-1\n34201.5,1,6,30,1000200,-1\n"
                                    "34203.123456789,4,6,30,1000200,-1\n")
    (tmp_path / "o.csv").write_text("9999999999,0,-9999999999,0\n9999999999,0,1000000,100\n9999999999,0,1000000,100\n"
                                    "1000200,30,1000000,100\n9999999999,0,1000000,100\n")
    tape = facts.tape_of_lobster(tmp_path / "m.csv", tmp_path / "o.csv")
    assert tape.time.tolist() == [34_200_500_000_000, 34_201_500_000_000, 34_203_123_456_789]
    assert tape.ask.tolist() == [0, 1_000_200, 0] and tape.bid.tolist() == [1_000_000] * 3
    assert tape.ask_shares.tolist() == [0, 30, 0] and tape.two_sided.tolist() == [False, True, False]
    assert numpy.isnan(tape.mid[0]) and tape.mid[1:].tolist() == [1_000_100.0, 1_000_100.0]
    assert tape.span == (34_202 * SECOND, 34_203 * SECOND)


def test_a_stock_that_is_not_there(bundles):
    with pytest.raises(TapeError, match="no stock 'NONE'"):
        facts.tape_of_branch(bundles[0].branches["root"], "NONE")


# ---------------------------------------------------------------- numbers against plain loops

def plain_mids(tape, seconds):
    """Mid prices on the grid, row by row."""
    begin, end = tape.span
    out, row, mid = [], 0, None
    for instant in range(begin, end + 1, seconds * SECOND) if end > begin else []:
        while row < len(tape.time) and tape.time[row] <= instant:
            if tape.bid[row] > 0 and tape.ask[row] > 0:
                mid = (int(tape.bid[row]) + int(tape.ask[row])) / 2
            row += 1
        out.append(mid)
    return out


def plain_orders(tape):
    """Time, sign and shares of each order that took, and its life and end of each that rested."""
    rows = [(int(time), -int(direction), int(shares)) for time, kind, direction, shares
            in zip(tape.time, tape.kind, tape.direction, tape.shares) if kind in (EXECUTED, HIDDEN)]
    took = [(time, sign, sum(shares for _, _, shares in group))
            for (time, sign), group in groupby(rows, lambda row: row[:2])]
    resting, ended = {}, []
    columns = (tape.time.tolist(), tape.kind, tape.reference.tolist(), tape.shares.tolist())
    for time, kind, reference, shares in zip(*columns):
        if kind == ADDED:
            resting[reference] = [time, shares]
        elif kind in (REDUCED, DELETED, EXECUTED):
            resting[reference][1] -= shares
            if resting[reference][1] == 0:
                ended.append((resting.pop(reference)[0], time, kind != EXECUTED))
    return took, ended


def test_returns_and_orders_are_those_of_plain_loops(bundles, hour):
    tapes = [tape for _, tape in tapes_of(bundles)] + [facts.tape_of_branch(hour[1].branches["root"])]
    for tape in tapes:
        for seconds in (1, 10):
            mids = plain_mids(tape, seconds)
            wanted = [math.log(after) - math.log(before) for before, after in zip(mids, mids[1:])]
            assert numpy.allclose(returns.returns(tape, seconds), wanted, rtol=0, atol=1e-14)
        took, ended = plain_orders(tape)
        takes, lives = flow.takes(tape), flow.lives(tape)
        assert list(zip(takes.time.tolist(), takes.sign.tolist(), takes.shares.tolist())) == took
        wanted = [((end - begin) / SECOND, canceled) for begin, end, canceled in sorted(ended)]
        assert sorted(zip(lives.life.tolist(), lives.canceled.tolist())) == sorted(wanted)
    assert len(took) > 500 and len(ended) > 1_000


def test_lives_by_hand():
    """Of three orders one is canceled in two parts, as LOBSTER may tell it, one executed, and one stays."""
    rows = [(1, ADDED, 7, 100), (2, ADDED, 8, 50), (3, REDUCED, 7, 40), (4, ADDED, 9, 10), (6, EXECUTED, 8, 50),
            (11, REDUCED, 7, 60), (12, EXECUTED, 9, 4)]
    time, kind, reference, shares = map(numpy.array, zip(*rows))
    ones = numpy.ones(len(rows), numpy.int64)
    lives = flow.lives(Tape("X", time * SECOND, kind, reference, shares, ones, ones, ones, ones, ones, ones))
    assert (lives.added, lives.life.tolist(), lives.canceled.tolist()) == (3, [10.0, 4.0], [True, False])


def test_an_order_that_takes_two_prices_by_hand():
    """One order takes both asks, and its impact is that of both."""
    rows = [(1, ADDED, 7, 100, 1, 90, 0), (2, ADDED, 8, 50, -1, 90, 110), (3, ADDED, 9, 50, -1, 90, 110),
            (4, EXECUTED, 8, 50, -1, 90, 120), (4, EXECUTED, 9, 20, -1, 90, 130), (4, EXECUTED, 7, 10, 1, 80, 130)]
    time, kind, reference, shares, direction, bid, ask = map(numpy.array, zip(*rows))
    ones = numpy.ones(len(rows), numpy.int64)
    takes = flow.takes(Tape("X", time * SECOND, kind, reference, shares, ones, direction, bid, ones, ask, ones))
    assert (takes.time // SECOND).tolist() == [4, 4]
    assert (takes.sign.tolist(), takes.shares.tolist()) == ([1, -1], [70, 10])
    assert (takes.before.tolist(), takes.after.tolist()) == ([100.0, 110.0], [110.0, 105.0])


def test_spread_depth_and_volume_are_those_of_plain_loops(hour):
    tape = facts.tape_of_branch(hour[1].branches["root"])
    begin, end = tape.span
    edges = [min(max(int(time), begin), end) for time in tape.time] + [end]
    total, spread, depths = 0, 0.0, []
    for row in range(len(tape.time)):
        length = edges[row + 1] - edges[row]
        if length and tape.bid[row] and tape.ask[row]:
            total += length
            spread += length * (tape.ask[row] - tape.bid[row]) / (tape.ask[row] + tape.bid[row]) * 2
            depths += [(length, tape.bid_shares[row]), (length, tape.ask_shares[row])]
    subject = catalogue.Subject(tape)
    assert math.isclose(catalogue.mean_spread(subject), spread / total * 10_000, rel_tol=1e-9)
    mean = sum(length * shares for length, shares in depths) / total / 2
    square = sum(length * (shares - mean)**2 for length, shares in depths) / total / 2
    assert math.isclose(catalogue.depth_dispersion(subject), math.sqrt(square) / mean, rel_tol=1e-9)
    traded = {}
    for time, kind, shares in zip(tape.time.tolist(), tape.kind, tape.shares.tolist()):
        if kind == EXECUTED and begin < time <= end:
            traded[-(-(time - begin) // (10 * SECOND))] = traded.get(-(-(time - begin) // (10 * SECOND)), 0) + shares
    volumes = returns.volumes(tape, 10).tolist()
    assert volumes == [traded.get(place, 0) for place in range(1, len(volumes) + 1)] and sum(volumes) > 10_000


def plain_autocorrelation(values, lag):
    mean = sum(values) / len(values)
    return (sum((late - mean) * (early - mean) for early, late in zip(values, values[lag:]))
            / sum((value - mean)**2 for value in values))


def plain_kurtosis(values):
    mean = sum(values) / len(values)
    second, fourth = (sum((value - mean)**power for value in values) / len(values) for power in (2, 4))
    return fourth / second**2 - 3


def part_below(values, part):
    """The quantile of values on a straight line between its two neighbours."""
    ordered, place = sorted(values), part * (len(values) - 1)
    low = math.floor(place)
    return ordered[low] + (place - low) * (ordered[min(low + 1, len(ordered) - 1)] - ordered[low])


def plain_impact(tape):
    """The slope of a line through log mean size and log mean impact of ten groups of orders by size."""
    mids, last = [math.nan], math.nan           # before each message, and after the last one
    for bid, ask in zip(tape.bid.tolist(), tape.ask.tolist()):
        last = (bid + ask) / 2 if bid and ask else last
        mids.append(last)
    rows = [row for row, kind in enumerate(tape.kind) if kind in (EXECUTED, HIDDEN)]
    orders = []
    for _, group in groupby(rows, lambda row: (tape.time[row], tape.direction[row])):
        group = list(group)
        impact = -int(tape.direction[group[0]]) * math.log(mids[group[-1] + 1] / mids[group[0]])
        orders.append((sum(int(tape.shares[row]) for row in group), impact))
    orders = sorted((order for order in orders if not math.isnan(order[1])), key=lambda order: order[0])
    size, longer = divmod(len(orders), 10)
    points = []
    for place in range(10):
        start = place * size + min(place, longer)
        group = orders[start:start + size + (place < longer)]
        shares, impact = (sum(column) / len(group) for column in zip(*group))
        if impact > 0:
            points.append((math.log(shares), math.log(impact)))
    across, up = (sum(column) / len(points) for column in zip(*points))
    return sum((x - across) * (y - up) for x, y in points) / sum((x - across)**2 for x, _ in points)


def test_each_number_is_what_its_words_say(hour):
    """From the words of the catalogue, by plain loops; spread and depth have a test of their own."""
    tape = facts.tape_of_branch(hour[1].branches["root"])
    mids = {seconds: plain_mids(tape, seconds) for seconds in (1, 10, 60)}
    seconds, tens, minutes = ([math.log(after / before) for before, after in zip(part, part[1:])]
                              for part in mids.values())
    took, ended = plain_orders(tape)
    gaps = [(late[0] - early[0]) / SECOND for early, late in zip(took, took[1:]) if late[0] > early[0]]
    lives = [(end - begin) / SECOND for begin, end, _ in ended]
    canceled = [end - begin for begin, end, by_cancel in ended if by_cancel]
    signs, loud = [sign for _, sign, _ in took], [abs(value) for value in tens]
    volumes = returns.volumes(tape, 10)
    wanted = {
        "kurtosis_60s_part": plain_kurtosis(minutes) / plain_kurtosis(seconds),
        "returns_5_to_20s": max(abs(plain_autocorrelation(seconds, lag)) for lag in range(5, 21)),
        "returns_60s": plain_autocorrelation(minutes, 1),
        "absolute_10s": plain_autocorrelation(loud, 1),
        "absolute_60_to_100s": sum(plain_autocorrelation(loud, lag) for lag in (6, 7, 8, 9, 10)) / 5,
        "percentiles_10s": part_below(tens, 0.95) / abs(part_below(tens, 0.05)),
        "volume_10s": float(numpy.corrcoef(volumes, loud)[0, 1]),
        "signs_1": plain_autocorrelation(signs, 1), "signs_10": plain_autocorrelation(signs, 10),
        "impact_exponent": plain_impact(tape),
        "duration_dispersion": float(numpy.std(gaps) / numpy.mean(gaps)),
        "canceled": len(canceled) / len(ended),
        "canceled_within_2s": sum(life < 2 * SECOND for life in canceled) / len(canceled),
        "life_mean_over_median": sum(lives) / len(lives) / part_below(lives, 0.5),
    }
    found = facts.numbers_of(tape)
    assert {name: found[name] for name in wanted} == pytest.approx(wanted, rel=1e-6)


def test_returns_that_come_back_after_five_seconds_are_told():
    """The first lag that is looked at."""
    draws = numpy.random.RandomState(8)
    moves = draws.standard_normal(3_605) * 1e-4
    moves[5:] += 0.5 * moves[:-5]
    found = facts.numbers_of(tape_of_prices(1_000 * numpy.exp(numpy.cumsum(moves))))
    assert found["returns_5_to_20s"] > 0.3


def test_curves_of_pictures_are_those_of_plain_loops(hour):
    tape = facts.tape_of_branch(hour[1].branches["root"])
    made = curves.curves_of(tape)
    mids = plain_mids(tape, 1)
    moves = [math.log(after / before) for before, after in zip(mids, mids[1:])]
    mean = sum(moves) / len(moves)
    deviation = math.sqrt(sum((move - mean)**2 for move in moves) / len(moves))
    wanted = [part_below([abs(move - mean) for move in moves], 1 - part) / deviation for part in curves.PARTS]
    assert made["tail"] == pytest.approx(wanted, rel=1e-6) and made["tail"][-1] > made["tail"][0]
    _, ended = plain_orders(tape)
    wanted = [sum((end - begin) / SECOND > least for begin, end, _ in ended) / len(ended) for least in curves.TIMES]
    assert made["lives"] == pytest.approx(wanted)
    begin, end = tape.span
    edges = [min(max(int(time), begin), end) for time in tape.time] + [end]
    states = [(edges[row + 1] - edges[row], 20_000 * int(tape.ask[row] - tape.bid[row])
               / int(tape.ask[row] + tape.bid[row])) for row in range(len(tape.time)) if tape.bid[row] and tape.ask[row]]
    total = sum(length for length, _ in states)
    wanted = [sum(length for length, spread in states if spread >= least) / total for least in curves.SPREADS]
    assert made["spread"] == pytest.approx(wanted, abs=1e-9)


def test_moments_are_those_of_plain_loops():
    values = numpy.random.RandomState(1).standard_t(4, 300)
    mean = sum(values) / 300
    second, third, fourth = (sum((value - mean)**power for value in values) / 300 for power in (2, 3, 4))
    assert math.isclose(returns.excess_kurtosis(values), fourth / second**2 - 3)
    assert math.isclose(returns.skewness(values), third / second**1.5)
    wanted = [sum((values[place] - mean) * (values[place - lag] - mean) for place in range(lag, 300)) / (300 * second)
              for lag in (1, 2, 3)]
    assert numpy.allclose(returns.autocorrelations(values, 3), wanted)
    ordered = sorted(map(abs, values), reverse=True)
    assert math.isclose(returns.hill_index(values), 15 / sum(math.log(value / ordered[15]) for value in ordered[:15]))


# ---------------------------------------------------------------- laws that are known

def tape_of_prices(prices):
    """A tape of a book that moves once a second: a bid and an ask two hundredths of a cent around each price."""
    count = len(prices)
    time = (34_200 + numpy.arange(count)) * SECOND
    flat, mid = numpy.ones(count, numpy.int64), numpy.round(prices * 10_000).astype(numpy.int64)
    return Tape("X", time, flat * ADDED, numpy.arange(count), flat, mid - 1, flat, mid - 1, flat, mid + 1, flat)


def test_a_random_walk_has_none_of_the_facts_of_returns():
    moves = numpy.random.RandomState(2).standard_normal(7_200) * 1e-4
    found = facts.numbers_of(tape_of_prices(1_000 * numpy.exp(numpy.cumsum(moves))))
    assert abs(found["kurtosis_1s"]) < 0.3 and found["hill_1s"] > 5
    assert abs(found["absolute_10s"]) < 0.1 and abs(found["absolute_60_to_100s"]) < 0.05
    assert found["returns_5_to_20s"] < 0.06 and abs(found["skewness_10s"]) < 0.4
    assert math.isnan(found["signs_1"]) and math.isnan(found["impact_exponent"]) and math.isnan(found["canceled"])


def test_tails_and_clusters_that_were_put_in_are_found():
    draws = numpy.random.RandomState(3)
    tails = draws.standard_t(3, 20_000)
    assert 2.4 < returns.hill_index(tails) < 3.6 and returns.excess_kurtosis(tails) > 5
    pareto = (1 - draws.random_sample(20_000)) ** (-1 / 2.5)
    assert abs(returns.hill_index(pareto) - 2.5) < 0.25
    loud = numpy.repeat(numpy.exp(draws.standard_normal(72)), 100)
    moves = draws.standard_normal(7_200) * loud * 1e-4
    found = facts.numbers_of(tape_of_prices(1_000 * numpy.exp(numpy.cumsum(moves))))
    assert found["absolute_10s"] > 0.3 and found["kurtosis_1s"] > 3 and found["absolute_60_to_100s"] > 0.04


def test_persistent_signs_and_a_concave_impact_that_were_put_in_are_found():
    draws, count = numpy.random.RandomState(4), 20_000
    stays = numpy.where(draws.random_sample(count) < 0.75, 1, -1)
    sign, shares = numpy.cumprod(stays), draws.randint(1, 1_000, count)
    before = numpy.full(count, 1_000_000.0)
    after = before * numpy.exp(sign * (1e-5 * shares**0.4 + 1e-5 * draws.standard_normal(count)))
    takes = flow.Takes(numpy.arange(count), sign, shares, before, after)
    assert abs(flow.impact_exponent(takes) - 0.4) < 0.05
    assert numpy.allclose(returns.autocorrelations(sign.astype(float), 3), [0.5, 0.25, 0.125], atol=0.03)
    gaps = numpy.cumsum(draws.weibull(0.7, count))
    timed = flow.Takes((gaps * SECOND).astype(numpy.int64), sign, shares, before, after)
    assert abs(flow.dispersion(flow.durations(timed)) - 1.46) < 0.06


def test_an_empty_tape_has_no_numbers():
    nothing = numpy.zeros(0, numpy.int64)
    assert all(math.isnan(value) for value in facts.numbers_of(Tape("X", *[nothing] * 10)).values())


# ---------------------------------------------------------------- judging

def test_the_interval_of_a_median_covers_it_at_least_so_often():
    assert facts.median_interval([1, 2, 3, 4, 5]) is None
    assert facts.median_interval([6, 5, 4, 3, 2, 1]) == (1, 6)
    assert facts.median_interval(list(range(1, 31))) == (10, 21)       # the tables of nonparametric statistics say so
    for count in range(6, 60):
        low, high = facts.median_interval(list(range(1, count + 1)))
        covered = sum(math.comb(count, below) for below in range(low, high)) / 2**count
        narrower = sum(math.comb(count, below) for below in range(low + 1, high - 1)) / 2**count
        assert low + high == count + 1 and covered >= 0.95 > narrower


def test_a_missing_value_may_be_any():
    values = [float(value) for value in range(1, 30)] + [math.nan]
    assert facts.median_interval(values) == (9, 21)
    assert judgement.middle(values) == 15 and math.isnan(judgement.middle([math.nan]))


def made_facts(values, ranges=None):
    numbers = {name: tuple(values) for name in facts.NUMBERS}
    return facts.Facts("made", tuple(map(str, range(len(values)))), numbers, ranges=ranges or {})


def test_a_fact_is_met_where_the_whole_interval_lies_in_the_range():
    number = facts.NUMBERS["volume_10s"]
    inside = [number.low + (number.high - number.low) * part for part in numpy.linspace(0.2, 0.8, 12)]
    assert made_facts(inside).met["volume_and_volatility"]
    across = [value - (inside[5] - number.low) for value in inside]
    assert number.low <= judgement.middle(across) and not made_facts(across).met["volume_and_volatility"]
    few = made_facts(inside[:5])
    assert few.met["volume_and_volatility"] and few.estimate("volume_10s").interval is None
    assert not made_facts([*inside[:4], math.nan]).met["volume_and_volatility"]
    assert not made_facts([math.nan] * 12).met["volume_and_volatility"]
    ranges = {"volume_10s": (0.0, 0.05)}
    assert not made_facts(inside, ranges).met["volume_and_volatility"]
    assert made_facts([0.01] * 9, ranges).met["volume_and_volatility"]


def test_all_numbers_of_a_fact_have_to_be_in_their_ranges():
    for fact in facts.FACTS:
        values = {name: ((number.low + number.high) / 2,) * 8 for name, number in facts.NUMBERS.items()}
        assert facts.Facts("made", ("a",) * 8, values).is_met(fact)
        for number in fact.numbers:
            for edge, outside in ((number.low, number.low - 0.01), (number.high, number.high + 0.01)):
                assert facts.Facts("made", ("a",) * 8, {**values, number.name: (edge,) * 8}).is_met(fact)
                assert not facts.Facts("made", ("a",) * 8, {**values, number.name: (outside,) * 8}).is_met(fact)


def test_twelve_facts_each_with_a_source_and_ranges_in_order():
    assert len(facts.FACTS) == 12 and len({fact.name for fact in facts.FACTS}) == 12
    assert all(re.search(r"\b(19|20)\d\d\b", fact.source) and fact.numbers for fact in facts.FACTS)
    assert all(number.low < number.high for number in facts.NUMBERS.values())
    assert sum(len(fact.numbers) for fact in facts.FACTS) == len(facts.NUMBERS)


# ---------------------------------------------------------------- a study under keys, the command, its files

@pytest.fixture(scope="module")
def measured(hour, program):
    """The facts of the hour under two keys."""
    return facts.of_study(hour[0], [5, 6], processes=1, program=program, progress=False)


def test_a_study_under_keys_is_measured_as_its_branch_is(hour, measured):
    alone = facts.of_branch(hour[1].branches["root"])
    for name, values in measured.numbers.items():
        assert values[0] == alone.numbers[name][0], name
    assert measured.tapes == ("5", "6") and measured.numbers["spread"][0] != measured.numbers["spread"][1]
    assert not any(math.isnan(value) for values in measured.numbers.values() for value in values)


def test_json_is_read_back_and_gives_ranges(measured, tmp_path):
    (tmp_path / "facts.json").write_text(measured.to_json())
    ranges = facts.ranges_of(tmp_path / "facts.json")
    assert ranges["spread"] == (min(measured.numbers["spread"]), max(measured.numbers["spread"]))
    table = facts.read_facts(tmp_path / "facts.json")
    assert [number["values"] for fact in table["facts"] for number in fact["numbers"]] == [
        list(values) for values in measured.numbers.values()]
    frame = measured.frame()
    assert list(frame.number) == list(facts.NUMBERS) and (frame.tapes == 2).all() and frame.low.isna().all()


def test_the_command_tells_stored_facts_again(measured, tmp_path, capsys):
    (tmp_path / "facts.json").write_text(measured.to_json())
    again = facts.Facts.from_dict(facts.read_facts(tmp_path / "facts.json"))
    assert again.to_json() == measured.to_json()
    assert main(["facts", str(tmp_path / "facts.json")]) == 0 and capsys.readouterr().out == measured.text()
    assert main(["facts", str(tmp_path / "facts.json"), "--ranges", str(tmp_path / "facts.json")]) == 0
    assert "12 of 12 facts met" in capsys.readouterr().out
    assert main(["facts", str(tmp_path / "facts.json"), "--page", str(tmp_path / "p.html")]) == 1
    assert "no curves" in capsys.readouterr().err and not (tmp_path / "p.html").exists()


@pytest.mark.parametrize("text", [
    "", "[]", "{}", '{"facts": [{"numbers": [{"name": "spread"}]}]}', '{"facts": 5}', "\xff"])
def test_a_file_that_has_no_facts(tmp_path, text):
    (tmp_path / "facts.json").write_text(text, "latin1")
    with pytest.raises(FactsError, match="facts.json"):
        facts.read_facts(tmp_path / "facts.json")


def test_facts_without_a_number_give_no_ranges(tmp_path):
    (tmp_path / "facts.json").write_text(made_facts([math.nan] * 3).to_json())
    with pytest.raises(FactsError, match="on no tape"):
        facts.ranges_of(tmp_path / "facts.json")


def test_the_command_over_a_bundle_writes_table_json_and_page(hour, tmp_path, capsys):
    words = ["facts", hour[1].path, "--json", str(tmp_path / "f.json"), "--page", str(tmp_path / "f.html")]
    assert main(words) == 0
    said = capsys.readouterr().out
    met = json.loads((tmp_path / "f.json").read_text())["met"]
    assert said.endswith(f"{met} of 12 facts met: study.bundle, branch root, 1 tape\n")
    text = (tmp_path / "f.html").read_text()
    assert all(f'id="{words[0]}"' in text for words in page.PICTURES)
    own = text[:text.index("<script>")] + text[text.rindex("<script>"):]
    assert not re.search(r"https?://|src=|href=", own) and "Content-Security-Policy" in own
    assert main(words) == 1 and "f.json is there already" in capsys.readouterr().err


def test_the_command_over_lobsters_files_says_what_it_says_of_the_bundle(hour, tmp_path, capsys):
    biqsolur.to_lobster(tmp_path / "out", hour[1].branches["root"], 1)
    pair = [str(tmp_path / "out" / f"ABM_{kind}_1.csv") for kind in ("message", "orderbook")]
    assert main(["facts", "--lobster", *pair, "--lobster", *pair]) == 0
    lines = capsys.readouterr().out.splitlines()
    assert main(["facts", hour[1].path]) == 0
    assert lines[:-1] == capsys.readouterr().out.splitlines()[:-1] and "LOBSTER's files, 2 tapes" in lines[-1]


def test_the_command_over_a_study_with_ranges_of_ones_own(hour, measured, program, tmp_path, capsys):
    (tmp_path / "own.json").write_text(measured.to_json())
    assert main(["facts", str(hour[0]), "--keys", "5,6", "--processes", "1", "--program", program, "--ranges",
                 str(tmp_path / "own.json")]) == 0
    assert f"12 of 12 facts met: {hour[0]}, branch root, 2 tapes" in capsys.readouterr().out


@pytest.mark.parametrize("words, said", [
    ([], "name a study or a bundle"), (["{study}", "--lobster", "a", "b"], "one of both"),
    (["{study}", "--keys", "no"], "--keys no"), (["{study}", "--keys", "9-3"], "--keys 9-3"),
    (["none.toml"], "none.toml"),
    (["{bundle}", "--branch", "no"], "no branch 'no'"), (["{bundle}", "--symbol", "no"], "no stock 'no'"),
    (["--lobster", "none", "none"], "none"), (["{bundle}", "--ranges", "{study}"], "no facts as")])
def test_what_the_command_refuses(hour, words, said, capsys):
    given = [word.format(study=hour[0], bundle=hour[1].path) for word in words]
    assert main(["facts", *given]) == 1
    heard = capsys.readouterr()
    assert said in heard.err and heard.err.count("\n") == 1 and heard.out == ""
