"""Over random studies: what the package reads is what a plain reader reads, and it agrees with the closing."""

import csv
import io
import subprocess
from collections import Counter

import numpy
import plain
import pytest
import studies
from conftest import ROOT, SEEDS

import biqsolur

PRICE_COLUMNS = ["price", "bid", "ask", "last"]


@pytest.fixture(scope="module")
def bundle(market):
    return biqsolur.read(market.bundle)


@pytest.fixture(scope="module")
def plain_branches(market):
    return plain.read_plain(market.bundle.read_bytes())[2]


def rows(frame, columns):
    """The rows of a data frame as tuples of plain Python values."""
    return list(zip(*(frame[column].tolist() for column in columns)))


def pairs(bundle, plain_branches):
    assert len(bundle.branches) == len(plain_branches)
    return zip(bundle.branches.values(), plain_branches)


def test_branches_are_those_of_the_study(market, bundle):
    study = market.study
    assert list(bundle.branches) == ["root"] + [branch["name"] for branch in study["branch"]]
    assert bundle.symbols == [stock["symbol"] for stock in study["stock"]]
    assert bundle.agents == len(market.traders)
    assert bundle.branches["root"].parent is None and bundle.branches["root"].stop == 0
    assert bundle.branches["root"].fork == 0
    for entry in study["branch"]:
        branch, parent = bundle.branches[entry["name"]], bundle.branches[entry["parent"]]
        assert branch.parent == parent.name
        if "at" in entry:
            assert branch.stop == entry["at"]
            assert branch.fork == max(parent.fork, min(entry["at"], len(parent.events)))
        else:
            assert branch.stop == branch.fork == max(parent.fork, int((parent.events.time <= entry["when"]).sum()))


def test_branches_share_their_parents_events_up_to_their_edits(bundle, plain_branches):
    names = list(bundle.branches)
    for branch, told in pairs(bundle, plain_branches):
        own = [plain.number(d, 1, 4) for d, _, _ in told.entries if d[:1] == b"d" and names[plain.number(d, 13, 2)] == branch.name]
        assert set(own) <= {branch.fork}
        if branch.parent is not None:
            events = [[entry for entry, _, _ in part.entries if entry[:1] == b"e"][:branch.fork]
                      for part in (told, plain_branches[branch.parent_number])]
            assert len(events[0]) == branch.fork and events[0] == events[1]


def test_events_are_those_of_the_plain_reader(bundle, plain_branches):
    for branch, told in pairs(bundle, plain_branches):
        events = [entry[0] for entry in told.entries if entry[0][:1] == b"e"]
        assert rows(branch.events, list(branch.events)) == [plain.event_row(event) for event in events]
        assert branch.events.number.tolist() == list(range(1, len(events) + 1))


def test_messages_are_those_of_the_plain_reader(bundle, plain_branches):
    for branch, told in pairs(bundle, plain_branches):
        heard = [e for e, _, _ in told.entries if e[:1] == b"e" and e[25:26] == b"D"]
        of_kind = {kind: [e for e in heard if e[42:43] == kind] for kind in (b"i", b"o", b"q")}
        orders = branch.orders.assign(token=bundle.tokens.texts(branch.orders.token))
        columns = ["event", "time", "agent", "kind", "token", "side", "shares", "symbol", "price", "time_in_force"]
        assert rows(orders, columns) == [plain.order_row(e) for e in of_kind[b"i"]]
        replies = branch.replies.assign(token=bundle.tokens.texts(branch.replies.token))
        columns = ["event", "time", "agent", "kind", "handled", "token", "side", "shares", "symbol", "price", "reference",
                   "match", "flag", "reason"]
        assert rows(replies, columns) == [plain.reply_row(e) for e in of_kind[b"o"]]
        columns = ["event", "time", "agent", "stock", "state", "bid", "bid_shares", "ask", "ask_shares", "last"]
        assert rows(branch.quotes, columns) == [plain.quote_row(e) for e in of_kind[b"q"]]
        assert [bundle.symbols[stock] for stock in branch.quotes.stock] == branch.quotes.symbol.tolist()


def test_feed_is_that_of_the_plain_reader(bundle, plain_branches):
    for branch, told in pairs(bundle, plain_branches):
        expected = [(0, "opening", message) for message in told.opening]
        for frame, before, behind in told.entries:
            event = plain.number(frame, 1, 4)
            source = "event" if frame[:1] == b"e" else "edit"
            expected += [(event, "change", m) for m in before] + [(event, source, m) for m in behind]
        expected.append((plain.number(told.counts, 2, 4), "close", told.end))
        columns = ["event", "source", "time", "kind", "stock", "reference", "side", "shares", "price", "match", "state"]
        assert rows(branch.feed, columns) == [(event, source, *plain.feed_row(m)) for event, source, m in expected]


def test_edits_are_those_of_the_study(market, bundle):
    entries = {branch["name"]: branch for branch in market.study["branch"]}
    for branch in bundle.branches.values():
        line = []
        entry = entries.get(branch.name)
        while entry is not None:
            line.append(entry)
            entry = entries.get(entry["parent"])
        expected = [(bundle.branches[entry["name"]].fork, entry["name"], index, edit["kind"])
                    for entry in reversed(line) for index, edit in enumerate(entry["edit"])]
        assert rows(branch.edits, ["event", "branch", "index", "kind"]) == expected


def test_edits_are_those_of_the_plain_reader(bundle, plain_branches):
    names = list(bundle.branches)
    for branch, told in pairs(bundle, plain_branches):
        edits = [frame for frame, _, _ in told.entries if frame[:1] == b"d"]
        assert rows(branch.edits, ["event", "time", "branch", "index", "letter"]) == [
            (plain.number(d, 1, 4), plain.number(d, 5, 8), names[plain.number(d, 13, 2)], plain.number(d, 15, 2), chr(d[17]))
            for d in edits]


def test_trades_are_the_matches_of_the_feed(bundle, plain_branches):
    """Each match comes with the event of an order, whose sender and side are the aggressor's."""
    for branch, told in pairs(bundle, plain_branches):
        matches = [(frame, plain.feed_row(message)) for frame, _, behind in told.entries for message in behind
                   if message[:1] in (b"E", b"P")]
        assert {frame[42:44] for frame, _ in matches} <= {b"iO"}
        columns = ["event", "time", "stock", "reference", "side", "shares", "match", "aggressor"]
        assert rows(branch.trades, columns) == [
            (plain.number(e, 1, 4), time, stock, reference, chr(e[43 + 15]), shares, match, plain.number(e, 21, 2))
            for e, (time, _, stock, reference, _, shares, _, match, _) in matches]


def test_trades_are_against_the_orders_that_the_feed_added(bundle):
    for branch in bundle.branches.values():
        added = {row.reference: row for row in branch.feed[branch.feed.kind == "A"].itertuples()}
        senders = dict(rows(branch.events, ["number", "sender"]))
        columns = ["reference", "side", "price", "resting", "stock"]
        for reference, side, price, resting, stock in rows(branch.trades[branch.trades.reference > 0], columns):
            order = added[reference]
            assert (side, price, resting, stock) == (
                {"B": "S", "S": "B"}[order.side], order.price, senders[order.event], order.stock)
        hidden = branch.feed[branch.feed.kind == "P"]
        columns = ["event", "time", "stock", "price", "shares", "match"]
        assert rows(branch.trades[branch.trades.reference == 0], columns) == rows(hidden, columns)
        assert set(hidden.side) <= {"B"} and set(hidden.reference) <= {0}


def test_trades_are_those_of_the_replies(bundle):
    """Agents, sides, shares and prices, of hidden orders too: what a reply says of a match, the match says."""
    for branch in bundle.branches.values():
        trades = {row.match: row for row in branch.trades.itertuples()}
        accepted = branch.replies[branch.replies.kind == "accepted"]
        sides = {(row.agent, row.token): row.side for row in accepted.itertuples()}
        executed = branch.replies[branch.replies.kind == "executed"]
        for row in executed.itertuples():
            trade = trades[row.match]
            agent, side = {"R": (trade.aggressor, trade.side), "A": (trade.resting, {"B": "S", "S": "B"}[trade.side])}[row.flag]
            assert (row.shares, row.price, row.handled, row.agent) == (trade.shares, trade.price, trade.time, agent)
            # Replies overtake each other, so at the end an order's acceptance may still be on its way.
            assert sides.get((row.agent, row.token), side) == side
        told = set(executed.match[executed.flag == "A"])
        waits = branch.trades[~branch.trades.match.isin(told)]
        assert branch.closing.counts["end"] != "Quiet" or len(waits) == 0


def test_closing_is_that_of_the_plain_reader(bundle, plain_branches):
    ends = {"F": "QueueFull", "L": "EventLimit", "Q": "Quiet", "C": "Closed"}
    fields = [(2, 4), (6, 8), (14, 8), (22, 4), (26, 8), (34, 8), (42, 8), (50, 8), (58, 8)]
    for branch, told in pairs(bundle, plain_branches):
        closing = branch.closing
        assert list(closing.counts.values()) == [ends[chr(told.counts[1])]] + [plain.number(told.counts, *at) for at in fields]
        assert rows(closing.stocks, ["stock", "state", "last", "matched", "fees", "offset", "live"]) == [
            (plain.number(s, 1, 2), chr(s[3]), plain.number(s, 4, 4), plain.number(s, 8, 8), plain.number(s, 16, 16, True),
             plain.number(s, 32, 8, True), plain.number(s, 40, 4)) for s in told.stocks]
        orders = closing.orders.assign(token=bundle.tokens.texts(closing.orders.token))
        columns = ["reference", "agent", "token", "side", "intended", "open", "stock", "price", "time_in_force"]
        assert rows(orders, columns) == [
            (plain.number(o, 1, 8), plain.number(o, 9, 2), plain.text(o[11:25]), chr(o[25]), plain.number(o, 26, 4),
             plain.number(o, 30, 4), plain.number(o, 34, 2), plain.number(o, 36, 4), plain.number(o, 40, 4))
            for o in told.orders]
        assert closing.orders.hidden.tolist() == [o[:1] == b"n" for o in told.orders]
        assert Counter(closing.orders.stock) == Counter(dict(rows(closing.stocks[closing.stocks.live > 0], ["stock", "live"])))
        columns = ["agent", "silenced", "own_time", "tokens", "draws", "cash", "own_cash", "own_position", "orders", "quotes"]
        columns += [f"position_{symbol}" for symbol in bundle.symbols]
        assert rows(closing.agents, columns) == [
            (plain.number(a, 1, 2), a[3:4] == b"Y", plain.number(a, 4, 8), plain.number(a, 12, 4), plain.number(a, 16, 8),
             plain.number(a, 24, 16, True), plain.number(a, 40, 16, True), plain.number(a, 56, 8, True),
             plain.number(a, 64, 2), plain.number(a, 66, 4),
             *(plain.number(a, 70 + 8 * stock, 8, True) for stock in range(len(bundle.symbols)))) for a in told.agents]


def test_dollars_are_the_nearest_to_the_prices(bundle):
    for branch in bundle.branches.values():
        frames = [branch.orders, branch.replies, branch.quotes, branch.feed, branch.trades, branch.closing.orders,
                  branch.closing.stocks]
        for frame in frames:
            for name in [name for name in PRICE_COLUMNS if name in frame]:
                price, dollars = frame[name].to_numpy(), frame[f"{name}_dollars"].to_numpy()
                assert frame[name].dtype == numpy.int64
                assert (numpy.isnan(dollars) == (price == 0)).all()
                assert (dollars[price > 0] == price[price > 0] / 10000).all()


def test_feed_leaves_the_shown_orders_of_the_closing(bundle):
    for branch in bundle.branches.values():
        columns = ["reference", "side", "open", "stock", "symbol", "price", "price_dollars"]
        shown = branch.closing.orders[~branch.closing.orders.hidden]
        assert rows(branch.displayed_orders(), columns) == rows(shown, columns)
        hidden = branch.closing.orders.reference[branch.closing.orders.hidden]
        assert not branch.feed.reference.isin(hidden).any()


def plain_levels(orders, levels):
    """bid, its shares, ask, its shares of each level, of orders as (side, price, open shares)."""
    totals = {"B": Counter(), "S": Counter()}
    for side, price, shares in orders:
        totals[side][price] += shares
    ranked = {"B": sorted(totals["B"].items(), reverse=True), "S": sorted(totals["S"].items())}
    row = []
    for level in range(levels):
        for side in "BS":
            row += ranked[side][level] if level < len(ranked[side]) else (0, 0)
    return tuple(row)


def level_columns(levels):
    return [f"{name}_{level}" for level in range(1, levels + 1) for name in ("bid", "bid_shares", "ask", "ask_shares")]


def test_book_is_that_of_a_plain_replay(bundle, plain_branches):
    for branch, told in pairs(bundle, plain_branches):
        messages = [*told.opening, *(m for _, before, behind in told.entries for m in before + behind), told.end]
        orders, expected = {}, []
        for place, message in enumerate(messages):
            _, kind, stock, reference, side, shares, price, _, _ = plain.feed_row(message)
            if kind == "A":
                orders[reference] = [stock, side, price, shares]
            elif kind in "EX":
                orders[reference][3] -= shares
                if orders[reference][3] == 0:
                    del orders[reference]
            elif kind == "D":
                del orders[reference]
            if stock >= 0:
                expected.append((place, plain_levels([order[1:] for order in orders.values() if order[0] == stock], 3)))
        book = branch.book(levels=3)
        assert list(zip(book.index, rows(book, level_columns(3)))) == expected
        for column in ("event", "time", "kind", "stock", "symbol"):
            assert book[column].tolist() == branch.feed.loc[book.index, column].tolist()


def test_quotes_are_the_top_of_the_book(bundle):
    for branch in bundle.branches.values():
        book = branch.book(levels=1)
        tops = {stock: set(rows(part, level_columns(1))) for stock, part in book.groupby("stock")}
        for stock, *top in rows(branch.quotes, ["stock", "bid", "bid_shares", "ask", "ask_shares"]):
            assert tuple(top) in tops[stock]


def test_last_row_of_the_book_is_the_closing(bundle):
    for branch in bundle.branches.values():
        book = branch.book()
        for stock in range(len(bundle.symbols)):
            resting = branch.closing.orders[(branch.closing.orders.stock == stock) & ~branch.closing.orders.hidden]
            last = book[book.stock == stock].iloc[-1]
            assert tuple(last[level_columns(10)]) == plain_levels(rows(resting, ["side", "price", "open"]), 10)


def fees_in_force(market, branch):
    """For each event of a branch's run the (add, take) fees of each stock, from the study."""
    study = market.study
    edits = {entry["name"]: entry["edit"] for entry in study["branch"]}
    fees = {stock["symbol"]: (stock["add"], stock["take"]) for stock in study["stock"]}
    made = rows(branch.edits, ["event", "branch", "index"])
    changes = list(study["change"])
    out = []
    for number, time in rows(branch.events, ["number", "time"]):
        while made and made[0][0] < number:
            _, name, index = made.pop(0)
            if edits[name][index]["kind"] == "fee":
                fees[edits[name][index]["stock"]] = (edits[name][index]["add"], edits[name][index]["take"])
        while changes and changes[0]["time"] <= time:
            change = changes.pop(0)
            if change["kind"] == "fee":
                fees[change["stock"]] = (change["add"], change["take"])
        out.append(dict(fees))
    return out


def test_trades_give_the_settled_accounts(market, bundle):
    """Where nobody has been told yet that a hidden order traded, the account of agent -1 is what its owners lack."""
    for branch in bundle.branches.values():
        fees = fees_in_force(market, branch)
        cash = Counter({agent: entry.get("cash", 0) for agent, entry in enumerate(market.traders) if agent})
        position = Counter()
        stock_fees, matched, last = Counter(), Counter(), Counter()
        columns = ["event", "symbol", "side", "price", "shares", "aggressor", "resting", "fees"]
        for event, symbol, side, price, shares, aggressor, resting, both in rows(branch.trades, columns):
            buyer, seller = (aggressor, resting) if side == "B" else (resting, aggressor)
            add, take = fees[event - 1][symbol]
            cash[buyer] -= 100 * price * shares
            cash[seller] += 100 * price * shares
            cash[resting] -= add * shares
            cash[aggressor] -= take * shares
            position[buyer, symbol] += shares
            position[seller, symbol] -= shares
            assert both == (add + take) * shares
            stock_fees[symbol] += both
            matched[symbol] += shares
            last[symbol] = price
        agents, stocks = branch.closing.agents, branch.closing.stocks
        unknown = branch.trades[branch.trades.resting == -1]
        assert set(unknown.reference) <= {0}
        lack = numpy.array([settled - cash[agent] for agent, settled in enumerate(agents.cash)], object)
        assert lack.sum() == cash[-1] and (lack != 0).sum() <= len(unknown)
        for symbol in bundle.symbols:
            lack = agents[f"position_{symbol}"] - [position[agent, symbol] for agent in range(bundle.agents)]
            assert lack.sum() == position[-1, symbol] and (lack != 0).sum() <= len(unknown)
        assert rows(stocks, ["fees", "matched", "last"]) == [
            (stock_fees[symbol], matched[symbol], last[symbol]) for symbol in bundle.symbols]
        assert branch.trades.match.tolist() == list(range(1, len(branch.trades) + 1))
        assert branch.closing.counts["matches"] == len(branch.trades)


def test_table_counts_what_the_frames_have(market, bundle, tmp_path):
    path = tmp_path / "study.csv"
    path.write_bytes(market.run("table"))
    table = biqsolur.read_table(path)
    written = list(csv.DictReader(io.StringIO(path.read_text())))
    assert [{name: str(value) for name, value in row.items()} for row in table.to_dict("records")] == written
    assert table.branch.tolist() == list(bundle.branches)
    for row in table.itertuples():
        branch = bundle.branches[row.branch]
        taken = branch.replies[(branch.replies.kind == "executed") & (branch.replies.flag == "R")]
        quoted = branch.quotes[(branch.quotes.bid != 0) & (branch.quotes.ask != 0)]
        assert (row.parent, row.stop, row.end) == (branch.parent or "", branch.stop, branch.closing.counts["end"])
        assert row.events == len(branch.events) == branch.closing.counts["events"]
        assert row.first_difference == branch.first_difference
        assert row.volume == taken.shares.sum()
        assert row.spread_sum == (quoted.ask - quoted.bid).sum()
        assert row.range == (taken.price.max() - taken.price.min() if len(taken) else 0)
        assert row.fees == branch.events.fee.sum() == sum(branch.closing.stocks.fees) == branch.trades.fees.sum()


def test_the_studies_have_all_that_is_compared(program, tmp_path):
    """The tests above say nothing of what no study has."""
    feed, edits, put_back, messages, resting, met_hidden = set(), set(), set(), set(), set(), set()
    for seed in SEEDS:
        study, series = studies.make_study(seed)
        (tmp_path / "study.toml").write_text(studies.toml(study))
        if series is not None:
            (tmp_path / study["series"]).write_text(series)
        data = subprocess.run([program, "run", "study.toml"], cwd=tmp_path, capture_output=True, check=True).stdout
        event = b""
        for payload in plain.split_frames(data):
            event = payload if payload[:1] == b"e" else event
            if payload[:1].isupper():
                feed.add(payload[:1])
                met_hidden |= {event[58:59]} if payload[:1] == b"P" else set()
            elif payload[:1] == b"d":
                edits.add(payload[17:18])
            elif payload[:1] in (b"l", b"n"):
                resting.add((payload[:1], payload[25:26], payload[26:30] == payload[30:34]))
            elif payload[:1] == b"e" and payload[25:26] == b"P":
                put_back.add(payload[42:43])
            elif payload[:1] == b"e":
                messages.add(payload[42:44])
    assert feed == {b"S", b"R", b"H", b"A", b"E", b"X", b"D", b"P"}
    assert met_hidden == {b"B", b"S"}
    assert resting == {(kind, side, whole) for kind in (b"l", b"n") for side in (b"B", b"S") for whole in (False, True)}
    assert edits == {b"t", b"f", b"h", b"r", b"l", b"p", b"s", b"i", b"v"}
    assert put_back == {b"w", b"i", b"o", b"a", b"q"}
    assert messages >= {b"w", b"iO", b"iX", b"oA", b"oC", b"oE", b"oJ"}


def test_a_difference_of_a_dated_change_alone(program, tmp_path):
    """A branch halts a stock right before its dated halt, which so tells the feed nothing: the first event differs that
    the halt came with."""
    def run(command, text):
        (tmp_path / "study.toml").write_text(text)
        out = subprocess.run([program, command, "study.toml"], cwd=tmp_path, capture_output=True, check=True).stdout
        (tmp_path / command).write_bytes(out)
        return tmp_path / command

    text = (ROOT / "examples" / "two_watchers.toml").read_text().replace("close = 1005", "close = 1900")
    text = text.replace("every = 1000000             # nanoseconds from one wakeup", "every = 90 # nanoseconds from one wakeup")
    text += '\n[[change]]\ntime = 1500\nstock = "ABM"\nkind = "halt"\n'
    feed = biqsolur.read(run("run", text)).branches["root"].feed
    (event,) = feed.event[feed.source == "change"]
    text += f'\n[[branch]]\nname = "halt"\nparent = "root"\nat = {event - 1}\nedit = [{{ kind = "halt", stock = "ABM" }}]\n'
    branch = biqsolur.read(run("run", text)).branches["halt"]
    assert branch.feed.source[branch.feed.kind == "H"].tolist() == ["opening", "edit"]
    assert branch.first_difference == biqsolur.read_table(run("table", text)).first_difference[1] == event
