"""The files that the package writes, and the rewinds that it reads, against plain readers."""

import csv
import subprocess
import sys
from collections import defaultdict

import numpy
import pandas
import plain
import pytest
from conftest import ROOT

import biqsolur
from biqsolur import output

LEVELS = 3


def table_of(path):
    with open(path, newline="") as file:
        return list(csv.reader(file))


@pytest.fixture(scope="module")
def bundle(market):
    return biqsolur.read(market.bundle)


def test_itch_file_has_the_messages_of_the_feed(market, bundle, tmp_path):
    for branch, told in zip(bundle.branches.values(), plain.read_plain(market.bundle.read_bytes())[2]):
        path = tmp_path / f"{branch.number}.itch"
        biqsolur.to_itch(path, branch)
        messages = plain.split_frames(path.read_bytes())
        assert messages == [*told.opening, *(m for _, before, behind in told.entries for m in before + behind), told.end]
        assert all(plain.message_is_right(plain.ITCH, message) for message in messages)
        columns = ["time", "kind", "stock", "reference", "side", "shares", "price", "match", "state"]
        assert [plain.feed_row(message) for message in messages] == list(
            zip(*(branch.feed[column].tolist() for column in columns)))


def lobster_name(symbol, stock):
    return symbol if symbol != "a/b" else f"stock+{stock}"


def test_lobster_rows_are_the_feed_and_the_book(bundle, tmp_path):
    for branch in bundle.branches.values():
        folder = tmp_path / str(branch.number)
        biqsolur.to_lobster(folder, branch, LEVELS)
        assert len(list(folder.iterdir())) == 2 * len(bundle.symbols)
        book = branch.book(LEVELS)
        for stock, symbol in enumerate(bundle.symbols):
            name = lobster_name(symbol, stock)
            messages = table_of(folder / f"{name}_message_{LEVELS}.csv")
            books = table_of(folder / f"{name}_orderbook_{LEVELS}.csv")
            mine = branch.feed.kind.isin(list("AXDEPH")) & (branch.feed.stock == stock) & (branch.feed.source != "opening")
            feed = branch.feed[mine]
            assert len(messages) == len(books) == len(feed)
            for row, message in zip(feed.itertuples(), messages):
                seconds, nanoseconds = message[0].split(".")
                assert len(nanoseconds) == 9 and int(seconds) * 10**9 + int(nanoseconds) == row.time
                assert int(message[1]) == {"A": 1, "X": 2, "D": 3, "E": 4, "P": 5, "H": 7}[row.kind]
                assert int(message[2]) == row.reference
                if row.kind == "H":
                    assert message[3:] == ["0", {"H": "-1", "T": "1"}[row.state], "-1"]
                if row.kind == "A":
                    assert message[3:] == [str(row.shares), str(row.price), {"B": "1", "S": "-1"}[row.side]]
                if row.kind in "XE":
                    assert int(message[3]) == row.shares
            for label, line in zip(feed.index, books):
                expected = []
                for level in range(1, LEVELS + 1):
                    for side, empty in (("ask", 9999999999), ("bid", -9999999999)):
                        price, shares = book.at[label, f"{side}_{level}"], book.at[label, f"{side}_shares_{level}"]
                        expected += [empty if price == 0 else price, shares]
                assert list(map(int, line)) == expected


def test_lobster_messages_replay_to_the_book(bundle, tmp_path):
    """The two files alone: each message changes the book before it to the book behind it. The match of a hidden order and
    a trading state change none."""
    for branch in bundle.branches.values():
        folder = tmp_path / str(branch.number)
        biqsolur.to_lobster(folder, branch, LEVELS)
        for path in folder.glob("*_message_*"):
            totals = {1: defaultdict(int), -1: defaultdict(int)}
            books = table_of(str(path).replace("_message_", "_orderbook_"))
            for (_, kind, _, shares, price, direction), line in zip(table_of(path), books):
                if kind not in "57":
                    totals[int(direction)][int(price)] += int(shares) if kind == "1" else -int(shares)
                asks = sorted((p, n) for p, n in totals[-1].items() if n)
                bids = sorted(((p, n) for p, n in totals[1].items() if n), reverse=True)
                assert min([n for side in totals.values() for n in side.values()], default=0) >= 0
                expected = []
                for level in range(LEVELS):
                    expected += asks[level] if level < len(asks) else (9999999999, 0)
                    expected += bids[level] if level < len(bids) else (-9999999999, 0)
                assert list(map(int, line)) == expected


def hidden_matches(told):
    """Of a branch each Trade of the feed, with the side of the order that its event's frame has and the sender of it."""
    return [(plain.feed_row(message), chr(event[43 + 15]), plain.number(event, 21, 2))
            for event, _, behind in told.entries for message in behind if message[:1] == b"P"]


def test_hidden_executions(market, bundle, tmp_path):
    """They are LOBSTER's rows of type 5, with the side that the feed hides."""
    for branch, told in zip(bundle.branches.values(), plain.read_plain(market.bundle.read_bytes())[2]):
        biqsolur.to_lobster(tmp_path / str(branch.number), branch, LEVELS)
        matches = hidden_matches(told)
        assert {(row[3], row[4]) for row, _, _ in matches} <= {(0, "B")}
        for stock, symbol in enumerate(bundle.symbols):
            messages, books = (table_of(tmp_path / str(branch.number) / f"{lobster_name(symbol, stock)}_{kind}_{LEVELS}.csv")
                               for kind in ("message", "orderbook"))
            hidden = [place for place, message in enumerate(messages) if message[1] == "5"]
            assert all(books[place] == (books[place - 1] if place else empty_book()) for place in hidden)
            assert [messages[place][2:] for place in hidden] == [
                ["0", str(shares), str(price), {"B": "-1", "S": "1"}[came]]
                for (_, _, own, _, _, shares, price, _, _), came, _ in matches if own == stock]


def empty_book():
    return ["9999999999", "0", "-9999999999", "0"] * LEVELS


def test_trades_of_hidden_orders(market, bundle):
    """Who met the hidden order, on which side, and whose it was: the replies tell it in their own frames."""
    for branch, told in zip(bundle.branches.values(), plain.read_plain(market.bundle.read_bytes())[2]):
        owners = {plain.number(event, 43 + 32, 8): plain.number(event, 23, 2) for event, _, _ in told.entries
                  if event[:1] == b"e" and event[42:44] == b"oE" and event[43 + 31:43 + 32] == b"A"}
        expected = [(match, came, sender, owners.get(match, -1), shares, price)
                    for (_, _, _, _, _, shares, price, match, _), came, sender in hidden_matches(told)]
        trades = branch.trades[branch.trades.reference == 0]
        names = ["match", "side", "aggressor", "resting", "shares", "price"]
        assert list(zip(*(trades[name].tolist() for name in names))) == expected


def test_a_trade_whose_event_has_no_order(market, bundle, tmp_path):
    """A bundle by its frames alone, which the program never writes: sides that nothing tells are empty."""
    payloads = plain.split_frames(market.bundle.read_bytes())
    event = next(payload for payload in payloads if payload[:1] == b"e" and payload[42:43] == b"w")
    after = payloads.index(event) + 1
    match = (10**6).to_bytes(8, "big")
    payloads.insert(after, b"P\0\1" + bytes(8) + bytes(8) + b"B" + bytes(3) + b"\7" + b"ABM     " + bytes(3) + b"\1" + match)
    path = tmp_path / "odd.bundle"
    path.write_bytes(b"".join(len(payload).to_bytes(2, "big") + payload for payload in payloads))
    root = biqsolur.read(path).branches["root"]
    (trade,) = root.trades[root.trades.match == 10**6].itertuples()
    assert (trade.side, trade.resting, trade.reference, trade.shares, trade.price) == ("", -1, 0, 7, 1)
    assert trade.aggressor == plain.number(event, 21, 2)
    assert len(root.trades) == len(bundle.branches["root"].trades) + 1


def test_traces_have_the_resting_orders(market, bundle, tmp_path):
    subprocess.run([sys.executable, ROOT / "examples" / "traces.py", market.bundle], cwd=tmp_path, check=True)
    for branch in bundle.branches.values():
        lines = (tmp_path / f"{branch.name}.trace").read_text().splitlines()
        assert [line for line in lines if "order of agent" in line] == [
            f"{'hidden ' if row.hidden else ''}order of agent {row.agent}: {row.side} {row.open} at {row.price}"
            for row in branch.closing.orders.itertuples()]


def test_csv_files_have_each_frame(bundle, tmp_path):
    folder = tmp_path / "out"
    bundle.to_csv(folder)
    assert sorted(path.name for path in folder.iterdir()) == sorted(bundle.branches)
    for branch in list(bundle.branches.values())[-1:]:
        for name in ("events", "orders", "replies", "quotes", "feed", "trades", "edits"):
            check_csv(folder / branch.name / f"{name}.csv", getattr(branch, name), bundle)
        for name in ("stocks", "orders", "agents"):
            check_csv(folder / branch.name / f"closing_{name}.csv", getattr(branch.closing, name), bundle)
        (counts,) = csv.DictReader(open(folder / branch.name / "closing_counts.csv", newline=""))
        assert counts == {name: str(value) for name, value in branch.closing.counts.items()}


def check_csv(path, frame, bundle):
    header, *lines = table_of(path)
    assert header == list(frame)
    if "token" in frame:
        frame = frame.assign(token=bundle.tokens.texts(frame.token))
    for place, name in enumerate(header):
        found = [line[place] for line in lines]
        if frame[name].dtype == numpy.float64:
            assert [float(text) if text else 0 for text in found] == frame[name].fillna(0).tolist()
        else:
            assert found == [str(value) for value in frame[name].tolist()]


def test_rewinds_are_those_of_the_plain_reader(market, bundle, tmp_path):
    arguments = ["root:0", "root:0"]
    for branch in bundle.branches.values():
        last = branch.closing.counts["events"]
        arguments += [f"{branch.name}:{event}" for event in sorted({last, last // 2, min(7, last)})]
    path = tmp_path / "states"
    path.write_bytes(market.run("rewind", "--", *arguments))
    rewind = biqsolur.read_rewind(path)
    assert [f"{state.branch}:{state.event}" for state in rewind.states] == arguments
    payloads = plain.split_frames(path.read_bytes())
    for state in rewind.states:
        assert payloads.pop(0)[:1] == b"b"
        of_kind = defaultdict(list)
        while payloads[0][:1] in (b"c", b"s", b"l", b"n", b"a", b"w"):
            payload = payloads.pop(0)
            of_kind[payload[:1].replace(b"n", b"l")].append(payload)
        (counts,) = of_kind[b"c"]
        assert state.closing.counts["events"] == plain.number(counts, 2, 4)
        assert state.closing.agents.cash.tolist() == [plain.number(a, 24, 16, True) for a in of_kind[b"a"]]
        orders = state.closing.orders
        assert list(zip(orders.reference, rewind.tokens.texts(orders.token), orders.open, orders.hidden)) == [
            (plain.number(o, 1, 8), plain.text(o[11:25]), plain.number(o, 30, 4), o[:1] == b"n") for o in of_kind[b"l"]]
        waiting = state.waiting
        assert len(waiting) == state.closing.counts["waiting"]
        columns = ["time", "message", "sender", "receiver"]
        assert list(zip(*(waiting[column].tolist() for column in columns))) == [
            (plain.number(w, 1, 8), plain.number(w, 9, 8), plain.number(w, 17, 2), plain.number(w, 19, 2))
            for w in of_kind[b"w"]]
        branch = bundle.branches[state.branch]
        assert (state.number, state.parent_number) == (branch.number, branch.parent_number if branch.parent else None)
        # A waiting message as an event's frame: the same fields of the message in other places.
        events = [b"e" + bytes(4) + w[1:21] + bytes(17) + w[21:] for w in of_kind[b"w"]]
        for frame, body, row in [(state.waiting_orders, b"i", plain.order_row), (state.waiting_replies, b"o", plain.reply_row),
                                 (state.waiting_quotes, b"q", plain.quote_row)]:
            if "token" in frame:
                frame = frame.assign(token=rewind.tokens.texts(frame.token))
            names = [name for name in frame if not name.endswith("_dollars") and (name != "symbol" or body != b"q")]
            found = list(zip(*(frame[name].tolist() for name in names)))
            assert found == [row(event)[1:] for event in events if event[42:43] == body]
    assert payloads == [b"z" + len(arguments).to_bytes(2, "big")]


def test_rewind_to_the_last_event_is_the_closing(market, bundle, tmp_path):
    branches = list(bundle.branches.values())
    path = tmp_path / "states"
    path.write_bytes(market.run("rewind", "--", *(f"{b.name}:{b.closing.counts['events']}" for b in branches)))
    rewind = biqsolur.read_rewind(path)
    for branch in branches:
        state = rewind.state(branch.name, branch.closing.counts["events"])
        assert state.closing.counts == branch.closing.counts
        one, other = state.closing.agents, branch.closing.agents
        pandas.testing.assert_frame_equal(one.set_axis(list(other), axis=1), other)
        numbers = ["reference", "agent", "intended", "open", "stock", "price", "time_in_force", "hidden"]
        pandas.testing.assert_frame_equal(state.closing.orders[numbers], branch.closing.orders[numbers])
        numbers = ["stock", "last", "matched", "fees", "offset", "live"]
        pandas.testing.assert_frame_equal(state.closing.stocks[numbers], branch.closing.stocks[numbers])


def test_a_file_that_comes_up_while_another_is_written(tmp_path, monkeypatch):
    """Nothing is overwritten, and nothing stays beside it; so too where the file system has no hard links."""
    path = tmp_path / "file"
    with pytest.raises(biqsolur.OutputExistsError, match="is there already"), output.new_file(path) as file:
        file.write(b"mine")
        path.write_text("theirs")
    assert path.read_text() == "theirs" and list(tmp_path.iterdir()) == [path]

    def no_link(*_):
        raise PermissionError(1, "Operation not permitted")
    monkeypatch.setattr("os.link", no_link)
    output.write_new(tmp_path / "other", b"whole")
    assert (tmp_path / "other").read_bytes() == b"whole" and len(list(tmp_path.iterdir())) == 2
