"""The fundamental value: by a slow plain loop from the study alone, and by what value traders did with what they were
told."""

import struct
import subprocess
import sys

import pytest
import studies

import biqsolur
from biqsolur import StudyNeededError, UnknownSymbolError, fundamental

pytest.importorskip("cryptography", reason="cryptography is not installed (Debian: python3-cryptography)")
SEEDS = range(100, 112)
TOP = 1_999_999_900


# ---------------------------------------------------------------- the rule, slowly

def quarter(state, a, b, c, d):
    for into, by, turned, turn in ((a, b, d, 16), (c, d, b, 12), (a, b, d, 8), (c, d, b, 7)):
        state[into] = (state[into] + state[by]) & 0xFFFFFFFF
        mixed = state[turned] ^ state[into]
        state[turned] = (mixed << turn | mixed >> 32 - turn) & 0xFFFFFFFF


def word(key, stream, place):
    """One word of ChaCha20 (RFC 8439, 2.3), with a counter and a nonce of 64 bits."""
    start = [*struct.unpack("<4I", b"expand 32-byte k"), *struct.unpack("<8I", key), *struct.unpack("<4I", struct.pack(
        "<QQ", place // 16, stream))]
    state = list(start)
    for _ in range(10):
        for column in range(4):
            quarter(state, column, 4 + column, 8 + column, 12 + column)
        for column in range(4):
            quarter(state, column, 4 + (column + 1) % 4, 8 + (column + 2) % 4, 12 + (column + 3) % 4)
    return (state[place % 16] + start[place % 16]) & 0xFFFFFFFF


def centred(drawn, radius):
    return drawn * (2 * radius + 1) // 2**32 - radius


def clamped(value):
    return min(max(value, 1), TOP)


class SlowValues:
    """The value of each stock at each time, step by step from the study."""

    def __init__(self, study, series):
        self.study, self.key = study, bytes.fromhex(study["key"])
        self.rows = [line.split(",") for line in series.splitlines()[1:]] if series else []
        self.known = {}

    def steps(self, number):
        if number not in self.known:
            stock, value = self.study["stock"][number], self.study["stock"][number]["start"]
            out = [value]
            for step in range((self.study["close"] - self.study["open"]) // stock["every"]):
                pulled = (stock["pull"] * (stock["mean"] - value)) // 1_000_000
                value = clamped(value + pulled + centred(word(self.key, 2**33 + number, step), stock["shock"]))
                out.append(value)
            self.known[number] = out
        return self.known[number]

    def at(self, symbol, time):
        number = [stock["symbol"] for stock in self.study["stock"]].index(symbol)
        stock = self.study["stock"][number]
        if stock["series"] == "rows":
            return [int(value) for name, when, value in self.rows if name == symbol and int(when) <= time][-1]
        return self.steps(number)[(min(time, self.study["close"]) - self.study["open"]) // stock["every"]]


def slow_offset(branch, study, symbol, before):
    """The offset of a stock that the edits give which stand before so many events are over."""
    tables = {entry["name"]: entry["edit"] for entry in study["branch"]}
    edits = []
    for event, name, index in zip(branch.edits.event, branch.edits.branch, branch.edits["index"]):
        edits.append((event, tables[name][index]))
    return sum(edit["offset"] for event, edit in edits
               if event < before and edit["kind"] == "series" and edit["stock"] == symbol)


# ---------------------------------------------------------------- markets

def calm(generator):
    """A study of a seed whose edits change values, halts and latencies alone, and with no change of ticks; a value
    trader of each stock is there."""
    study, series = generator.make()
    study["change"] = [change for change in study["change"] if change["kind"] != "tick"]
    study["agent"] = [{**agent, "count": 1, "every": max(1, agent["every"] // 3)} for agent in study["agent"]]
    study["agent"] += [
        {"kind": "value", "group": 0, "stock": symbol, "first": study["open"], "every": generator.pace // 2, "size": 30,
         "noise": generator.random.choice([0, 3 * generator.tick, 2 * generator.price]), "margin": generator.tick}
        for symbol in generator.symbols]
    offsets = [-3 * generator.tick, 2 * generator.tick, -TOP, 2_000_000_000]
    for branch in study["branch"]:
        branch["edit"] = [edit for edit in branch["edit"]
                          if edit["kind"] in ("halt", "resume", "latency", "series", "fee")][:13]
        branch["edit"] += [{"kind": "series", "stock": symbol, "offset": generator.random.choice(offsets)}
                           for symbol in generator.symbols]
    return study, series


@pytest.fixture(scope="module", params=SEEDS)
def priced(request, program, tmp_path_factory):
    """(the study as a dict, its folder, the slow values, the bundle)"""
    folder = tmp_path_factory.mktemp(f"value{request.param}")
    study, series = calm(studies.Generator(request.param))
    (folder / "study.toml").write_text(studies.toml(study))
    if series is not None:
        (folder / study["series"]).write_text(series)
    answer = subprocess.run([program, "run", "study.toml"], cwd=folder, capture_output=True)
    assert (answer.returncode, answer.stderr) == (0, b"")
    (folder / "study.bundle").write_bytes(answer.stdout)
    return study, folder, SlowValues(study, series), biqsolur.read(folder / "study.bundle")


def test_the_words_are_those_of_the_cipher():
    """Word by word those of a plain loop, which gives RFC 8439's first test vector (A.1)."""
    key = bytes(range(32))
    drawn = fundamental.words(key, 2**33 + 5, 100)
    assert drawn.tolist() == [word(key, 2**33 + 5, place) for place in range(100)]
    zero = struct.pack("<16I", *(word(bytes(32), 0, place) for place in range(16)))
    assert zero.hex().startswith("76b8e0ada0f13d90405d6ae55386bd28bdd219b8a08ded1aa836efcc8b770dc7")


def test_the_value_over_time(priced):
    study, folder, slow, bundle = priced
    for branch in bundle.branches.values():
        for symbol in bundle.symbols:
            frame = branch.value(symbol, study=folder / "study.toml")
            assert list(frame.columns) == ["time", "value", "value_dollars", "series", "offset"]
            assert frame.time.is_monotonic_increasing and frame.time.iloc[0] == study["open"]
            assert frame.series.tolist() == [slow.at(symbol, time) for time in frame.time.tolist()]
            assert frame.value.tolist() == [clamped(sum(pair)) for pair in zip(
                frame.series.tolist(), frame.offset.tolist())]
            assert frame.offset.iloc[-1] == branch.closing.stocks.set_index("symbol").offset[symbol]
            stock = next(stock for stock in study["stock"] if stock["symbol"] == symbol)
            edits = sum(edit["kind"] == "series" and edit["stock"] == symbol for entry in study["branch"]
                        if entry["name"] in set(branch.edits.branch) for edit in entry["edit"])
            if stock["series"] == "rule":
                assert len(frame) == (study["close"] - study["open"]) // stock["every"] + 1 + edits


def test_the_value_at_each_event(priced):
    study, folder, slow, bundle = priced
    made = biqsolur.Study(study, folder)
    for branch in bundle.branches.values():
        events = branch.events.number.tolist()[::7]
        times = branch.events.time.tolist()[::7]
        for symbol in bundle.symbols:
            told = branch.value_at(symbol, events, study=made)
            assert told.tolist() == [clamped(slow.at(symbol, time) + slow_offset(branch, study, symbol, event))
                                     for event, time in zip(events, times)]


def rounded(price, bands, up):
    """The nearest allowed price not above (or not below) a number; 0 below 0."""
    if price < 0:
        return 0
    if not up:
        start, tick = [band for band in bands if band[0] <= price][-1]
        return price // tick * tick
    tick = [band for band in bands if band[0] <= price][-1][1]
    above = -(-price // tick) * tick
    later = [start for start, _ in bands if price < start < above]
    return later[0] if later else above


def asked_orders(branch, study, values, trader, entry, key):
    """(token's number, side, price) of each order that a value trader sends, by its rule from what it was told."""
    bands = next(stock["bands"] for stock in study["stock"] if stock["symbol"] == entry["stock"])
    mine = branch.events[(branch.events.receiver == trader) & ~branch.events.put_back]
    quotes = branch.quotes.set_index("event")
    draws, tokens, out = 0, 0, []
    for event, kind in zip(mine.number.tolist(), mine.kind.astype(str)):
        if kind == "wakeup":
            draws += 1
        if kind != "quote" or quotes.state[event] != "T":
            continue
        guess = clamped(values[event] + centred(word(key, trader, draws), entry["noise"]))
        draws += 1
        bid, ask = int(quotes.bid[event]), int(quotes.ask[event])
        if ask and ask <= guess - entry["margin"]:
            side, price = "B", ask
        elif bid and bid >= guess + entry["margin"]:
            side, price = "S", bid
        else:
            buys = word(key, trader, draws) * 2 // 2**32 == 0
            draws += 1
            side = "B" if buys else "S"
            price = rounded(guess - entry["margin"] if buys else guess + entry["margin"], bands, not buys)
        if 1 <= price <= TOP:
            tokens += 1
            out.append((tokens, side, price))
    return out


def test_value_traders_were_told_these_values(priced):
    """Each order of each value trader is what its rule makes of the value, its draws and its quotes."""
    study, folder, _, bundle = priced
    made, key, checked = biqsolur.Study(study, folder), bytes.fromhex(study["key"]), 0
    for branch in bundle.branches.values():
        sent = branch.orders[branch.orders.kind == "enter"]
        for trader, entry in enumerate(study["agent"], 1):
            if entry["kind"] != "value":
                continue
            events = branch.quotes.event[branch.quotes.agent == trader]
            values = dict(zip(events.tolist(), branch.value_at(entry["stock"], events, study=made).tolist()))
            asked = asked_orders(branch, study, values, trader, entry, key)
            mine = sent[sent.agent == trader]
            arrived = [(token % 10**9, side, price) for token, side, price in zip(mine.token, mine.side, mine.price)]
            assert set(arrived) <= set(asked) and len(asked) - len(arrived) <= branch.closing.counts["waiting"]
            checked += len(arrived)
    assert checked > 0


def test_an_hour_of_seconds_is_the_slow_loop():
    stock = {"start": 1_000_000, "mean": 1_010_000, "pull": 20_000, "shock": 500}
    drawn = fundamental.words(bytes(31) + b"\7", 2**33, 3_600)
    values = fundamental.rule_values(stock, drawn)
    slow = [1_000_000]
    for step in drawn.tolist():
        slow.append(clamped(slow[-1] + 20_000 * (1_010_000 - slow[-1]) // 1_000_000 + centred(step, 500)))
    assert values.tolist() == slow and len(set(slow)) > 100


def test_shocks_at_the_ends_of_their_range():
    import numpy
    ends = numpy.array([0, 2**32 - 1, 2**31], numpy.uint32)
    assert fundamental.centred(ends, 10**9).tolist() == [centred(drawn, 10**9) for drawn in ends.tolist()]
    assert fundamental.centred(ends, 0).tolist() == [0, 0, 0]
    for start, mean, shock, drawn, values in (
            (5, 1, 10**9, ends, [5, 1, 10**9 + 1, 10**9 + 1]),
            (TOP - 5, 1, 10, ends, [TOP - 5, TOP - 15, TOP - 5, TOP - 5]),
            (TOP, TOP, 10, ends[1:], [TOP, TOP, TOP])):
        rule = {"start": start, "mean": mean, "pull": 0, "shock": shock}
        assert fundamental.rule_values(rule, drawn).tolist() == values


def test_what_is_asked_for_wrongly(priced, tmp_path, monkeypatch):
    study, folder, _, bundle = priced
    root = bundle.branches["root"]
    made = biqsolur.Study(study, folder)
    with pytest.raises(StudyNeededError, match="biqsolur.run, which keeps the study"):
        root.value(bundle.symbols[0])
    with pytest.raises(UnknownSymbolError, match="no stock 'nope'"):
        root.value("nope", study=made)
    for number in (0, len(root.events) + 1):
        with pytest.raises(IndexError, match=f"no event {number} "):
            root.value_at(bundle.symbols[0], [number], study=made)
    with pytest.raises(StudyNeededError, match="is not the study of"):
        root.value(bundle.symbols[0], study=made.branch("more", after=1))
    if any(stock["series"] == "rows" for stock in study["stock"]):
        rows = next(stock["symbol"] for stock in study["stock"] if stock["series"] == "rows")
        with pytest.raises(StudyNeededError, match="can't be read"):
            root.value(rows, study=biqsolur.Study(study, tmp_path))
    if any(stock["series"] == "rule" for stock in study["stock"]):
        monkeypatch.setitem(sys.modules, "cryptography.hazmat.primitives.ciphers", None)
        rule = next(stock["symbol"] for stock in study["stock"] if stock["series"] == "rule")
        with pytest.raises(biqsolur.MissingPackageError, match="python3-cryptography"):
            root.value(rule, study=made)


def test_a_study_with_other_offsets(priced):
    study, folder, _, bundle = priced
    if len(bundle.branches) == 1:
        return
    branch = list(bundle.branches.values())[-1]
    place = len(study["branch"]) - 1
    last = len(study["branch"][place]["edit"]) - 1
    edit = study["branch"][place]["edit"][last]
    changed = edit["offset"] + (-1 if edit["offset"] > 0 else 1)
    other = biqsolur.Study(study, folder).with_(["branch", place, "edit", last, "offset"], changed)
    if not (branch.edits.branch == branch.name).any():      # the run ended before
        return
    with pytest.raises(StudyNeededError, match="don't come to the one with which"):
        branch.value(edit["stock"], study=other)


def test_a_bundle_that_the_package_ran_knows_its_study(priced):
    study, folder, _, bundle = priced
    ran = biqsolur.run(biqsolur.Study(study, folder))
    for name, branch in ran.branches.items():
        for symbol in bundle.symbols:
            assert branch.value(symbol).equals(bundle.branches[name].value(symbol, study=folder / "study.toml"))
            events = branch.events.number[:20]
            assert branch.value_at(symbol, events).tolist() == bundle.branches[name].value_at(
                symbol, events, study=biqsolur.Study(study, folder)).tolist()
