"""The program run from Python: the answers are the command's own bytes, each status its own error, and nothing stays behind."""

import contextlib
import os
import pickle
import random
import signal
import subprocess
import sys
import time
from pathlib import Path

import numpy
import pandas
import pytest
from conftest import PACKAGE, ROOT

import biqsolur
from biqsolur import acts, running, statuses
from biqsolur import cache as caches
from biqsolur import program as programs
from biqsolur.ouch import Enter

TICK = ROOT / "examples" / "tick_size.toml"
HALT = ROOT / "examples" / "halt.toml"
PATIENCE = 120      # seconds


@pytest.fixture(autouse=True)
def own_cache(tmp_path, monkeypatch):
    """A cache for each test."""
    monkeypatch.setenv("XDG_CACHE_HOME", str(tmp_path / "cache"))
    return tmp_path / "cache" / "biqsolur" / "runs"


def files_of(folder):
    """The names of all files below a folder."""
    return sorted(str(path.relative_to(folder)) for path in folder.rglob("*") if path.is_file())


def command(program, folder, *words):
    """(status, output, line) of a command as one types it."""
    answer = subprocess.run([program, *map(str, words)], cwd=folder, stdin=subprocess.DEVNULL, capture_output=True)
    return answer.returncode, answer.stdout, answer.stderr.decode().removesuffix("\n")


def python(function):
    """The same of a call: `function` gives the bytes of the answer."""
    try:
        return 0, function(), ""
    except statuses.ProgramError as error:
        return error.status, b"", error.line


# ---------------------------------------------------------------- byte for byte

def test_a_run_is_the_commands(market):
    bundle = biqsolur.run(market.folder / "study.toml", workers=random.Random(len(market.study)).randint(1, 3))
    assert bundle.frames.raw.tobytes() == market.bundle.read_bytes()
    assert bundle.study.to_dict() == biqsolur.Study(market.folder / "study.toml").to_dict()
    assert bundle.provenance.study_text == (market.folder / "study.toml").read_text()


def test_a_table_and_a_check_are_the_commands(market):
    wanted = biqsolur.read_table(market.run("table"))
    pandas.testing.assert_frame_equal(biqsolur.table(market.folder / "study.toml"), wanted)
    counts = running.check(market.folder / "study.toml")
    line = f"accepted: agents {counts.agents}, stocks {counts.stocks}, branches {counts.branches}, segments {counts.segments}\n"
    assert line.encode() == market.run("check")


def targets_of(market, chance):
    """Some states of a market's branches, in any order."""
    bundle = biqsolur.read(market.bundle)
    targets = []
    for branch in bundle.branches.values():
        last = branch.closing.counts["events"]
        targets += [(branch.name, event) for event in {0, last, chance.randint(0, last)}]
    chance.shuffle(targets)
    return targets[:64]


def test_a_rewind_is_the_commands(market):
    targets = targets_of(market, random.Random(1))
    rewound = biqsolur.rewind(market.folder / "study.toml", targets)
    words = [f"{branch}:{event}" for branch, event in targets]
    assert (0, rewound.data, "") == command(market.program, market.folder, "rewind", "--", "study.toml", *words)
    assert [(state.branch, state.event) for state in rewound] == targets
    for branch, event in targets:
        state = rewound[branch, event]
        assert (state.branch, state.event) == (branch, event)
        assert state.symbols == [stock["symbol"] for stock in market.study["stock"]]
        assert list(state.closing.agents["name"]) == ["exchange", *names_of(market)]


def names_of(market):
    """kind and number of each trader, by a loop."""
    return [f"{entry['kind']} {number}" for number, entry in enumerate(market.traders) if entry is not None]


def test_an_audit_is_the_commands(market):
    audit = biqsolur.audit(market.bundle)
    line = f"audit ok: branches {audit.branches}, orders {audit.orders}\n"
    assert (0, line.encode(), "") == command(market.program, market.folder, "audit", "study.bundle")


def random_orders(market, chance, symbol):
    """Orders of a cross around a stock's last price."""
    last = biqsolur.read(market.bundle).branches["root"].closing.stocks.set_index("symbol")["last"].get(symbol, 0) or 100_000
    return [(chance.randint(1, len(market.traders) - 1), chance.choice("BS"), chance.randint(1, 900),
             max(1, int(last) + chance.randint(-9, 9) * 100)) for _ in range(chance.randint(0, 30))]


def test_a_cross_is_the_commands(market):
    chance = random.Random(2)
    targets = targets_of(market, chance)
    for branch, event in targets[:2]:
        symbol = chance.choice([stock["symbol"] for stock in market.study["stock"]])
        orders = random_orders(market, chance, symbol)
        text = "agent,side,shares,price\n" + "".join(f"{a},{b},{c},{d}\n" for a, b, c, d in orders)
        (market.folder / "orders.csv").write_text(text)
        words = ["--", "study.toml", f"{branch}:{event}", symbol, "orders.csv"]
        status, wanted, _ = command(market.program, market.folder, "cross", *words)
        frame = pandas.DataFrame(orders, columns=["agent", "side", "shares", "price"])
        given = chance.choice([orders, text, market.folder / "orders.csv", frame])
        crossed = biqsolur.cross(market.folder / "study.toml", branch, event, symbol, given)
        assert (status, crossed.data) == (0, wanted)
        check_cross(crossed, orders)


def check_cross(crossed, orders):
    """What a cross says against a loop over the orders of the state and those that joined."""
    state = crossed.state
    resting = state.closing.orders
    resting = resting[resting["symbol"] == crossed.symbol]
    first = state.closing.counts["orders"] + 1
    assert list(crossed.orders["reference"]) == list(range(first, first + len(orders)))
    assert list(crossed.orders[["agent", "side", "shares", "price"]].itertuples(index=False, name=None)) == orders
    book = {row.reference: (row.side, row.open, row.price, row.agent) for row in resting.itertuples()}
    book |= {first + place: (side, shares, price, agent) for place, (agent, side, shares, price) in enumerate(orders)}
    bought = {price: sum(o for s, o, p, _ in book.values() if s == "B" and p >= price) for _, _, price, _ in book.values()}
    sold = {price: sum(o for s, o, p, _ in book.values() if s == "S" and p <= price) for _, _, price, _ in book.values()}
    best = min([(-min(bought[p], sold[p]), abs(bought[p] - sold[p]), p) for p in bought], default=(0, 0, 0))
    if best[0] == 0:
        assert (crossed.price, crossed.shares, len(crossed.parts)) == (0, 0, 0) and numpy.isnan(crossed.price_dollars)
        return
    assert (crossed.price, crossed.shares) == (best[2], -best[0])
    assert (crossed.to_buy, crossed.to_sell) == (bought[crossed.price], sold[crossed.price])
    assert crossed.match == state.closing.counts["matches"] + 1 and crossed.time == state.closing.counts["time"]
    for side in "BS":
        parts = crossed.parts[crossed.parts["side"] == side]
        assert parts["shares"].sum() == crossed.shares
        for row in parts.itertuples():
            assert book[row.reference] == (side, row.open, row.price, row.agent)
            assert 0 < row.shares <= row.open and row.joined == (row.reference >= first)
            assert row.name == state.agent_names[row.agent]


def random_acts(market, chance):
    """Acts over a market's branches; some can't be done."""
    names = [branch["name"] for branch in market.study.get("branch", [])] + ["root"]
    stock = market.study["stock"][0]["symbol"]
    some = []
    for number in range(chance.randint(1, 8)):
        kind = chance.choice(["fork", "undo", "edit", "rewind", "close", "values", "values"])
        name = chance.choice(names)
        edits = chance.choice([[], [biqsolur.Silence(1)], [biqsolur.Halt(stock), biqsolur.SeriesOffset(stock, 5)]])
        if kind == "fork":
            some.append(acts.Fork(f"new{number}", name, chance.randint(0, market.study["events"]), edits))
            names.append(f"new{number}")
        else:
            some.append({
                "undo": acts.Undo(), "edit": acts.EditBranch(name, edits), "rewind": acts.StateAt(name, chance.randint(0, 9)),
                "close": acts.Close(name), "values": acts.Values(name)}[kind])
    return some


def test_a_session_is_the_commands(market):
    chance = random.Random(3)
    for _ in range(3):
        some = random_acts(market, chance)
        script = acts.script_text(some)
        (market.folder / "acts.toml").write_text(script)
        wanted = command(market.program, market.folder, "session", "study.toml", "acts.toml")
        given = chance.choice([some, script, market.folder / "acts.toml", [act.to_dict() for act in some]])
        assert python(lambda: biqsolur.session(market.folder / "study.toml", given).data) == wanted
        if wanted[0] == 0:
            check_session(biqsolur.session(market.folder / "study.toml", some), some)


def check_session(session, some):
    """Each act has its reply, of its kind; and the answers are those that the reader finds without the script."""
    assert session.acts == len(session.replies) == len(some)
    for number, act in enumerate(some):
        reply = session[number]
        assert (reply.act, reply.kind, reply.branch) == (number, act.KIND, getattr(act, "name", ""))
        assert (reply.state is not None) == isinstance(act, (acts.StateAt, acts.Close))
        assert (reply.values is not None) == isinstance(act, acts.Values)
        if reply.state is not None:
            assert reply.state.branch == act.name and reply.closing is reply.state.closing
    alone = biqsolur.read_session(session.data)
    assert alone.acts == len(some) and [reply.values for reply in alone.replies] == [
        reply.values for reply in session.replies if reply.state is not None or reply.values is not None]
    assert list(session.values["branch"]) == [act.name for act in some if isinstance(act, acts.Values)]


def test_an_example_session_in_words():
    session = biqsolur.session(TICK, ROOT / "examples" / "session.toml")
    assert [reply.words for reply in session.replies][1:4] == [
        "edits of wide: tick of ABM: 2 cents from 0 dollars",
        "values of wide: volume 24536 shares, spread_sum 24.83 dollars, range 0.09 dollars, fees 24.536 dollars",
        "fork of one from root after 5000 events: silence of maker 2"]
    assert session[7].closing.counts["end"] == "Closed"
    with pytest.raises(biqsolur.InputError, match="no closing"):
        session[1].closing
    with pytest.raises(biqsolur.InputError, match="no act 8; there are 8"):
        session[8]


def test_an_enter_is_an_order_of_a_cross():
    orders = [(3, "B", 500, "50.10"), (4, Enter("A1", "S", 700, "ABM", "50.02"))]
    crossed = biqsolur.cross(HALT, "root", 5000, "ABM", orders)
    assert crossed.data == biqsolur.cross(HALT, "root", 5000, "ABM", [(3, "B", 500, 501000), (4, "S", 700, 500200)]).data
    alone = biqsolur.cross(HALT, "root", 5000, "ABM", [Enter("A1", "S", 700, "ABM", "50.02")])
    assert list(alone.orders["agent"]) == [1]


def test_a_cross_tells_hidden_orders():
    """Two orders that rest at one price, of which one is hidden: the one that is shown is filled first."""
    hidden, shown = (Enter(token, "B", 70, "ABM", "45", display=display) for token, display in (("HID", "N"), ("SHOWN", "Y")))
    market = biqsolur.Study(TICK).only("root").with_("events", 1000).in_version_2()
    market = market.branch("two", at="9:30:05", edits=[biqsolur.Inject(3, hidden, "1us"), biqsolur.Inject(3, shown, "1us")])
    parts = biqsolur.cross(market, "two", 900, "ABM", [(4, "S", 9999, "40")]).parts
    assert list(parts[parts.price == 450_000].hidden) == [False, True] and parts.hidden.sum() == 1
    assert list(parts[parts.price == 450_000].agent) == [3, 3]


def test_answers_are_read_from_files_too(tmp_path):
    crossed = biqsolur.cross(HALT, "root", 5000, "ABM", ROOT / "examples" / "reopening.csv")
    (tmp_path / "halt.cross").write_bytes(crossed.data)
    alone = biqsolur.read_cross(tmp_path / "halt.cross")
    assert (alone.price, alone.shares, alone.state) == (crossed.price, crossed.shares, None)
    assert set(alone.parts["agent"]) == {-1} and list(alone.parts["reference"]) == list(crossed.parts["reference"])
    known = biqsolur.read_cross(tmp_path / "halt.cross", (ROOT / "examples" / "reopening.csv").read_bytes())
    assert list(known.orders["agent"]) == list(crossed.orders["agent"])
    (tmp_path / "a.rewind").write_bytes(biqsolur.rewind(TICK, [("wide", 5000)]).data)
    assert biqsolur.read_rewind(tmp_path / "a.rewind")["wide", 5000].symbols == ["0"]
    (tmp_path / "cut").write_bytes(crossed.data[:-3])
    for reader in (biqsolur.read_cross, biqsolur.read_session, biqsolur.read_rewind):
        with pytest.raises(biqsolur.BundleError):
            reader(tmp_path / "cut")
    with pytest.raises(biqsolur.BundleError):
        biqsolur.read_session(crossed.data)
    with pytest.raises(biqsolur.BundleError):
        biqsolur.read_cross(biqsolur.session(TICK, [acts.Values("root")]).data)


def test_a_cross_that_is_cut_or_turned_is_seen():
    data = biqsolur.cross(HALT, "root", 5000, "ABM", [(3, "B", 500, "50.10")]).data
    for length in [*range(0, len(data), 7), len(data) - 1]:
        with pytest.raises(biqsolur.BundleError):
            biqsolur.read_cross(data[:length])
    with pytest.raises(biqsolur.BundleError):
        biqsolur.read_cross(data + b"\0")
    for place in (0, 2, len(data) - 1):     # a length, a letter, the number of parts
        turned = bytearray(data)
        turned[place] ^= 1
        with pytest.raises(biqsolur.BundleError):
            biqsolur.read_cross(bytes(turned))


def test_a_study_is_given_in_any_way(monkeypatch, tmp_path):
    monkeypatch.chdir(tmp_path)
    wanted = biqsolur.run(TICK).frames.raw.tobytes()
    study = biqsolur.Study(TICK)
    for given in (study, str(TICK), TICK.read_text(), study.to_dict()):
        assert biqsolur.run(given).frames.raw.tobytes() == wanted


def test_a_study_of_toml_1_1_is_left_to_the_program(tmp_path):
    text = TICK.read_text().replace("exchange = { group = 0, delay = 1000 }", "exchange = { group = 0, delay = 1000, }")
    (tmp_path / "new.toml").write_text(text)
    if text == TICK.read_text():
        text = TICK.read_text().replace("edit = [{", "edit = [{\n")
        (tmp_path / "new.toml").write_text(text)
    with pytest.raises(biqsolur.StudySyntaxError):
        biqsolur.Study(tmp_path / "new.toml")
    bundle = biqsolur.run(tmp_path / "new.toml")
    assert bundle.frames.raw.tobytes() == biqsolur.run(TICK).frames.raw.tobytes()
    assert bundle.study is None and bundle.provenance.study_text == text and bundle.agent_name(1) == "trader 1"


# ---------------------------------------------------------------- statuses

def stub(folder, lines, name="stub"):
    """A program of these lines of shell."""
    path = folder / name
    path.write_text(f"#!/bin/sh\n{lines}\n")
    path.chmod(0o755)
    return path


def test_statuses_are_told_by_errors_of_their_own(tmp_path, monkeypatch):
    monkeypatch.chdir(tmp_path)
    Path("long").write_text("#" * 16_777_217)
    Path("folder").mkdir()
    Path("text").write_text("this is no bundle")
    serial = TICK.read_text().replace("events =", 'series = "values.csv"\nevents =', 1)
    cases = [
        (3, lambda: biqsolur.run("nothing"), "no such file: nothing", "nothing"),
        (3, lambda: biqsolur.run(biqsolur.Study.from_text(serial, tmp_path)), "no such file: values.csv", f"{tmp_path}/values.csv"),
        (3, lambda: biqsolur.cross(TICK, "root", 0, "ABM", "nothing"), "no such file: nothing", "nothing"),
        (3, lambda: biqsolur.session(TICK, "nothing"), "no such file: nothing", "nothing"),
        (3, lambda: biqsolur.audit("nothing"), "no such file: nothing", "nothing"),
        (4, lambda: biqsolur.run("long"), None, "long"),
        (4, lambda: biqsolur.cross(TICK, "root", 0, "ABM", "long"), None, "long"),
        (4, lambda: biqsolur.session(TICK, "long"), None, "long"),
        (5, lambda: biqsolur.run(TICK.read_text().replace("events = ", "events = 999")), None, "the study"),
        (6, lambda: biqsolur.run("folder"), "read failed: folder", "folder"),
        (6, lambda: biqsolur.cross(TICK, "root", 0, "ABM", "folder"), "read failed: folder", "folder"),
        (6, lambda: biqsolur.audit("folder"), "read failed: folder", "folder"),
        (8, lambda: biqsolur.rewind(TICK, [("nobody", 1)]), "no branch: nobody:1", str(TICK)),
        (9, lambda: biqsolur.rewind(TICK, [("root", 99_999)]), "no event: root:99999, last event 10777", str(TICK)),
        (9, lambda: biqsolur.session(TICK, [acts.StateAt("root", 99_999)]), "no event: act 0, last event 10777", str(TICK)),
        (11, lambda: biqsolur.cross(TICK, "root", 0, "NO", []), "no stock: NO", str(TICK)),
        (12, lambda: biqsolur.cross(TICK, "root", 0, "ABM", [(0, "B", 1, 1)]), "orders refused: record 1", "the orders"),
        (13, lambda: biqsolur.audit("text"), None, "text"),
        (15, lambda: biqsolur.session(TICK, "act = 1\n"), "script refused: act 64", "the script"),
        (16, lambda: biqsolur.session(TICK, [acts.Values("nobody")]), "act refused: 0", "the script"),
    ]
    for status, call, line, file in cases:
        with pytest.raises(statuses.FORMS[status].error) as caught:
            call()
        error = caught.value
        assert error.status == type(error).STATUS == status
        assert line is None or error.line == line
        assert error.file == file
        again = pickle.loads(pickle.dumps(error))
        assert (type(again), str(again), again.__dict__) == (type(error), str(error), error.__dict__)


def test_a_script_is_named_once():
    """The sentence of `why` begins with its name too."""
    with pytest.raises(biqsolur.ScriptRefused, match="^the script: (?!the script)"):
        biqsolur.session(TICK, "act = 1\n")


def test_errors_say_what_to_do():
    said = {}
    for name, call in {
        "study": lambda: biqsolur.Study.from_text(TICK.read_text().replace("events = ", "events = 999")).check(),
        "branch": lambda: biqsolur.rewind(TICK, [("nobody", 1)]),
        "stock": lambda: biqsolur.cross(TICK, "root", 0, "NO", []),
        "orders": lambda: biqsolur.cross(TICK, "root", 0, "ABM", [(0, "B", 1, 1)]),
        "act": lambda: biqsolur.session(TICK, [acts.Undo()] * 3),
        "script": lambda: biqsolur.session(TICK, [{"kind": "value"}]),
        "event": lambda: biqsolur.session(TICK, [acts.StateAt("root", 99_999)]),
    }.items():
        with pytest.raises(statuses.ProgramError) as caught:
            call()
        said[name] = str(caught.value)
    assert "rule 5, place 0" in said["study"] and "`events`" in said["study"]
    assert "there are root, wide, same" in said["branch"] and "there are ABM" in said["stock"]
    assert "1 to 32" in said["orders"] and "root stays" in said["act"]
    assert "did you mean `values`" in said["script"] and "0 to 10,777" in said["event"]


def test_a_text_that_is_no_unicode():
    with pytest.raises(biqsolur.StudyRefused) as caught:
        biqsolur.run("version = 1\n# \udc80")
    assert caught.value.rule == 0 and "UTF-8" in caught.value.sentence


def test_a_study_that_is_refused_has_rule_and_place():
    with pytest.raises(biqsolur.StudyRefused) as caught:
        biqsolur.run("version = 3\n")
    assert (caught.value.rule, caught.value.place) == (1, 2) and "`key`" in caught.value.sentence
    with pytest.raises(biqsolur.StudyRefused) as caught:
        biqsolur.run("version =\n")
    assert caught.value.rule == 0 and "line 1" in caught.value.sentence


def test_an_audit_that_fails(market):
    bundle = biqsolur.read(market.bundle)
    shown = numpy.flatnonzero(bundle.frames.kinds == ord("l"))
    if len(shown) == 0:
        return
    data = bytearray(bundle.frames.raw.tobytes())
    data[int(bundle.frames.starts[shown[0]]) + 33] ^= 1      # the last byte of its open shares
    changed = market.folder / "changed.bundle"
    changed.write_bytes(data)
    wanted = command(market.program, market.folder, "audit", "changed.bundle")
    assert wanted[0] == 14 and python(lambda: biqsolur.audit(changed)) == wanted
    with pytest.raises(biqsolur.AuditFailed) as caught:
        biqsolur.audit(changed)
    assert wanted[2] == f"audit failed: branch {caught.value.branch}, reference {caught.value.reference}"


@pytest.mark.parametrize("lines, error, said", [
    ("kill -9 $$", biqsolur.ProgramKilledError, "ended by SIGKILL"),
    ("kill -SEGV $$", biqsolur.ProgramKilledError, "ended by SIGSEGV"),
    ("echo sorry >&2; exit 77", biqsolur.ProgramKilledError, "status 77, and said 'sorry'"),
    ("echo 'study refused: rule x' >&2; exit 5", biqsolur.ProgramKilledError, "status 5"),
    (f"echo '{programs.USAGE}' >&2; exit 2", biqsolur.WordsRefused, "of another one"),
    ("echo 'out of memory' >&2; exit 10", biqsolur.OutOfMemory, "memory did not suffice"),
    ("echo 'write failed' >&2; exit 7", biqsolur.WriteFailed, "could not be written"),
    ("echo hello", biqsolur.OtherProgramError, "wrote"),
    (":", biqsolur.OtherProgramError, "wrote"),
])
def test_a_program_that_fails(tmp_path, own_cache, lines, error, said):
    program = stub(tmp_path, lines)
    with pytest.raises(error, match=said):
        biqsolur.run(TICK, program=program)
    with pytest.raises(error):
        running.check(TICK, program=program)
    assert files_of(own_cache) == []


def test_a_disk_that_is_full(monkeypatch):
    @contextlib.contextmanager
    def full(limit):
        descriptor = os.open("/dev/full", os.O_WRONLY)
        yield caches.Part(Path("/dev/full"), descriptor), None
        os.close(descriptor)

    monkeypatch.setattr(caches, "part_for", full)
    with pytest.raises(biqsolur.WriteFailed, match="always full"):
        biqsolur.run(TICK)


def test_a_program_that_cannot_be_started(tmp_path):
    (tmp_path / "text").write_text("no program")
    with pytest.raises(biqsolur.ProgramMissingError, match="no program that can be started"):
        biqsolur.run(TICK, program=tmp_path / "text")
    (tmp_path / "text").chmod(0o755)
    with pytest.raises(biqsolur.ProgramMissingError, match="can't be started"):
        biqsolur.run(TICK, program=tmp_path / "text")
    with pytest.raises(biqsolur.ProgramMissingError):
        biqsolur.run(TICK, program=tmp_path / "nothing")


@pytest.mark.parametrize("call, said", [
    (lambda: biqsolur.run(TICK, workers=0), "workers = 0"),
    (lambda: biqsolur.table(TICK, workers=65), "1 to 64"),
    (lambda: biqsolur.run(TICK, workers=True), "workers = True"),
    (lambda: biqsolur.rewind(TICK, []), "there are 0 states"),
    (lambda: biqsolur.rewind(TICK, [("root", event) for event in range(65)]), "there are 65 states"),
    (lambda: biqsolur.rewind(TICK, ["root:5"]), "no pair"),
    (lambda: biqsolur.rewind(TICK, None), "None are no states"),
    (lambda: biqsolur.audit(5), "5 is no bundle"),
    (lambda: biqsolur.audit(biqsolur.Study(TICK)), "is no bundle: give one of biqsolur.run"),
    (lambda: biqsolur.cross(TICK, "root", 1, "ABM", [(1, "B", 100.5, "5.05")]), "order 0.*100.5 is of the type float"),
    (lambda: biqsolur.cross(TICK, "root", 1, "ABM", [(1.5, "B", 100, "5.05")]), "order 0.*1.5 is of the type float"),
    (lambda: biqsolur.session(TICK, [5]), "act 0.*5 is no act"),
    (lambda: biqsolur.rewind(TICK, [("root", -1)]), "-1 is no event"),
    (lambda: biqsolur.rewind(TICK, [("root", 1.0)]), "1.0 is no event"),
    (lambda: biqsolur.cross(TICK, "root", 1, "ABM", [Enter("A1", "B", 1, "XYZ", 100)]), "for XYZ, and the cross is of ABM"),
    (lambda: biqsolur.cross(TICK, "root", 1, "ABM", [(1, "B", 1, 5.05)]), "floating-point"),
    (lambda: biqsolur.cross(TICK, "root", 1, "ABM", ["B"]), "order 0"),
    (lambda: biqsolur.cross(TICK, "root", 1, "ABM", 5), "no orders of a cross"),
    (lambda: biqsolur.cross(TICK, "root", 1, "ABM", [(1, "B", 1, 100)] * 16_385), "16385 orders"),
    (lambda: biqsolur.cross(TICK, "root", 1, "ABM", pandas.DataFrame({"agent": [1]})), "no column side, shares, price"),
    (lambda: biqsolur.session(TICK, []), "there are 0 acts"),
    (lambda: biqsolur.session(TICK, [acts.Undo()] * 65), "there are 65 acts"),
    (lambda: biqsolur.session(TICK, acts.Undo()), "no script"),
    (lambda: biqsolur.session(TICK, [acts.Fork("a", after=1.5)]), "at is 1.5"),
    (lambda: biqsolur.session(TICK, [acts.EditBranch("wide", [{"kind": "tick", "bends": 1}])]), "act 0.*bends"),
])
def test_what_cannot_be_asked(call, said):
    with pytest.raises(biqsolur.RunError, match=said):
        call()


def test_a_study_whose_folder_is_gone(tmp_path):
    (tmp_path / "gone").mkdir()
    (tmp_path / "gone" / "values.csv").write_text("symbol,time,value\n")
    study = biqsolur.Study.from_text(TICK.read_text().replace("events =", 'series = "values.csv"\nevents =', 1), tmp_path / "gone")
    (tmp_path / "gone" / "values.csv").unlink()
    (tmp_path / "gone").rmdir()
    with pytest.raises(biqsolur.RunError, match="is not there"):
        study.check()


# ---------------------------------------------------------------- processes

SLEEPER = 'echo $$ >"$PID.new"; mv "$PID.new" "$PID"; exec sleep 1000'


def is_there(pid):
    """Whether a process runs."""
    try:
        os.kill(pid, 0)
    except ProcessLookupError:
        return False
    return True


def wait_for(condition):
    """Waits until something holds, at most PATIENCE seconds."""
    end = time.monotonic() + PATIENCE
    while not condition():
        assert time.monotonic() < end, "it did not come to that"
        time.sleep(0.01)


def test_an_interrupt_ends_the_program_and_leaves_no_file(tmp_path, own_cache, monkeypatch):
    pid = tmp_path / "pid"
    monkeypatch.setenv("PID", str(pid))

    def interrupt(size):
        if pid.exists():
            raise KeyboardInterrupt

    with pytest.raises(KeyboardInterrupt):
        biqsolur.run(TICK, program=stub(tmp_path, SLEEPER), progress=interrupt)
    assert not is_there(int(pid.read_text()))
    assert files_of(own_cache) == []


def test_an_interrupt_from_outside(tmp_path, own_cache):
    pid = tmp_path / "pid"
    words = f"import biqsolur; biqsolur.run({str(TICK)!r}, program={str(stub(tmp_path, SLEEPER))!r})"
    process = subprocess.Popen([sys.executable, "-c", words], env={**os.environ, "PID": str(pid), "PYTHONPATH": str(PACKAGE)},
                               stderr=subprocess.PIPE)
    wait_for(lambda: pid.exists() or process.poll() is not None)
    assert len(files_of(own_cache)) == 1
    process.send_signal(signal.SIGINT)
    _, error = process.communicate(timeout=PATIENCE)
    assert b"KeyboardInterrupt" in error
    assert not is_there(int(pid.read_text()))
    assert files_of(own_cache) == []


def test_an_interrupt_while_the_program_starts(tmp_path, monkeypatch):
    monkeypatch.setenv("PID", str(tmp_path / "pid"))
    before = signal.getsignal(signal.SIGINT)
    real = running.started
    begun = []

    def started(*words):
        signal.raise_signal(signal.SIGINT)
        begun.append(real(*words))
        signal.raise_signal(signal.SIGINT)
        return begun[0]

    monkeypatch.setattr(running, "started", started)
    with pytest.raises(KeyboardInterrupt):
        biqsolur.run_bytes("run", program=stub(tmp_path, SLEEPER))
    assert begun[0].returncode == -signal.SIGKILL
    assert signal.getsignal(signal.SIGINT) is before


def test_progress_is_told(capfd):
    told = []
    bundle = biqsolur.run(TICK, progress=told.append)
    assert told[-1] == len(bundle.frames.raw) and told == sorted(told)
    biqsolur.run(TICK, progress=True, cache=False)
    assert "\n" not in capfd.readouterr().err


def test_progress_of_answers_that_come_at_the_end(capfd):
    for asked in (lambda told: biqsolur.table(TICK, progress=told),
                  lambda told: biqsolur.rewind(TICK, [("wide", 5100)], progress=told),
                  lambda told: biqsolur.session(TICK, "[[act]]\nkind = \"values\"\nname = \"wide\"\n", progress=told)):
        told = []
        asked(told.append)
        assert told and set(told) == {0}
        asked(True)
        assert "\n" not in capfd.readouterr().err


def test_small_commands_load_no_data_frames():
    words = (f"import sys, biqsolur; assert biqsolur.run_bytes('check', {str(TICK)!r}).status == 0; "
             f"assert biqsolur.run_bytes('nothing').status == 2; "
             "assert not {'numpy', 'pandas', 'tomlkit', 'biqsolur.bundle'} & set(sys.modules), sorted(sys.modules)")
    subprocess.run([sys.executable, "-c", words], env={**os.environ, "PYTHONPATH": str(PACKAGE)}, check=True)


def test_bytes_of_a_command(program, tmp_path):
    for words in (["check", TICK], ["table", TICK], ["run", "nothing"], ["audit"]):
        answer = biqsolur.run_bytes(*words, folder=tmp_path)
        assert (answer.status, answer.stdout, answer.stderr.decode().removesuffix("\n")) == command(program, tmp_path, *words)


# ---------------------------------------------------------------- which program

@pytest.fixture
def forgotten():
    """What was found of programs is forgotten before and behind the test."""
    functions = (programs.own_program, programs.check_version, programs.program_of_checkout)
    for function in functions:
        function.cache_clear()
    yield
    for function in functions:
        function.cache_clear()


def test_the_program_is_the_scripts(monkeypatch, forgotten):
    monkeypatch.delenv("BIQSOLUR_PROGRAM", raising=False)
    said = subprocess.run([ROOT / "abides", "--program"], check=True, capture_output=True, text=True).stdout
    assert f"{biqsolur.find_program()}\n" == said
    assert programs.program_of(None).found == "checkout"
    assert programs.program_of(ROOT / "abides").path == biqsolur.find_program()


def test_a_named_program(monkeypatch, tmp_path, forgotten, program):
    monkeypatch.setenv("BIQSOLUR_PROGRAM", program)
    assert programs.program_of(None) == programs.Program(Path(program), "named")
    assert biqsolur.run(TICK).provenance.program_found == "named"
    monkeypatch.setenv("BIQSOLUR_PROGRAM", str(tmp_path / "nothing"))
    with pytest.raises(biqsolur.ProgramMissingError, match="BIQSOLUR_PROGRAM names no program"):
        biqsolur.run(TICK)
    for number, lines in enumerate((":", "echo 'usage: abides COMMAND STUDY' >&2; exit 2", "kill -9 $$")):
        monkeypatch.setenv("BIQSOLUR_PROGRAM", str(stub(tmp_path, lines, f"other{number}")))
        with pytest.raises(biqsolur.OtherProgramError, match="is no program of this version"):
            biqsolur.find_program()


def test_no_program_at_all(monkeypatch, tmp_path, forgotten):
    monkeypatch.delenv("BIQSOLUR_PROGRAM", raising=False)
    monkeypatch.setattr(programs, "CHECKOUT", tmp_path)
    monkeypatch.setattr(programs, "WHEEL_PROGRAM", tmp_path / "abides_of_wheel")
    with pytest.raises(biqsolur.ProgramMissingError, match="pip install ./python"):
        biqsolur.find_program()
    stub(tmp_path, ":", "abides_of_wheel")
    assert programs.program_of(None) == programs.Program(tmp_path / "abides_of_wheel", "wheel")


def test_the_allocators_words_are_the_scripts():
    assert f"tunables={programs.TUNABLES}\n" in (ROOT / "release" / "common.sh").read_text()
