"""Schedules: each order comes to the exchange at its own time, and nothing before the first one changes."""

import random
import subprocess
from decimal import Decimal

import pytest

import biqsolur
import studies
from biqsolur.errors import ScheduleError
from biqsolur.messages import sent_messages
from biqsolur.ouch import Cancel, Enter
from biqsolur.running import run
from biqsolur.study import Study
from conftest import ROOT

TICK_SIZE = ROOT / "examples" / "tick_size.toml"


def enter(number, side="B", shares=10, price="50.00", symbol="ABM"):
    """An order with a token of its own."""
    return Enter(f"Q{number}", side, shares, symbol, price)


def first_events(branch):
    """The time of the first event of each message, put back or not, by its bytes."""
    times = {}
    for sent in sent_messages(branch._source, branch._event_frames()):
        times.setdefault((sent.trader, sent.data), (sent.time, sent.event))
    return times


def random_orders(chance, study, count):
    """Orders of random times and prices, many of one time, and cancels of some of them."""
    table = study.to_dict()
    price = table["stock"][0].get("start", 100_000)
    orders, time = [], table["open"]
    for number in range(count):
        time = chance.choice([time, chance.randint(table["open"], table["close"])])
        side, shares = chance.choice("BS"), chance.randint(1, 50)
        orders.append((time, enter(number, side, shares, max(1, price // 100 * 100), study.symbols[0])))
        if chance.random() < 0.2:
            later = min(time + chance.randint(0, 10**6), table["close"])
            orders.append((later, Cancel(f"Q{number}", chance.randint(0, 5))))
    return orders


@pytest.mark.parametrize("seed", [seed for seed in range(60) if studies.make_study(seed)[1] is None][:16])
def test_orders_come_at_their_times(seed):
    """Over random studies and lists of orders: each message has its first event at its own nanosecond, those of one
    time in the order given, and before the first order the events are the root's."""
    chance = random.Random(seed)
    study = Study(studies.make_study(seed)[0]).with_("events", 15_000)
    hours = study.to_dict()
    # short, so that no limit ends it
    study = study.until(min(hours["close"], hours["open"] + 40 * hours["agent"][0]["every"]))
    trader = chance.randint(1, len(study.traders))
    orders = random_orders(chance, study, chance.choice([1, 16, 17, 40]))
    made = study.schedule(trader, orders, workers=1)
    bundle = run(made)
    branch, root = bundle.branches[made.branches[-1]], bundle.branches["root"]
    assert len(made.branches) == 1 + -(-len(orders) // 16)
    assert {**made.to_dict(), "branch": []} == {**study.to_dict(), "version": 2, "branch": []}
    came = first_events(branch)
    wanted = sorted(orders, key=lambda pair: pair[0])
    assert [came[trader, order.to_bytes()][0] for _, order in wanted] == [time for time, _ in wanted]
    events = [came[trader, order.to_bytes()][1] for _, order in wanted]
    assert events == sorted(events)
    first = next(event for event in branch.events.itertuples() if event.sender == trader and event.number == events[0])
    shared = [(event.number, event.time, event.message)
              for event in root.events.itertuples() if event.number < first.number]
    assert shared == [(event.number, event.time, event.message) for event in branch.events.itertuples()][:len(shared)]
    assert bundle.branches[made.branches[1]].first_difference == first.number


def test_times_in_each_way_and_in_any_order():
    """Texts, numbers and Timedelta; the list is sorted by time, and what has one time stays as given."""
    import pandas
    study = Study.read(TICK_SIZE).only("root")
    orders = [("9:31", enter(1)), (34_230_000_000_000, enter(2)),
              (pandas.Timedelta(hours=9, minutes=30, seconds=30), enter(3)), ("9:30:00", enter(0).to_bytes()),
              ("9:31", Cancel("Q1").hex())]
    made = study.schedule(3, orders)
    [branch] = made.to_dict()["branch"]
    assert [edit["message"] for edit in branch["edit"]] == [
        order.hex() for order in (enter(0), enter(2), enter(3), enter(1), Cancel("Q1"))]
    assert [edit["after"] for edit in branch["edit"]] == [0, 30 * 10**9, 30 * 10**9, 60 * 10**9, 60 * 10**9]
    assert (branch["when"], branch["parent"]) == (34_200_000_000_000, "root")
    assert made.to_text().startswith(study.with_("version", 2).to_text().rstrip("\n"))
    assert study.schedule(3, reversed(orders)).to_dict()["branch"][0]["edit"][0] == branch["edit"][0]


def test_a_schedule_behind_a_branch():
    """The chain begins at any branch; those that it doesn't come from stay as they were."""
    study = Study.read(ROOT / "examples" / "halt_at.toml")
    made = study.schedule(9, [("10:21", enter(1)), ("10:22:00.000000001", enter(2))], parent="resume", name="buyer")
    assert made.branches == [*study.branches, "buyer-1"]
    bundle = run(made.only("buyer-1"))
    came = first_events(bundle.branches["buyer-1"])
    assert came[9, enter(1).to_bytes()][0] == biqsolur.times.nanoseconds("10:21")
    assert came[9, enter(2).to_bytes()][0] == biqsolur.times.nanoseconds("10:22") + 1


def test_the_longest_schedule(program, tmp_path):
    """4,080 orders are 255 branches, which the program accepts; one more is refused."""
    study = Study.read(TICK_SIZE).only("root").with_("events", 15_625)
    orders = [(34_200_000_000_000 + number * 1_000_000, enter(number, price=Decimal("40"))) for number in range(4_080)]
    made = study.schedule(1, orders)
    assert len(made.branches) == 256
    made.write(tmp_path / "long.toml")
    answer = subprocess.run([program, "check", tmp_path / "long.toml"], capture_output=True)
    assert answer.stdout == b"accepted: agents 33, stocks 1, branches 256, segments 511\n"
    with pytest.raises(ScheduleError, match="4081 orders; a schedule has at most 4080"):
        study.schedule(1, [*orders, ("9:31", enter(4_080))])


STUDY = Study.read(TICK_SIZE).only("root")


@pytest.mark.parametrize("do, words", [
    (lambda: STUDY.schedule(33, [("9:31", enter(1))]), "no trader 33; the study has the traders 1 to 32"),
    (lambda: STUDY.schedule(0, [("9:31", enter(1))]), "no trader 0"),
    (lambda: STUDY.schedule("maker", [("9:31", enter(1))]), "no trader 'maker'"),
    (lambda: STUDY.schedule(1, []), "no orders"),
    (lambda: STUDY.schedule(1, None), "None are no orders"),
    (lambda: STUDY.schedule(1, [("9:31", enter(1))], worker=2), "no setting 'worker'; there are parent, name, workers"),
    (lambda: STUDY.schedule(1, [("9:31", enter(1)), ("9:29", enter(2))]),
     r"order 1 \(counted from 0\): 9:29:00 is before the open"),
    (lambda: STUDY.schedule(1, [("9:32:00.1", enter(2))]),
     "9:32:00.1 is after the close; the hours are 9:30:00 to 9:32:00"),
    (lambda: STUDY.schedule(1, [(34_200.5, enter(2))]), "order 0.*floating-point"),
    (lambda: STUDY.schedule(1, [("soon", enter(2))]), "order 0.*no time of day"),
    (lambda: STUDY.schedule(1, [("9:31", "buy")]), "order 0.*is no order"),
    (lambda: STUDY.schedule(1, [("9:31",)]), "no pair of a time and an order"),
    (lambda: STUDY.schedule(1, [enter(1)]), "no pair of a time and an order"),
    (lambda: STUDY.schedule(1, [("9:31", enter(1)), ("9:31", enter(1, "S"))]), "order 1.*its token is that of order 0"),
    (lambda: Study.read(TICK_SIZE).schedule(1, [("9:31", enter(1))]),
     r"'wide', 'same' leave 'root' after a number.*only\('root'\)"),
    (lambda: STUDY.with_("events", 1_000_000).schedule(1, [("9:31", enter(n)) for n in range(64)]),
     "`events` may be at most 800000"),
    (lambda: STUDY.with_("events", 100).schedule(1, [("9:31", enter(1))]),
     "the run of 'root' ends at 9:30:.*EventLimit.*9:31"),
    (lambda: STUDY.schedule(1, [("9:31", enter(1))], parent="none"), "no branch 'none'"),
    (lambda: STUDY.branch("a", after=8000).schedule(1, [("9:30:05", enter(1))], parent="a"),
     "'a' has not begun.*8000 events"),
    (lambda: STUDY.branch("a", at="9:31").schedule(1, [("9:30:05", enter(1))], parent="a"), "'a' has not begun.*9:31"),
    (lambda: STUDY.schedule(1, [("9:31", enter(1))]).schedule(1, [("9:31", enter(2))]),
     "branch 'schedule-1' already.*another `name`"),
])
def test_bad_schedules(do, words):
    """Each says which order it is, and what would do."""
    with pytest.raises((ScheduleError, biqsolur.StudyError), match=words):
        do()
