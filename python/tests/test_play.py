"""Strategies in Python: the study that comes out sends the same orders, and the policy knew no more than its trader."""

import random
import tempfile
from dataclasses import replace

import numpy
import pandas
import pytest

import biqsolur
import studies
from biqsolur.errors import PlayError, PolicyError
from biqsolur.last_branch import run_last
from biqsolur.messages import sent_messages
from biqsolur.observation import Account, Observation
from biqsolur.ouch import Accepted, Enter, Executed
from biqsolur.playing import Game, play
from biqsolur.running import run
from biqsolur.study import Study
from conftest import ROOT

SECOND = 10**9
WATCHER = 7


def small_market():
    """Two makers, four noise traders and a watcher, the trader 7, for twelve seconds from 9:30 on."""
    table = Study.read(ROOT / "examples" / "tick_size.toml").only("root").to_dict()
    table["close"] = table["open"] + 12 * SECOND
    table["agent"][1].update(count=4, first=table["open"] + SECOND // 2, every=SECOND, wobble=SECOND // 2, size=300)
    table["agent"].append({"kind": "watcher", "group": 1, "stock": "ABM", "first": table["open"], "every": SECOND // 4})
    return Study(table)


MARKET = small_market()


class Recorded:
    """A policy that keeps what it saw and gave."""

    def __init__(self, policy):
        self.policy, self.seen, self.given = policy, [], []

    def __call__(self, observation):
        self.seen.append(observation)
        orders = list(self.policy(observation) or [])
        self.given += [(observation.time, order) for order in orders]
        return orders


def buyer(observation):
    """Buys at the bid, and cancels what did not trade."""
    orders = [observation.cancel(order) for order in observation.orders]
    if observation.book is not None and observation.book.bid and observation.position < 500:
        orders.append(observation.buy(60, observation.book.bid))
    return orders


def two_sided(observation):
    """Makes a market of one level about the last middle, with hidden orders too."""
    orders = [observation.cancel(order, order.order.shares // 2) for order in observation.orders[:1]]
    if observation.book is not None:
        middle = int(observation.book.mid) // 100 * 100
        orders += [observation.buy(30, middle - 100), observation.sell(30, middle + 100, display="N")]
    return orders


def taker(observation):
    """Takes at every second decision, and more than sixteen orders at one."""
    if observation.decision % 2 or observation.book is None:
        return None
    count = 20 if observation.decision == 4 else 1
    return [observation.sell(5, observation.book.bid or 100, time_in_force=0) for _ in range(count)]


def replayed(study, trader):
    """The run with all orders, and of each of the trader's injected messages (time of its first event, bytes)."""
    branch = run(study).branches[study.branches[-1]]
    edits = [edit for name in study.branches[1:] for edit in study.edits(name)]
    messages = [edit.message for edit in edits if isinstance(edit, biqsolur.Inject)]
    first = {}
    for sent in sent_messages(branch._source, branch._event_frames()):
        if sent.trader == trader and sent.is_order and sent.data.hex() in messages:
            first.setdefault(sent.data, sent.time)
    return branch, [(time, data) for data, time in first.items()]


@pytest.mark.parametrize("policy", [buyer, two_sided, taker], ids=lambda policy: policy.__name__)
@pytest.mark.parametrize("delay", [None, 0, "30ms"])
def test_the_outcome_gives_the_same_orders(policy, delay):
    """Without the policy: each order's bytes at its time, and what the policy saw is in that run, and nothing later."""
    recorded = Recorded(policy)
    study = play(MARKET, WATCHER, recorded, every="1471ms", delay=delay)     # when nothing else comes
    branch, came = replayed(study, WATCHER)
    way = {None: 50_000, 0: 0, "30ms": 30_000_000}[delay]
    assert len(recorded.given) > 3 and len(recorded.seen) == 8
    wanted = {}
    for time, order in recorded.given:
        wanted.setdefault(order.to_bytes(), time + way)
    assert came == [(time, data) for data, time in wanted.items()]
    assert study.only("root") == MARKET.in_version_2()
    check_observations(branch, recorded.seen)


def test_replies_within_the_nanosecond():
    """Without any latency an order is answered at the time of its decision, behind it: the next decision is told so,
    once."""
    market = MARKET.with_("latency", {"base": [[0, 0], [0, 0]], "jitter": [[0, 0], [0, 0]]}).with_("exchange.delay", 0)
    recorded = Recorded(buyer)
    branch, _ = replayed(play(market, WATCHER, recorded, every="1500ms"), WATCHER)
    told = [one.reply.to_bytes() for observation in recorded.seen for one in observation.replies]
    heard = [sent.data for sent in branch.messages()
             if sent.trader == WATCHER and not sent.is_order and sent.time < recorded.seen[-1].time]
    assert told[:len(heard)] == heard and len(set(told)) == len(told)
    times = [one.time for observation in recorded.seen for one in observation.replies]
    assert any(time == observation.time for time in times for observation in recorded.seen)


def test_a_busy_trader_has_not_heard_yet():
    """What was put back, as the trader was still at work, is no part of what it knows."""
    market = MARKET.with_("agent.watcher.delay", "40ms")
    recorded = Recorded(buyer)
    study = play(market, WATCHER, recorded, every="11ms", start="9:30:01.005", end="9:30:01.1", delay=0)
    branch, _ = replayed(study, WATCHER)
    events = branch.events
    put_back = events[(events.receiver == WATCHER) & events.put_back]
    assert any(((put_back.time <= seen.time) & (put_back.busy_until > seen.time)).any() for seen in recorded.seen)
    check_observations(branch, recorded.seen)


def check_observations(branch, seen):
    """Each observation, over again by a plain look through the whole run's frames."""
    quotes, replies = branch.quotes[branch.quotes.agent == WATCHER], branch.replies[branch.replies.agent == WATCHER]
    orders = {sent.message.token: sent.message for sent in branch.messages()
              if sent.trader == WATCHER and sent.data[:1] == b"O"}
    before = -1
    for observation in seen:
        heard = quotes[quotes.time <= observation.time]
        assert (observation.book is None) == (len(heard) == 0)
        if len(heard):
            last = heard.iloc[-1]
            for name in ("time", "bid", "bid_shares", "ask", "ask_shares", "last", "state"):
                assert getattr(observation.book, name) == last[name]
        known = replies[replies.time <= observation.time]
        assert len(observation.replies) == (known.time > before).sum()
        assert [one.time for one in observation.replies] == known.time[known.time > before].tolist()
        traded = known[known.kind == "executed"]
        sides = [orders[branch.bundle.tokens.text(token)].side for token in traded.token]
        signs = numpy.array([1 if side == "B" else -1 for side in sides], int)
        assert observation.position == int((signs * traded.shares).sum())
        assert observation.account.cash == -100 * int((signs * traded.shares * traded.price).sum())
        before = observation.time


@pytest.mark.parametrize("seed", [seed for seed in range(30) if studies.make_study(seed)[1] is None][:5])
def test_random_markets_and_policies(seed):
    """Over small random studies, every kind of trader and a policy of chance: the outcome sends the same again."""
    chance = random.Random(seed)
    study = Study(studies.make_study(seed)[0]).only("root").with_("events", 15_000)
    table = study.to_dict()
    study = study.until(min(table["close"], table["open"] + 20 * table["agent"][0]["every"]))
    trader = chance.randint(1, len(study.traders))

    def policy(observation):
        price = observation.book.last if observation.book and observation.book.last else 100
        orders = [observation.cancel(order) for order in observation.orders if chance.random() < 0.5]
        return orders + [chance.choice([observation.buy, observation.sell])(chance.randint(1, 30), price)]

    recorded = Recorded(policy)
    table = study.to_dict()
    outcome = play(study, trader, recorded, every=max(1, (table["close"] - table["open"]) // 7))
    _, came = replayed(outcome, trader)
    assert len(recorded.seen) >= 5
    assert [data for _, data in came] == list(dict.fromkeys(order.to_bytes() for _, order in recorded.given))
    text = Study.from_text(outcome.to_text())
    assert text == outcome
    assert open(run(text).path, "rb").read() == open(run(outcome).path, "rb").read()


def test_the_last_branch_alone(market):
    """Over random studies: the last branch read without the others says what it says among them."""
    study = Study.read(market.folder / "study.toml", folder=market.folder)
    [(name, alone)] = run_last(study, program=market.program).branches.items()
    among = biqsolur.read(market.bundle).branches[study.branches[-1]]
    assert name == among.name and alone.counts == among.counts
    for frame in ("events", "replies", "quotes", "trades"):
        pandas.testing.assert_frame_equal(getattr(alone, frame).drop(columns="token", errors="ignore"),
                                          getattr(among, frame).drop(columns="token", errors="ignore"))
    assert [sent.data for sent in alone.messages()] == [sent.data for sent in among.messages()]


@pytest.mark.parametrize("wrote", ["", "no bundle", "b"], ids=["nothing", "words", "a letter"])
def test_a_program_that_writes_no_bundle(wrote, tmp_path):
    """It is said to be another program."""
    stub = tmp_path / "program"
    stub.write_text(f"#!/bin/sh\nprintf '{wrote}'\n")
    stub.chmod(0o755)
    with pytest.raises(biqsolur.InputError, match="no bundle"):
        run_last(MARKET, program=stub)


def test_a_killed_run_and_an_interrupt_leave_nothing(tmp_path, monkeypatch):
    """Neither a file nor an error without a name."""
    stub, folder = tmp_path / "program", tmp_path / "temporary"
    stub.write_text("#!/bin/sh\nprintf abc\nkill -9 $$\n")
    stub.chmod(0o755)
    folder.mkdir()
    monkeypatch.setattr(tempfile, "tempdir", str(folder))
    with pytest.raises(biqsolur.InputError, match="signal 9|SIGKILL|killed"):
        run_last(MARKET, program=stub)
    assert list(folder.iterdir()) == []

    def interrupted(*_):
        raise KeyboardInterrupt
    monkeypatch.setattr("biqsolur.running.ended", interrupted)
    with pytest.raises(KeyboardInterrupt):
        run_last(MARKET)
    assert list(folder.iterdir()) == []


def changed_market(change):
    """The market with something that its watcher can't see changed."""
    table = MARKET.to_dict()
    change(table)
    return Study(table)


@pytest.mark.parametrize("change", [
    lambda table: table["agent"][0].update(cash=10**9),
    lambda table: table["stock"][0].update(add=0, take=999),
    lambda table: table.update(change=[{"time": table["close"], "stock": "ABM", "kind": "halt"}]),
    lambda table: table.update(version=2, branch=[{"name": "b", "parent": "root", "when": table["open"] + SECOND,
                                                   "edit": [{"kind": "silence", "agent": 1}]}]),
    lambda table: table["stock"].append({**table["stock"][0], "symbol": "XYZ"}),
], ids=["cash of another", "fees", "a halt at the close", "another branch", "another stock"])
def test_what_the_trader_cannot_know(change):
    """Its observations stay the same, one by one."""
    plain, other = Recorded(buyer), Recorded(buyer)
    play(MARKET, WATCHER, plain, every="3s")
    play(changed_market(change), WATCHER, other, every="3s")
    assert len(plain.seen) == 3 and plain.seen == other.seen


def test_hidden_orders_are_not_seen():
    """A hidden order behind the best bid changes nothing that is told."""
    table = MARKET.with_("latency.jitter", [[0, 0], [0, 0]]).in_version_2().to_dict()
    order = Enter("H", "B", 500, "ABM", "49.50", display="N")
    hidden = {"kind": "inject", "agent": 1, "after": 0, "message": order.hex()}
    books = []
    for edit in ([hidden], []):
        table["branch"] = [{"name": "quiet", "parent": "root", "when": table["open"], "edit": edit}]
        recorded = Recorded(lambda observation: None)
        assert play(Study(table), WATCHER, recorded, every="3s", branch="quiet").branches == ["root", "quiet"]
        books.append([observation.book for observation in recorded.seen])
    assert books[0] == books[1] and books[0][-1].bid > 495_000


def test_open_orders_and_account_by_hand():
    """One order to buy at 9:30:02, far below the market, half canceled two seconds later; then one that trades."""
    seen = []

    def policy(observation):
        seen.append(observation)
        if observation.decision == 1:
            return [observation.buy(80, "40.00")]
        if observation.decision == 2:
            return [observation.cancel(observation.orders[0], 30)]
        if observation.decision == 3:
            return [observation.buy(10, observation.book.ask, time_in_force=0)]
        return None

    play(MARKET, WATCHER, policy, every="2s")
    first, second, third, fourth, _ = seen
    assert (first.orders, first.position, first.account.cash, first.replies) == ((), 0, 0, ())
    [order] = second.orders
    assert (order.open, order.accepted, order.sent, order.order.price) == (80, True, first.time, 400_000)
    assert [type(one.reply) for one in second.replies] == [Accepted]
    assert [order.open for order in third.orders] == [30]
    assert fourth.position == 10 and [order.open for order in fourth.orders] == [30]
    paid = sum(one.reply.price * one.reply.shares for one in fourth.replies if isinstance(one.reply, Executed))
    assert fourth.account.cash == -100 * paid and dict(fourth.account.positions) == {"ABM": 10}


def test_an_order_on_its_way_is_known():
    """With a long way to the exchange it is open and not accepted until a reply is heard."""
    seen = []

    def policy(observation):
        seen.append([(order.open, order.accepted) for order in observation.orders])
        return [observation.buy(5, "40.00")] if observation.decision == 1 else None

    play(MARKET, WATCHER, policy, every="1s", delay="1500ms", end="9:30:04")
    assert seen == [[], [(5, False)], [(5, True)], [(5, True)]]


def test_the_delay_is_the_traders_own():
    """Its computation delay and its group's base latency, and what edits on the way made of them."""
    slow = MARKET.with_("agent.watcher.delay", "3us").with_("latency.base.1.0", "7us")
    assert Game(slow, WATCHER).delay == 10_000 and Game(MARKET, WATCHER).delay == 50_000
    edited = MARKET.branch("far", at="9:30:01", edits=[
        biqsolur.Latency(1, 0, "20us"), biqsolur.AgentParameter(WATCHER, "delay", "1us"), biqsolur.Latency(0, 1, "1s")])
    assert Game(edited, WATCHER, branch="far", start="9:30:02").delay == 21_000
    assert Game(edited, WATCHER).delay == 50_000


def test_vectors_name_their_numbers():
    """A fixed shape, floats, in the order of VECTOR."""
    game = Game(MARKET, WATCHER, "2s")
    observation, info = game.reset()
    vector = dict(zip(Observation.VECTOR, observation.as_vector()))
    assert observation.as_vector().shape == (len(Observation.VECTOR),)
    assert observation.as_vector().dtype == numpy.float64
    assert info == {} and vector["seconds_since_open"] == 2 and vector["seconds_to_close"] == 10
    assert vector["bid"] == observation.book.bid / 10_000 and vector["ask_shares"] == observation.book.ask_shares
    assert 0 <= vector["quote_age_seconds"] < 0.5 and vector["halted"] == 0 and vector["position"] == 0
    after = game.step([observation.buy(7, "40"), observation.sell(9, "60")])[0]
    vector = dict(zip(Observation.VECTOR, after.as_vector()))
    assert (vector["open_to_buy"], vector["open_to_sell"]) == (7, 9)


def test_worth_is_cash_and_the_position_at_the_middle():
    """By hand, for a long and a short position; the last price stands for a middle where a side is missing."""
    game = Game(MARKET, WATCHER, "2s")
    first, _ = game.reset()
    for book, middle in ((replace(first.book, bid=500_000, ask=500_300), 50.015),
                         (replace(first.book, bid=0, last=499_900), 49.99), (None, 0.0)):
        for shares in (300, -200):
            account = Account(1_500_000, {first.symbol: shares})
            seen = replace(first, book=book, account=account)
            assert seen.worth() == pytest.approx(1.5 + shares * middle) and seen.position == shares


def test_a_game_is_a_gym_environment():
    """Its steps are those of `play`; rewards add up to what the account gained; beginning anew gives the same."""
    played = play(MARKET, WATCHER, buyer, every="3s")
    game = Game(MARKET, WATCHER, "3s")
    for _ in range(2):
        observation, _ = game.reset(seed=5)
        start, rewards, terminated = observation.worth(), [], False
        while not terminated:
            observation, reward, terminated, truncated, info = game.step(buyer(observation))
            rewards.append(reward)
            assert not truncated and info == {}
        assert game.study == played and len(rewards) == 3
        assert observation.time == MARKET.to_dict()["close"]
        assert sum(rewards) == pytest.approx(observation.worth() - start)
        with pytest.raises(PlayError, match="no decision is open"):
            game.step([])


def test_a_market_that_ends_before():
    """At its limit of events no decision is left: an error, and a learner is told that it was cut."""
    short = MARKET.with_("events", 300)
    recorded = Recorded(lambda observation: None)
    with pytest.raises(PlayError, match=r"limit of 300 events, before decision \d+ at 9:30:.*`events`.*earlier `end`"):
        play(short, WATCHER, recorded, every="1s")
    assert 0 < len(recorded.seen) < 11
    assert play(short, WATCHER, recorded, every="1s", end="9:30:02") == short.in_version_2()
    recorded.seen = recorded.seen[:-2]
    game = Game(short, WATCHER, "1s")
    game.reset()
    ends = [game.step([])[2:4] for _ in range(len(recorded.seen))]
    assert ends == [(False, False)] * (len(recorded.seen) - 1) + [(False, True)]


def test_a_policy_that_raises_says_where():
    """The error has the decision, the time and the policy's own traceback."""
    def policy(observation):
        if observation.decision == 2:
            raise ZeroDivisionError("a bug of mine")
        return []

    with pytest.raises(PolicyError, match=r"(?s)decision 2, 9:30:02:.*Traceback.*in policy.*a bug of mine") as caught:
        play(MARKET, WATCHER, policy)
    assert (caught.value.decision, caught.value.time) == (2, MARKET.to_dict()["open"] + 2 * SECOND)
    assert isinstance(caught.value.__cause__, ZeroDivisionError)


def test_an_interrupt_goes_through():
    """Ctrl-C in a policy is no error of it."""
    def policy(observation):
        raise KeyboardInterrupt
    with pytest.raises(KeyboardInterrupt):
        play(MARKET, WATCHER, policy)


@pytest.mark.parametrize("answer, words", [
    (lambda observation: ["buy"], "decision 1, 9:30:01: 'buy' is no order"),
    (lambda observation: 5, "decision 1, 9:30:01: 5 was given, and a list of orders is to be, or None"),
    (lambda observation: observation.buy(1, "40"), r"decision 1, 9:30:01: Enter\(.*was given, and a list"),
    (lambda observation: [observation.buy(10, 50.0)], "(?s)decision 1.*50.0 is a floating-point number.*dollars as a text"),
    (lambda observation: [Enter("A", "B", 1, "ABM", "40"), Enter("A", "B", 2, "ABM", "40")], "token 'A' was used"),
])
def test_bad_answers_of_a_policy(answer, words):
    """Each says the decision and what is wrong with the answer."""
    with pytest.raises(PolicyError, match=words):
        play(MARKET, WATCHER, answer)


@pytest.mark.parametrize("do, words", [
    (lambda: play(MARKET, 8, buyer), "no trader 8; the study has the traders 1 to 7"),
    (lambda: play(MARKET, WATCHER, None), "None is no policy"),
    (lambda: play(MARKET, WATCHER, buyer, when="9:31"), "no setting 'when'; there are every, start, end"),
    (lambda: play(MARKET, WATCHER, buyer, every="soon"), "'soon' is no length of time"),
    (lambda: play(MARKET, WATCHER, buyer, every=0), "at least a nanosecond"),
    (lambda: play(MARKET, WATCHER, buyer, every="20s"),
     "first decision would be at 9:30:20; the hours are 9:30:00 to 9:30:12"),
    (lambda: play(MARKET, WATCHER, buyer, start="9:29"), "first decision would be at 9:29:00"),
    (lambda: play(MARKET, WATCHER, buyer, every="10ms"),
     "with up to 255 decisions.*`events` may be at most 15625.*by `most`"),
    (lambda: play(MARKET, WATCHER, buyer, most=0.5), "most: 0.5 is no number of branches"),
    (lambda: play(MARKET, WATCHER, buyer, every="2s", most=2),
     r"decision 3, 9:30:06: its orders make more than 2 branches"),
    (lambda: play(MARKET.branch("a", after=400), WATCHER, buyer, branch="a"),
     "decision 1: at 9:30:01 the branch 'a' has not begun.*later `start`"),
    (lambda: play(MARKET.branch("a", at="9:30:09"), WATCHER, buyer, branch="a"),
     "decision 1: at 9:30:01 the branch 'a' has not begun"),
    (lambda: play(MARKET, WATCHER, buyer, branch="none"), "no branch 'none'"),
])
def test_games_that_cannot_be(do, words):
    """Each is refused before a policy is asked in vain, and says what would do."""
    with pytest.raises(biqsolur.StudyError if "none" in words else PlayError, match=words):
        do()


def test_a_strategy_behind_another():
    """Played on the branch that a first strategy ended with, it goes on with that one's account; no token comes
    twice."""
    first = play(MARKET, WATCHER, buyer, every="3s", end="9:30:06")
    assert first.branches == ["root", "play-1", "play-2"]
    with pytest.raises(PlayError, match="the branch 'play-1' already; give the branches another `name`"):
        play(first, WATCHER, buyer, branch="play-2")
    recorded = Recorded(buyer)
    second = play(first, WATCHER, recorded, every="2s", start="9:30:07", branch="play-2", name="more")
    assert second.branches[:4] == ["root", "play-1", "play-2", "more-1"]
    branch, _ = replayed(second, WATCHER)
    tokens = [order.token for _, order in recorded.given if isinstance(order, Enter)]
    sent = [sent.message.token for sent in branch.messages() if sent.trader == WATCHER and sent.data[:1] == b"O"]
    assert len(set(sent)) == len(sent) and sent[2:] == tokens and sent[:2] == ["P1N1", "P2N1"] and "P1N2" in tokens
    assert branch.counts["ignored_enters"] == 0
    check_observations(branch, recorded.seen)


def quiet_market():
    """A watcher that wakes every hundred seconds, and nobody else."""
    table = Study.read(ROOT / "examples" / "empty.toml").to_dict()
    table.update(open=0, close=400 * SECOND, events=15_000)
    table["stock"][0]["every"] = SECOND
    table["agent"] = [{"kind": "watcher", "group": 0, "stock": "ABM", "first": 0, "every": 100 * SECOND}]
    return Study(table)


def test_a_reply_is_told_once():
    """Also where it is the last event before the decision, and nothing comes until the next one."""
    recorded = Recorded(lambda seen: [seen.buy(1, 100)] if seen.decision == 1 else None)
    play(quiet_market(), 1, recorded, end="0:00:05")
    assert [len(seen.replies) for seen in recorded.seen] == [0, 1, 0, 0, 0]


def test_the_most_decisions_with_orders():
    """255 branches, and at the next order a clear error; decisions without orders cost none."""

    def policy(count):
        return lambda seen: [seen.buy(1, 100) for _ in range(16 * count)] if seen.decision > 3 else None

    with pytest.raises(PlayError, match="decision 9, 0:00:09: its orders make more than 255 branches"):
        play(quiet_market(), 1, policy(51))
    game = Game(quiet_market(), 1)
    game.reset()
    game.give([])
    assert game.branches == [] and game.most == 255
    whole = play(quiet_market(), 1, policy(51), end="0:00:08")
    assert len(whole.branches) == 256 and len(whole.edits("play-255")) == 16
    whole.check()
