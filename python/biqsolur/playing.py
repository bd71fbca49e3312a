"""A strategy in Python, played in a study; what comes out is an ordinary study.

    def policy(observation):
        if observation.book and observation.position < 1000:
            return [observation.buy(100, observation.book.ask)]

    study = biqsolur.play(market, trader=33, policy=policy, every="5s")

At each decision time the study is run up to there, the policy is told what the trader could know then, and its orders
become the edits of a branch that leaves at that time. So the study that comes out sends the same orders again, without
the policy, and gives the same bytes to whoever runs it. A decision costs a run of all decisions before it.
"""

from __future__ import annotations

import traceback
from collections.abc import Callable, Iterable, Iterator, Mapping
from itertools import count
from os import PathLike
from typing import Any

from biqsolur.chains import (EDITS_OF_A_BRANCH, MOST_BRANCHES, MOST_EVENTS, inject_edits,
                             moment_of, room_fault, settings_fault, siblings_fault, trader_fault)
from biqsolur.errors import PlayError, PolicyError, StudyError
from biqsolur.fields import Table
from biqsolur.observation import Given, Ledger, Observation, last_quote, own_messages
from biqsolur.ouch import Cancel, Enter, Order, decode
from biqsolur.study import Study
from biqsolur.times import clock_text, duration, nanoseconds

AnyStudy = Study | str | PathLike[str] | Mapping[str, Any]
Policy = Callable[[Observation], Iterable[Order] | None]


def play(study: AnyStudy, trader: int, policy: Policy, every: object = "1s", **settings: Any) -> Study:
    """Plays a policy to the close and gives the study with its orders; its last branch is the run with all of them.

    policy: takes an Observation and returns orders (`observation.buy(...)`, `sell`, `cancel`, or `biqsolur.ouch.Enter`
    and `Cancel`), none of them or None. The settings are those of Game. Raises PlayError, also where the market ends
    before the last decision by its limit of events, PolicyError where the policy raises or gives what is no order, and
    StudyRefused.
    """
    if not callable(policy):
        raise PlayError(f"{policy!r} is no policy: give a function that takes an Observation and returns a list of orders")
    game = Game(study, trader, every, **settings)
    observation = game.observe()
    while observation is not None:
        game.give(asked(policy, observation))
        observation = game.observe()
    if game.asked < len(game.times):
        raise PlayError(
            f"the market ended by its limit of {game.table['events']} events, before decision {game.asked + 1} at "
            f"{clock_text(game.times[game.asked])}: raise `events`, or say an earlier `end`")
    return game.study


def asked(policy: Policy, observation: Observation) -> list[Order]:
    """The orders that a policy answers with."""
    try:
        answer = policy(observation)
        answer = list(answer) if isinstance(answer, Iterable) else answer
    except Exception as error:
        raise PolicyError(observation.decision, observation.time,
                          f"the policy failed at decision {observation.decision}, {clock_text(observation.time)}:\n"
                          f"{traceback.format_exc()}") from error
    return listed(answer, observation)


def listed(answer: object, observation: Observation) -> list[Any]:
    """What a policy answered, as a list; None is none. Raises PolicyError."""
    if answer is None:
        return []
    if not isinstance(answer, Iterable):
        raise PolicyError(observation.decision, observation.time,
                          f"decision {observation.decision}, {clock_text(observation.time)}: {answer!r} was given, and a "
                          "list of orders is to be, or None")
    return list(answer)


class Game:
    """A study that is played decision by decision, for policies that are asked from outside, such as a learner's.

    `reset` and `step` are those of a gym environment (Farama's Gymnasium): a step takes orders and gives (observation,
    reward, terminated, truncated, info). The reward is by how many dollars `observation.worth()` rose.

    trader: its number, from 1. every: the time between two decisions; start: the first one, `every` after the open
    where nothing is said; end: no decision later than it, or the close. delay: from a decision until its orders come to
    the exchange; where nothing is said, the trader's delay and the base latency of its group to the exchange's, without
    jitter. branch: which one is played; only it and those on the way to it are kept. most: how many branches the
    decisions may take, one for each with orders, two where it gives more than 16, and so on; where nothing is said, as
    many as the study has room for, which is to be one for each decision time or 255. name: the branches are NAME-1,
    NAME-2, ... The study gets version 2. `running` goes to `biqsolur.run` (workers, program).
    """

    def __init__(self, study: AnyStudy, trader: int, every: object = "1s", *, start: object = None, end: object = None,
                 delay: object = None, branch: str = "root", most: int | None = None, name: str = "play",
                 **running: Any) -> None:
        study = study if isinstance(study, Study) else Study(study)
        fault = settings_fault(running, ("every", "start", "end", "delay", "branch", "most", "name"))
        if fault is not None:
            raise PlayError(fault)
        study.check(running.get("program"))
        self.base, self.trader, self.name, self.running = study.only(branch).in_version_2(), trader, name, running
        fault = trader_fault(study, trader) or siblings_fault(self.base, branch)
        if fault is not None:
            raise PlayError(fault)
        self.table = self.base.to_dict()
        # without a text, which would be written anew each time
        self.plain = Study._made(self.table, None, self.base.folder)
        self.entry = entry_of(self.table, trader)
        self.delay = way_to_exchange(self.table, self.entry, trader) if delay is None else duration(delay)
        self.times = decision_times(self.table, every, start, end, self.delay)
        self.most = self._most(most)
        self.first_branch = branch
        taken = next((known for known in self.base.branches if known.startswith(f"{name}-")), None)
        if taken is not None:
            raise PlayError(
                f"the study has the branch {taken!r} already; give the branches another `name` than {name!r}")
        self.used_before = tokens_sent(self.table, trader)
        self._begin()

    def _most(self, most: int | None) -> int:
        """How many branches may be made; PlayError where the study has no room for one at each decision, or for
        `most`."""
        before = len(self.table.get("branch", []))
        room = MOST_BRANCHES - before
        if most is not None and (type(most) is not int or most < 0):
            raise PlayError(f"most: {most!r} is no number of branches")
        wanted = min(len(self.times), room) if most is None else most
        fault = room_fault(self.base, wanted)
        if fault is not None:
            raise PlayError(
                f"with up to {wanted} decisions that give orders: {fault}. Or say how many there are by `most`")
        return min(room, MOST_EVENTS // self.table["events"] - 1 - before) if most is None else most

    def _begin(self) -> None:
        """Back to before the first decision."""
        self.branches: list[Table] = []
        self.given: list[Given] = []
        self.asked = 0
        self.observation: Observation | None = None
        self.state_time = self.events = 0
        self.over = False

    @property
    def study(self) -> Study:
        """The study with the orders given so far; its last branch has all of them."""
        return self.base._with_branches(self.branches) if self.branches else self.base

    @property
    def branch(self) -> str:
        """The branch that has all orders given so far."""
        return str(self.branches[-1]["name"]) if self.branches else self.first_branch

    # ------------------------------------------------------------ decision by decision

    def observe(self) -> Observation | None:
        """Goes to the next decision time and tells what the trader knows there. None where no decision is left, or
        where the market ended before, by its limit of events or a full queue."""
        if self.over or self.asked == len(self.times):
            self.over = True
            return None
        observation = self._look(self.times[self.asked], self.asked + 1)
        self.asked += 1
        self.over = observation is None
        return observation

    def _look(self, time: int, decision: int) -> Observation | None:
        """What the trader knows at a time."""
        try:
            moment = moment_of(self.plain._with_branches(self.branches), self.branch, time, **self.running)
        except StudyError as error:
            raise PlayError(f"decision {decision}: {error}; say a later `start`") from None
        if moment.end in ("EventLimit", "QueueFull"):
            return None
        ledger = Ledger(self.entry.get("cash", 0), self.given, own_messages(moment.branch, self.trader))
        replies = ledger.heard_after(self.events)
        self.state_time, self.events = moment.time, moment.events
        self.observation = Observation(
            decision, time, self.table["open"], self.table["close"], self.trader, self.entry["stock"],
            last_quote(moment.branch, self.trader), ledger.orders, ledger.account, replies,
            tokens_of(decision, self.used_before))
        return self.observation

    def give(self, orders: Iterable[Order] | None) -> None:
        """Sends orders, None for none, at the decision that was last observed. Raises PolicyError for what is no order and for a token
        that was used, PlayError where they take more branches than there may be."""
        observation = self.observation
        if observation is None or self.over:
            raise PlayError("no decision is open: look first by observe() or reset(), which begins anew")
        orders = listed(orders, observation)
        used = self.used_before | {one.order.token for one in self.given if isinstance(one.order, Enter)}
        for order in orders:
            fault = order_fault(order, used)
            if fault is not None:
                raise PolicyError(observation.decision, observation.time,
                                  f"decision {observation.decision}, {clock_text(observation.time)}: {fault}")
        needed = -(-len(orders) // EDITS_OF_A_BRANCH)
        if len(self.branches) + needed > self.most:
            raise PlayError(
                f"decision {observation.decision}, {clock_text(observation.time)}: its orders make more than "
                f"{self.most} branches, the most there may be (255 in a study): decide less often, or give orders "
                "at fewer decisions")
        self._send(observation.time, orders)

    def _send(self, time: int, orders: list[Order]) -> None:
        """Makes the branches that send orders, sixteen each."""
        state, due = self.state_time, time + self.delay
        for start in range(0, len(orders), EDITS_OF_A_BRANCH):
            part = [(due, order.hex()) for order in orders[start:start + EDITS_OF_A_BRANCH]]
            self.branches.append({"name": f"{self.name}-{len(self.branches) + 1}", "parent": self.branch, "when": time,
                                  "edit": inject_edits(self.trader, part, state)})
            state = max(state, due) if due <= time else state
        self.given += [Given(time, order) for order in orders]

    # ------------------------------------------------------------ as a gym environment

    def reset(self, *, seed: int | None = None, options: object = None) -> tuple[Observation, dict[str, Any]]:
        """Begins anew, and gives (the first observation, {}). The market's chance is the study's key: `seed` and
        `options` are taken for the sake of the interface and change nothing."""
        self._begin()
        observation = self.observe()
        if observation is None:
            raise PlayError("the market ends before the first decision")
        return observation, {}

    def step(self, orders: Iterable[Order] | None) -> tuple[Observation, float, bool, bool, dict[str, Any]]:
        """Sends orders and goes on to the next decision, behind the last one to the close: (observation, reward in
        dollars, terminated, truncated, {}). terminated: no decision is left; truncated: the market ended before by a
        limit, and the observation is the last one."""
        before = self.observation
        self.give(orders)
        assert before is not None
        after = self.observe()
        truncated = after is None and self.asked < len(self.times)
        if after is None:
            after = None if truncated else self._look(self.table["close"], self.asked + 1)
        now = before if after is None else after
        return now, now.worth() - before.worth(), self.over and not truncated, truncated, {}


# ---------------------------------------------------------------- what a game needs of a study


def entry_of(table: Table, trader: int) -> Table:
    """The agent entry that makes a trader."""
    first = 1
    for entry in table["agent"]:
        first += entry.get("count", 1)
        if trader < first:
            return dict(entry)
    raise PlayError(f"there is no trader {trader}")


def way_to_exchange(table: Table, entry: Table, trader: int) -> int:
    """How long a trader's order takes without jitter, in nanoseconds: its delay and the base latency of its group to
    the exchange's, as the played branch's edits leave them."""
    delay, ends = entry.get("delay", 0), (entry["group"], table["exchange"]["group"])
    base = table["latency"]["base"][ends[0]][ends[1]]
    for edit in (edit for branch in table.get("branch", []) for edit in branch.get("edit", [])):
        if edit["kind"] == "latency" and (edit["from"], edit["to"]) == ends:
            base = edit["base"]
        if (edit["kind"], edit.get("agent"), edit.get("name")) == ("agent", trader, "delay"):
            delay = edit["value"]
    return int(delay + base)


def decision_times(table: Table, every: object, start: object, end: object, delay: int) -> range:
    """The times of all decisions (ns): those whose orders come by the close. PlayError where there is none."""
    try:
        step = duration(every)
        if step < 1:
            raise PlayError(f"every: {every!r} is no time between two decisions; it is at least a nanosecond")
        first = table["open"] + step if start is None else nanoseconds(start)
        last = min(table["close"] - delay, table["close"] if end is None else nanoseconds(end))
    except PlayError:
        raise
    except StudyError as error:
        raise PlayError(str(error)) from None
    if not table["open"] <= first <= last:
        raise PlayError(
            f"the first decision would be at {clock_text(first)}; the hours are {clock_text(table['open'])} to "
            f"{clock_text(table['close'])}, and the last decision whose orders come in time is at "
            f"{clock_text(max(0, last))}")
    return range(first, last + 1, step)


def tokens_sent(table: Table, trader: int) -> set[str]:
    """The tokens of the orders that edits send in a trader's name."""
    edits = [edit for branch in table.get("branch", []) for edit in branch.get("edit", [])]
    own = [edit for edit in edits if (edit["kind"], edit.get("agent")) == ("inject", trader)]
    messages = [decode(bytes.fromhex(edit["message"])) for edit in own]
    return {message.token for message in messages if isinstance(message, Enter)}


def tokens_of(decision: int, used: set[str]) -> Iterator[str]:
    """The tokens of a decision's orders, one after another: P, the decision, N, the order. Used ones are left out."""
    return (token for token in (f"P{decision}N{number}" for number in count(1)) if token not in used)


def order_fault(order: object, used: set[str]) -> str | None:
    """What is wrong with an order of a policy, or None; the token of an Enter joins the used ones."""
    if not isinstance(order, (Enter, Cancel)):
        return f"{order!r} is no order; give ouch.Enter or Cancel, as observation.buy, sell and cancel make them"
    if isinstance(order, Enter):
        if order.token in used:
            return f"the token {order.token!r} was used by an order before, and the exchange ignores a second one"
        used.add(order.token)
    return None
