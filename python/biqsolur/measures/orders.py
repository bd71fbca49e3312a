"""What becomes of orders: how long they rest, whether they are filled, and where they stand in the queue."""

from __future__ import annotations

import math
from dataclasses import dataclass
from typing import TYPE_CHECKING

import numpy
import pandas

from biqsolur import columns, layouts
from biqsolur.errors import MeasureError
from biqsolur.measures.tape import Tape, event_number, named, tape_of

if TYPE_CHECKING:
    from biqsolur.bundle import Branch

ENTERED = ("event", "time", "agent", "token", "stock", "sign", "shares", "price", "time_in_force", "hidden")
FATES = ["filled", "canceled", "rejected", "open", "ignored", "unheard"]
FILLED, CANCELED, REJECTED, OPEN, IGNORED, UNHEARD = range(6)
MOST_PAIRS = 131_072            # of agent and token that the exchange remembers
DISPLAY = layouts.layout(49, display=(40, "u1"))
NEVER = numpy.iinfo(numpy.int64).max
DISTANCES = {"improving": -1, "at_touch": 0, "behind": 1}


def lives(branch: Branch) -> pandas.DataFrame:
    """The life of each order that came to the exchange: a row an Enter, in the order in which they came.

    Columns: event, time (ns; when the exchange took it), agent, token (a number), stock (-1 where the symbol is
    none), sign (1 to buy, -1 to sell), shares, price, time_in_force, hidden (bool), reference (0 where it is not
    known), fate, and

    - on_entry, rested: shares that were executed when it came, and that came to rest then;
    - executed, canceled, open: all its shares that were executed, that a cancel (or time in force 0) took away, and
      that are open at the end of the run. Of an order that was filled or canceled, or is open, they add up to
      `shares`;
    - first_fill, end (ns): when it was first executed, and when nothing of it was left; -1 where that was not, or is
      not known;
    - bid, ask: the best displayed prices of its stock right before it came (0 where a side is empty);
    - distance: how far its price is behind the best displayed one of its own side then (0.0001 dollars; below 0 where
      it is better; not-a-number where that side is empty);
    - ahead: the shares displayed before it at its price when it came to rest; -1 where it did not come to rest
      displayed.

    Each order has one fate: `filled` (the last of it was executed), `canceled` (the last of it was canceled, by its
    agent or by time in force 0), `rejected`, `open` (it rests at the end), `ignored` (its agent had used the token
    before: the exchange takes no notice), or `unheard`: at the end the reply is still under way, and the feed says
    nothing of it. That can be only of orders that were rejected, hidden or of time in force 0, in the last moments of
    a run.
    """
    return tape_of(branch).keep("lives", make_lives)


@dataclass
class Entered:
    """The Enters that the exchange took, an array each with an element an order. pair: a number for agent and token."""

    event: numpy.ndarray
    time: numpy.ndarray
    agent: numpy.ndarray
    token: numpy.ndarray
    stock: numpy.ndarray
    sign: numpy.ndarray
    shares: numpy.ndarray
    price: numpy.ndarray
    time_in_force: numpy.ndarray
    hidden: numpy.ndarray
    message: numpy.ndarray
    pair: numpy.ndarray


def entered(branch: Branch) -> Entered:
    """Reads them."""
    frames, part = branch.bundle.frames, branch.part
    index = part.entries + numpy.flatnonzero(frames.kinds[part.entries:part.entries_end] == ord("e"))
    index = index[frames.sizes[index] == layouts.EVENT.itemsize + layouts.ENTER.itemsize]
    head = frames.records(index, layouts.EVENT)
    index, head = index[head["delivery"] != ord("P")], head[head["delivery"] != ord("P")]
    body = frames.records(index, layouts.ENTER, layouts.EVENT.itemsize)
    token, agent = branch.bundle.tokens.numbers(body["token"]), head["sender"].astype(numpy.int64)
    stock = columns.symbols_of(body["symbol"], branch.symbols).codes.astype(numpy.int64)
    return Entered(
        head["number"].astype(numpy.int64), head["time"].astype(numpy.int64), agent, token,
        numpy.where(stock < len(branch.symbols), stock, -1), numpy.where(body["side"] == ord("B"), 1, -1),
        *(body[name].astype(numpy.int64) for name in ("shares", "price", "time_in_force")),
        frames.records(index, DISPLAY, layouts.EVENT.itemsize)["display"] == ord("N"),
        head["message"].astype(numpy.int64), pair_of(agent, token))


def pair_of(agent: numpy.ndarray, token: numpy.ndarray) -> numpy.ndarray:
    """One number for an agent and its token."""
    return numpy.asarray(token, numpy.int64) << 16 | numpy.asarray(agent, numpy.int64)


@dataclass
class Pairs:
    """Which order each pair of agent and token means: the first one that came under it."""

    sorted: numpy.ndarray       # the pairs, rising
    first: numpy.ndarray        # of each the place of its order

    def orders(self, agent: numpy.ndarray, token: numpy.ndarray) -> tuple[numpy.ndarray, numpy.ndarray]:
        """The places of the orders that these pairs mean, and which of the pairs mean one."""
        wanted = pair_of(agent, token)
        if len(self.sorted) == 0:
            return numpy.zeros(len(wanted), numpy.int64), numpy.zeros(len(wanted), bool)
        place = numpy.minimum(numpy.searchsorted(self.sorted, wanted), len(self.sorted) - 1)
        return self.first[place], self.sorted[place] == wanted


def totals(count: int, place: numpy.ndarray, values: numpy.ndarray) -> numpy.ndarray:
    """Sums of values by their places below `count`, as whole numbers."""
    return numpy.bincount(place, values, count)[:count].astype(numpy.int64)


def firsts(count: int, place: numpy.ndarray, times: numpy.ndarray) -> numpy.ndarray:
    """The least of the times of each place below `count`; the greatest whole number where there is none."""
    least = numpy.full(count, NEVER)
    by_time = numpy.argsort(-times, kind="stable")
    least[place[by_time]] = times[by_time]
    return least


class Story:
    """What is known of each order that came, taken from the feed, from the replies that were heard, and from the
    closing.

    Of an order that rested displayed the feed tells all; of one that rested hidden its replies do.
    """

    def __init__(self, branch: Branch, orders: Entered, pairs: Pairs) -> None:
        self.tape = tape_of(branch)
        self.orders = orders
        self.pairs = pairs
        count = len(orders.event)
        for name in ("reference", "on_entry", "rested", "executed", "canceled", "open"):
            setattr(self, name, numpy.zeros(count, numpy.int64))
        for name in ("first_fill", "last_fill", "last_cancel", "displayed", "ahead"):
            setattr(self, name, numpy.full(count, -1, numpy.int64))
        self.accepted, self.rejected = numpy.zeros(count, bool), numpy.zeros(count, bool)
        self.take_trades(branch.trades)
        self.take_feed()
        self.take_replies(branch.replies)
        self.take_closing(branch.closing.orders)
        self.take_rests()

    def take_trades(self, trades: pandas.DataFrame) -> None:
        """What was executed when the order came."""
        event = trades.event.to_numpy(numpy.int64)
        place, known = found(self.orders.event, event)
        self.on_entry = totals(len(self.orders.event), place[known], trades.shares.to_numpy()[known])
        self.executed = self.on_entry.copy()
        self.first_fill = numpy.where(self.on_entry > 0, self.orders.time, -1)

    def take_feed(self) -> None:
        """What became of the orders that rested displayed."""
        messages, levels = self.tape.messages, self.tape.levels
        count = len(messages.row)
        place, known = found(self.orders.event, messages.event[messages.row])
        place, own = place[known], numpy.flatnonzero(known)
        self.displayed[place] = own
        self.reference[place], self.rested[place] = messages.reference[own], messages.shares[own]
        fills = messages.kind == ord("E")
        takes = ~fills & (messages.change < 0)
        self.executed[place] += totals(count, messages.order[fills], -messages.change[fills])[own]
        self.canceled[place] = totals(count, messages.order[takes], -messages.change[takes])[own]
        self.open[place] = self.rested[place] - totals(count, messages.order[fills | takes],
                                                       -messages.change[fills | takes])[own]
        first = firsts(count, messages.order[fills], messages.time[fills])[own]
        later = (self.first_fill[place] < 0) & (first < NEVER)
        self.first_fill[place[later]] = first[later]
        at_rest = levels.open_shares(levels.level, messages.row, len(messages.index))
        self.ahead[place] = at_rest[own] - messages.shares[own]

    def take_replies(self, replies: pandas.DataFrame) -> None:
        """What the agents heard: that an order was accepted or rejected, and what became of one that rested hidden."""
        place, known = self.pairs.orders(replies.agent.to_numpy(), replies.token.to_numpy())
        handled, shares = replies.handled.to_numpy(), replies.shares.to_numpy()
        accepted, rejected, executed, canceled = (known & (replies.kind == kind).to_numpy() for kind in
                                                  ("accepted", "rejected", "executed", "canceled"))
        self.accepted[place[accepted]] = True
        self.reference[place[accepted]] = replies.reference.to_numpy()[accepted]
        self.rejected[place[rejected]] = True
        hidden = self.displayed[place] < 0 if len(self.orders.event) else known
        fills = executed & hidden & (replies.flag == "A").to_numpy()
        cancels = canceled & hidden & (replies.reason == "U").to_numpy()
        count = len(self.orders.event)
        self.executed += totals(count, place[fills], shares[fills])
        self.canceled += totals(count, place[cancels], shares[cancels])
        first = firsts(count, place[fills], handled[fills])
        self.first_fill = numpy.where((self.first_fill < 0) & (first < NEVER), first, self.first_fill)
        self.last_fill = -firsts(count, place[fills], -handled[fills])
        self.last_cancel = -firsts(count, place[cancels], -handled[cancels])

    def take_closing(self, resting: pandas.DataFrame) -> None:
        """Which hidden orders rest at the end: what they have open, and of what size they are since the cancels."""
        place, known = self.pairs.orders(resting.agent.to_numpy(), resting.token.to_numpy())
        known &= resting.hidden.to_numpy()
        place, resting = place[known], resting[known]
        self.open[place], self.reference[place] = resting.open, resting.reference
        self.canceled[place] = self.orders.shares[place] - resting.intended
        self.executed[place] = resting.intended - resting.open
        self.accepted[place] = True

    def take_rests(self) -> None:
        """What follows from the rules: an order whose time in force is 0 never rests, and a rest that is not
        displayed is hidden."""
        orders = self.orders
        self.accepted |= (self.displayed >= 0) | (self.on_entry > 0)
        at_once = self.accepted & (orders.time_in_force == 0)
        self.canceled = numpy.where(at_once, orders.shares - self.on_entry, self.canceled)
        rests = self.accepted & ~at_once & (self.displayed < 0)
        self.rested = numpy.where(rests, orders.shares - self.on_entry, self.rested)

    def fates(self) -> numpy.ndarray:
        """The fate of each order, as a place in FATES, of those that came under a new token."""
        left = self.orders.shares - self.executed - self.canceled
        fate = numpy.full(len(left), UNHEARD)
        fate[self.rejected] = REJECTED
        gone = self.accepted & (left == 0)
        fate[gone] = numpy.where(self.by_cancel()[gone], CANCELED, FILLED)
        fate[self.accepted & (self.open > 0)] = OPEN
        return fate

    def by_cancel(self) -> numpy.ndarray:
        """Whether the last of an order of which nothing is left was canceled."""
        messages, shown = self.tape.messages, self.displayed >= 0
        last = numpy.append(messages.kind, 0)[numpy.append(messages.end, -1)[self.displayed]]
        at_once = self.orders.time_in_force == 0
        hidden = numpy.where(at_once, self.canceled > 0, self.last_cancel > self.last_fill)
        return numpy.where(shown, last != ord("E"), hidden)

    def ends(self, fate: numpy.ndarray) -> numpy.ndarray:
        """When nothing of an order was left (ns), -1 where something is, or where it is not known."""
        messages = self.tape.messages
        shown = numpy.append(messages.time, -1)[numpy.append(messages.end, -1)[self.displayed]]
        hidden = numpy.maximum(self.last_fill, self.last_cancel)
        end = numpy.where(self.rested == 0, self.orders.time, numpy.where(self.displayed >= 0, shown, hidden))
        return numpy.where((fate == OPEN) | (fate == UNHEARD), -1, end)


def found(among: numpy.ndarray, wanted: numpy.ndarray) -> tuple[numpy.ndarray, numpy.ndarray]:
    """The places of the wanted numbers among rising ones, and which of them are there."""
    if len(among) == 0:
        return numpy.zeros(len(wanted), numpy.int64), numpy.zeros(len(wanted), bool)
    place = numpy.minimum(numpy.searchsorted(among, wanted), len(among) - 1)
    return place, among[place] == wanted


def make_lives(branch: Branch) -> pandas.DataFrame:
    """The lives of the orders, made."""
    orders = entered(branch)
    pairs, again, full = repeats(orders)
    story = Story(branch, orders, pairs)
    fate = story.fates()
    fate[again], fate[full] = IGNORED, REJECTED
    mine = ~again & ~full
    frame = {name: getattr(orders, name) for name in ENTERED}
    frame["reference"] = numpy.where(mine, story.reference, 0)
    frame["fate"] = pandas.Categorical.from_codes(fate, FATES)
    for name in ("on_entry", "rested", "executed", "canceled", "open"):
        frame[name] = numpy.where(mine, getattr(story, name), 0)
    frame["first_fill"] = numpy.where(mine, story.first_fill, -1)
    frame["end"] = numpy.where(mine, story.ends(fate), numpy.where(full, orders.time, -1))
    frame |= best_before(story.tape, orders)
    frame["ahead"] = numpy.where(mine, story.ahead, -1)
    return pandas.DataFrame(frame)


def repeats(orders: Entered) -> tuple[Pairs, numpy.ndarray, numpy.ndarray]:
    """Which order each pair means; which orders came under a pair that was remembered; and which came when as many
    pairs were remembered as can be, under another one: the exchange rejects them, and remembers none of them."""
    known, first, inverse = numpy.unique(orders.pair, return_index=True, return_inverse=True)
    rank = numpy.empty(len(known), numpy.int64)
    rank[numpy.argsort(first, kind="stable")] = numpy.arange(len(known))
    full = rank[inverse] >= MOST_PAIRS
    return Pairs(known, first), (first[inverse] != numpy.arange(len(inverse))) & ~full, full


def best_before(tape: Tape, orders: Entered) -> dict[str, numpy.ndarray]:
    """The best prices right before each order came, and how far its price is behind that of its side."""
    bid, ask = numpy.zeros(len(orders.event), numpy.int64), numpy.zeros(len(orders.event), numpy.int64)
    for stock, steps in enumerate(tape.steps):
        own = numpy.flatnonzero(orders.stock == stock)
        row = steps.before(orders.event[own])
        bid[own], ask[own] = numpy.append(steps.bid, 0)[row], numpy.append(steps.ask, 0)[row]
    buys = orders.sign > 0
    distance = numpy.where(buys, bid - orders.price, orders.price - ask).astype(float)
    return {"bid": bid, "ask": ask, "distance": numpy.where(numpy.where(buys, bid, ask) > 0, distance, numpy.nan)}


def queue_path(branch: Branch, reference: int) -> pandas.DataFrame:
    """The place in the queue of an order that rested displayed, along its life: a row for when it came to rest, and
    one for each later message at its price that changes how many shares are before it or open of it. Columns: event,
    time (ns), ahead (displayed shares before it at its price), open (its own shares). MeasureError where the feed has
    no such order."""
    messages, level = tape_of(branch).messages, tape_of(branch).levels.level
    orders = numpy.flatnonzero(messages.reference == reference)
    if len(orders) == 0:
        raise MeasureError(f"the feed of {branch.name} added no order {reference}")
    order = int(orders[0])
    rows = numpy.flatnonzero((level[messages.order] == level[order]) & (messages.order <= order))
    before, own = messages.order[rows] < order, messages.order[rows] == order
    ahead, left = (numpy.cumsum(numpy.where(which, messages.change[rows], 0)) for which in (before, own))
    shown = (rows >= messages.row[order]) & (rows <= messages.end[order])
    return pandas.DataFrame({"event": messages.event[rows][shown], "time": messages.time[rows][shown],
                             "ahead": ahead[shown], "open": left[shown]})


def lives_of(branch: Branch, after: int, stock: int | str | None) -> list[tuple[int, pandas.DataFrame]]:
    """The lives of the orders that came behind the event `after`, stock by stock."""
    tape, frame = tape_of(branch), lives(branch)
    frame = frame[frame.event > event_number(after)]
    return [(number, frame[frame.stock == number]) for number in tape.stocks(stock)]


def median(values: pandas.Series) -> float:
    """The median; not-a-number where there is none."""
    return float(values.median()) if len(values) else math.nan


def order_fates(branch: Branch, *, after: int = 0, stock: int | str | None = None) -> dict[str, float]:
    """How many orders came, and how many of them had each fate (see `lives`): orders = orders_filled +
    orders_canceled + orders_rejected + orders_open + orders_ignored + orders_unheard. They are counted where they
    came behind the event `after`, whatever became of them when. An order for an unknown symbol belongs to no stock
    and is not counted.
    """
    numbers: dict[str, float] = {}
    for number, own in lives_of(branch, after, stock):
        counts = own.fate.value_counts()
        numbers |= named(branch, number, {"orders": len(own)} | {f"orders_{fate}": int(counts[fate]) for fate in FATES})
    return numbers


def order_lifetime(branch: Branch, *, after: int = 0, stock: int | str | None = None) -> dict[str, float]:
    """How long orders rest: mean and median, over the orders that came to rest and have ended, of the time from when
    they came to when nothing of them was left (ns). Orders that rest at the end are left out, so a short run makes
    lives short.

        order_lifetime = mean(end_i - time_i)

    Source: Hasbrouck and Saar (2009).
    """
    numbers: dict[str, float] = {}
    for number, own in lives_of(branch, after, stock):
        ended = own[(own.rested > 0) & (own.end >= 0)]
        length = ended.end - ended.time
        numbers |= named(branch, number, {"order_lifetime": float(length.mean()),
                                          "order_lifetime_median": median(length)})
    return numbers


def cancel_ratio(branch: Branch, *, after: int = 0, stock: int | str | None = None) -> dict[str, float]:
    """Which part of the accepted orders ended by a cancel, and how many orders came for a trade.

        cancel_ratio = canceled / (filled + canceled + open)          orders_per_trade = orders / trades

    with the fates of `lives`, of orders that came behind the event `after`, and the matches behind it. Not-a-number
    where there is nothing to divide by. Source: Hasbrouck and Saar (2009) for the first.
    """
    numbers: dict[str, float] = {}
    for number, own in lives_of(branch, after, stock):
        counts, trades = own.fate.value_counts(), len(tape_of(branch).trades[number].since(after).event)
        accepted = int(counts[["filled", "canceled", "open"]].sum())
        numbers |= named(branch, number, {"cancel_ratio": int(counts["canceled"]) / accepted if accepted else math.nan,
                                          "orders_per_trade": len(own) / trades if trades else math.nan})
    return numbers


def resting_fills(own: pandas.DataFrame) -> pandas.DataFrame:
    """Of the lives those of orders that came to rest, with filled (bool: executed at all while it rested), wait (ns
    from when it came to its first execution while it rested; of one that was executed as it came too the first one
    counts, 0) and place: -1 where its price improved the best one of its side, 0 at it, 1 behind it; an empty side is
    improved."""
    rests = own[own.rested > 0]
    filled = rests.executed > rests.on_entry
    return rests.assign(filled=filled, wait=rests.first_fill - rests.time,
                        place=numpy.sign(rests.distance.fillna(-1)).astype(int))


def fill_probability(branch: Branch, *, after: int = 0, stock: int | str | None = None) -> dict[str, float]:
    """Which part of the orders that came to rest was executed, at least in part, while it rested.

        fill_probability = (orders executed while they rested) / (orders that came to rest)

    and the same of those whose price improved the best displayed one of their side, was at it, and was behind it:
    fill_probability_improving, _at_touch, _behind. Orders that still rest at the end count as not executed where they
    have not been. Source: Lo, MacKinlay and Zhang (2002) of times to fill.
    """
    numbers: dict[str, float] = {}
    for number, own in lives_of(branch, after, stock):
        rests = resting_fills(own)
        values = {"fill_probability": float(rests.filled.mean())}
        for name, place in DISTANCES.items():
            values[f"fill_probability_{name}"] = float(rests.filled[rests.place == place].mean())
        numbers |= named(branch, number, values)
    return numbers


def time_to_fill(branch: Branch, *, after: int = 0, stock: int | str | None = None) -> dict[str, float]:
    """How long an order waits for its first execution: the median over the orders that were executed while they
    rested, and not already as they came, from when they came to then (ns); time_to_fill_improving, _at_touch, _behind
    by the place of their price (see `fill_probability`).

        time_to_fill = median(first_fill_i - time_i)

    Source: Lo, MacKinlay and Zhang (2002).
    """
    numbers: dict[str, float] = {}
    for number, own in lives_of(branch, after, stock):
        rests = resting_fills(own)
        filled = rests[rests.filled & (rests.on_entry == 0)]
        values = {"time_to_fill": median(filled.wait)}
        for name, place in DISTANCES.items():
            values[f"time_to_fill_{name}"] = median(filled.wait[filled.place == place])
        numbers |= named(branch, number, values)
    return numbers


def fills_by_distance(branch: Branch, *, after: int = 0) -> pandas.DataFrame:
    """Fill probability and time to fill at each distance from the touch: a row a stock and distance, with stock,
    distance (0.0001 dollars behind the best displayed price of the order's own side when it came), orders (that came
    to rest), filled (the part executed at all while it rested) and wait (the median ns to the first execution of
    those that were)."""
    frame = resting_fills(lives(branch)[lambda own: own.event > event_number(after)])
    frame = frame[frame.distance.notna()].assign(wait=frame.wait.where(frame.filled))
    groups = frame.groupby(["stock", "distance"])
    return pandas.DataFrame({"orders": groups.size(), "filled": groups.filled.mean(),
                             "wait": groups.wait.median()}).reset_index()


def queue_at_entry(branch: Branch, *, after: int = 0, stock: int | str | None = None) -> dict[str, float]:
    """How many shares are before an order when it comes to rest: the mean, over the orders that rested displayed, of
    the displayed shares at its price that came before it; queue_at_touch over those at the best price of their side.

        queue_at_entry = mean(ahead_i)

    In shares, with `ahead` of `lives`. Source: Moallemi and Yuan (2016), of what a place in the queue is worth.
    """
    numbers: dict[str, float] = {}
    for number, own in lives_of(branch, after, stock):
        rests = own[own.ahead >= 0]
        numbers |= named(branch, number, {"queue_at_entry": float(rests.ahead.mean()),
                                          "queue_at_touch": float(rests.ahead[rests.distance == 0].mean())})
    return numbers
