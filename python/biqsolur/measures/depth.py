"""What stands in the displayed book: depth, imbalance, the flow of orders into it, and how soon it is mended."""

from __future__ import annotations

import math
from bisect import bisect_right
from typing import TYPE_CHECKING

import numpy
import pandas

from biqsolur.book import Side
from biqsolur.measures.tape import Steps, Trades, Window, duration, mean, named, per_stock, tape_of, whole_number

if TYPE_CHECKING:
    from biqsolur.bundle import Branch
    from biqsolur.top import BookMessages

LEVELS = 5
INTERVAL = 1_000_000_000        # ns
HORIZON = 1_000_000_000         # ns


def depths(branch: Branch, levels: int = LEVELS) -> pandas.DataFrame:
    """The displayed shares at the best `levels` price levels of each side, after each event that changed one of them:
    event, time (ns), stock, bid_depth, ask_depth (shares). Before a stock's first row both are 0."""
    levels = whole_number("levels", levels)
    return tape_of(branch).keep(f"depths {levels}", lambda of: make_depths(of, levels))


def make_depths(branch: Branch, levels: int) -> pandas.DataFrame:
    """The same, made: all messages are gone through one by one."""
    messages = tape_of(branch).messages
    sides = {(stock, buy): Side(buy) for stock in numpy.unique(messages.stock).tolist() for buy in (False, True)}
    sums = dict.fromkeys(sides, 0)
    table = numpy.zeros((2, len(messages.index)), numpy.int64)
    bids, asks = table
    stocks, orders = messages.stock.tolist(), messages.order
    steps = zip(stocks, messages.buy[orders].tolist(), messages.price[orders].tolist(), messages.change.tolist())
    for row, (stock, buy, price, change) in enumerate(steps):
        side = sides[stock, buy]
        if side.change(price, change) < levels:
            sums[stock, buy] = sum(map(side.shares.__getitem__, side.ranks[:levels]))
        bids[row], asks[row] = sums[stock, True], sums[stock, False]
    return changed_depths(messages, bids, asks)


def changed_depths(messages: BookMessages, bids: numpy.ndarray, asks: numpy.ndarray) -> pandas.DataFrame:
    """The rows at the end of an event that has changed a depth of its stock."""
    found = []
    for stock in numpy.unique(messages.stock):
        rows = numpy.flatnonzero(messages.stock == stock)
        last = rows[numpy.diff(messages.event[rows], append=-1) != 0]
        changed = (numpy.diff(bids[last], prepend=0) != 0) | (numpy.diff(asks[last], prepend=0) != 0)
        found.append(last[changed])
    rows = numpy.sort(numpy.concatenate(found)) if found else numpy.zeros(0, numpy.int64)
    return pandas.DataFrame({"event": messages.event[rows], "time": messages.time[rows], "stock": messages.stock[rows],
                             "bid_depth": bids[rows], "ask_depth": asks[rows]})


def held_depths(branch: Branch, stock: int, steps: Steps, window: Window,
                levels: int) -> tuple[numpy.ndarray, numpy.ndarray, numpy.ndarray]:
    """Of one stock the depths of both sides and for how many nanoseconds of the window each pair stands while it
    trades."""
    frame = depths(branch, levels)
    own = (frame.stock == stock).to_numpy()
    times = frame.time.to_numpy()[own]
    points = numpy.unique(numpy.concatenate([times, steps.time, [window.start]]))
    points = points[points >= window.start]
    place = numpy.searchsorted(times, points, side="right") - 1
    bids, asks = (numpy.append(frame[name].to_numpy()[own], 0)[place] for name in ("bid_depth", "ask_depth"))
    held = numpy.maximum(numpy.minimum(numpy.append(points[1:], window.end), window.end) - points, 0)
    trading = numpy.append(steps.trading, True)[steps.at(points)]
    return bids, asks, numpy.where(trading, held, 0)


def displayed_depth(branch: Branch, *, levels: int = LEVELS, after: int = 0,
                    stock: int | str | None = None) -> dict[str, float]:
    """The time-weighted mean, while the stock trades, of the displayed shares at the best `levels` price levels.

        bid_depth = sum(w_i B_i) / sum(w_i),   B_i: the shares at the best levels to buy; ask_depth likewise

    A side that is empty counts as 0. depth is the sum of both. In shares. Source: Biais, Hillion and Spatt (1995), of
    the best five levels.
    """
    numbers: dict[str, float] = {}
    window = tape_of(branch).window(after)
    for number, steps, _ in per_stock(branch, stock):
        bids, asks, held = held_depths(branch, number, steps, window, levels)
        values = {"bid_depth": mean(bids.astype(float), held), "ask_depth": mean(asks.astype(float), held)}
        numbers |= named(branch, number, values | {"depth": values["bid_depth"] + values["ask_depth"]})
    return numbers


def imbalance(branch: Branch, *, levels: int = 1, after: int = 0, stock: int | str | None = None) -> dict[str, float]:
    """The time-weighted mean, while the stock trades, of how much more is displayed to buy than to sell.

        imbalance = sum(w_i (B_i - A_i) / (B_i + A_i)) / sum(w_i)

    over the best `levels` price levels of each side, where anything is displayed; from -1 to 1. imbalance_absolute is
    the mean of its absolute value. Sources: Gould and Bonart (2016), of the best level; `depthImbalanceDifference` in
    R's highfrequency is this ratio at each trade, with the other sign and times the trade's side.
    """
    numbers: dict[str, float] = {}
    window = tape_of(branch).window(after)
    for number, steps, _ in per_stock(branch, stock):
        bids, asks, held = held_depths(branch, number, steps, window, levels)
        total = bids + asks
        share = numpy.where(total > 0, (bids - asks) / numpy.maximum(total, 1), numpy.nan)
        numbers |= named(branch, number, {"imbalance": mean(share, held), "imbalance_absolute": mean(abs(share), held)})
    return numbers


def flow_steps(steps: Steps) -> numpy.ndarray:
    """What each change of the best prices adds to the order-flow imbalance, in shares:

        e = [b >= b'] q - [b <= b'] q' - [a <= a'] r + [a >= a'] r'

    with b and a the best prices, q and r the shares at them, and ' for those before. An empty side to sell is beyond
    every price, one to buy below every price, both with 0 shares.
    """
    bid, ask = steps.bid.astype(float), numpy.where(steps.ask > 0, steps.ask, numpy.inf)
    bid_before, ask_before = numpy.append(0, bid[:-1]), numpy.append(numpy.inf, ask[:-1])
    bought, sold = steps.bid_shares, steps.ask_shares
    bought_before, sold_before = numpy.append(0, bought[:-1]), numpy.append(0, sold[:-1])
    return ((bid >= bid_before) * bought - (bid <= bid_before) * bought_before
            - (ask <= ask_before) * sold + (ask >= ask_before) * sold_before)


def order_flows(branch: Branch, interval: int | str = INTERVAL, *, after: int = 0) -> pandas.DataFrame:
    """The order-flow imbalance over each interval of a grid: a row a stock and interval, with stock, start (ns),
    imbalance (shares) and move (of the mid over it, 0.0001 dollars; not-a-number where an end has no mid). The
    changes that count are those behind the interval's start and at or before its end. Source: Cont, Kukanov and
    Stoikov (2014).
    """
    window, length, parts = tape_of(branch).window(after), duration(interval, "interval"), []
    for number, steps, _ in per_stock(branch, None):
        points = window.grid(length)
        sums = numpy.append(0, numpy.cumsum(flow_steps(steps)))
        place = steps.at(points)
        parts.append(pandas.DataFrame({
            "stock": numpy.int32(number), "start": points[:-1], "imbalance": numpy.diff(sums[place + 1]),
            "move": numpy.diff(steps.mid[place])}))
    return pandas.concat(parts, ignore_index=True)


def slope(across: numpy.ndarray, up: numpy.ndarray) -> tuple[float, float]:
    """Slope and R squared of the least-squares line with intercept; not-a-number where there are not two places
    across."""
    known = ~(numpy.isnan(across) | numpy.isnan(up))
    across, up = across[known], up[known]
    if len(across) < 2 or numpy.ptp(across) == 0:
        return math.nan, math.nan
    across, up = across - across.mean(), up - up.mean()
    both, square, total = float(across @ up), float(across @ across), float(up @ up)
    return both / square, both * both / (square * total) if total > 0 else math.nan


def order_flow_imbalance(branch: Branch, *, interval: int | str = INTERVAL, after: int = 0,
                         stock: int | str | None = None) -> dict[str, float]:
    """How far the order-flow imbalance at the best prices moves the mid.

        move_j = c + order_flow_slope * imbalance_j + rest_j      (least squares over the intervals of a grid)

    where imbalance_j is the sum of e (see `flow_steps`) over interval j. order_flow_slope is in 0.0001 dollars a share,
    order_flow_r2 the part of the moves' variance that the line explains. Source: Cont, Kukanov and Stoikov (2014).
    """
    numbers: dict[str, float] = {}
    flows = order_flows(branch, interval, after=after)
    for number, _, _ in per_stock(branch, stock):
        own = flows[flows.stock == number]
        steep, explained = slope(own.imbalance.to_numpy(float), own.move.to_numpy())
        numbers |= named(branch, number, {"order_flow_slope": steep, "order_flow_r2": explained})
    return numbers


def recoveries(steps: Steps, trades: Trades, window: Window) -> tuple[numpy.ndarray, numpy.ndarray]:
    """Of each event that traded and left a wider spread than before it: its time, and how long (ns) until the spread
    was back at what it was before or below; not-a-number where it never was. An emptied side makes the spread
    infinite."""
    both = (steps.bid > 0) & (steps.ask > 0)
    spread = numpy.append(numpy.where(both, steps.ask - steps.bid, numpy.inf), numpy.inf)
    events, first = numpy.unique(trades.event, return_index=True)
    before, behind = steps.before(events), numpy.searchsorted(steps.event, events, side="right") - 1
    wider = numpy.flatnonzero(numpy.isfinite(spread[before]) & (spread[behind] > spread[before]))
    times = trades.time[first[wider]]
    back = first_at_most(spread[:-1], behind[wider] + 1, spread[before[wider]])
    moments = numpy.append(steps.time, window.end + 1)[back]
    return times, numpy.where(moments <= window.end, moments - times, numpy.nan)


def first_at_most(values: numpy.ndarray, starts: numpy.ndarray, bounds: numpy.ndarray) -> numpy.ndarray:
    """For each start, which rise, the first place from it on whose value is at most the bound; their number where
    none is.

    From the back on, `kept` has the places that are below all between them and the current one, so their values rise.
    """
    found, listed = numpy.full(len(starts), len(values)), values.tolist()
    kept, kept_values, place = [], [], len(listed)
    for query in range(len(starts) - 1, -1, -1):
        while place > starts[query]:
            place -= 1
            while kept and kept_values[-1] >= listed[place]:
                kept.pop(), kept_values.pop()
            kept.append(place), kept_values.append(listed[place])
        nearest = bisect_right(kept_values, bounds[query]) - 1
        if nearest >= 0:
            found[query] = kept[nearest]
    return found


def resiliency(branch: Branch, *, horizon: int | str = HORIZON, after: int = 0,
               stock: int | str | None = None) -> dict[str, float]:
    """How soon the spread is back after a trade that widened it.

        resiliency = (events with the spread back within the horizon) / (events that traded and left a wider spread)

    recovery_time is the median time until the spread is at its former value or below, over those of the run that get
    there (ns). An event whose horizon is behind the run's end counts where the spread is back by then, and is left
    out where not. Source: after Foucault, Kadan and Kandel (2005), who ask whether the spread is back before the next
    trade.
    """
    numbers: dict[str, float] = {}
    window, length = tape_of(branch).window(after), duration(horizon)
    for number, steps, trades in per_stock(branch, stock):
        times, waits = recoveries(steps, trades.since(after), window)
        back = waits <= length
        counted = back | (times + length <= window.end)
        known = waits[~numpy.isnan(waits)]
        numbers |= named(branch, number, {
            "resiliency": float(back[counted].mean()) if counted.any() else math.nan,
            "recovery_time": float(numpy.median(known)) if len(known) else math.nan})
    return numbers
