"""Spreads: what trading at once costs, and what is left of it to whoever stood in the book.

Prices are in 0.0001 dollars. All spreads are whole ones, that is twice the distance of a price from the mid.
"""

from __future__ import annotations

from dataclasses import dataclass
from typing import TYPE_CHECKING

import numpy
import pandas

from biqsolur.measures.tape import Steps, Trades, Window, duration, mean, named, per_stock, tape_of, weights

if TYPE_CHECKING:
    from biqsolur.bundle import Branch

HORIZON = 5_000_000_000         # ns


@dataclass
class Spreads:
    """The spreads of trades, an array each with an element a trade (0.0001 dollars): mid (before the trade's event),
    later (the mid at the horizon), effective, realised, impact. Not-a-number where a mid is not known."""

    mid: numpy.ndarray
    later: numpy.ndarray
    effective: numpy.ndarray
    realised: numpy.ndarray
    impact: numpy.ndarray


def spreads_of(steps: Steps, trades: Trades, horizon: int, end: int) -> Spreads:
    """The spreads of the trades of one stock. `end` is the time of the run's last event (ns): no later mid is known."""
    mid = steps.mid[steps.before(trades.event)]
    times = trades.time + horizon
    later = numpy.where(times <= end, steps.mid[steps.at(times)], numpy.nan)
    return Spreads(mid, later, 2 * trades.sign * (trades.price - mid), 2 * trades.sign * (trades.price - later),
                   2 * trades.sign * (later - mid))


def trade_spreads(branch: Branch, horizon: int | str = HORIZON) -> pandas.DataFrame:
    """The spreads of each trade, in the order of `branch.trades` and with its row labels.

    With q = 1 for a buy and -1 for a sell (of the order that came), p the price, m the mid right before the trade's
    event and m' the mid `horizon` behind the trade (after all events at or before that time):

        effective = 2 q (p - m)        realised = 2 q (p - m')        impact = 2 q (m' - m)

    so effective = realised + impact, trade by trade. Columns: event, time (ns), stock, sign, price, shares, mid,
    later, effective, realised, impact (0.0001 dollars); not-a-number where a side of the book was empty, or where the
    run has ended before the horizon. A trade is a match: an order that meets three others makes three.

    Sources: Huang and Stoll (1996); Bessembinder and Kaufman (1997); 17 CFR 242.600(b), with the mid at order
    receipt.
    """
    tape = tape_of(branch)
    length = duration(horizon)
    parts = []
    for stock, steps, trades in per_stock(branch, None):
        spreads = spreads_of(steps, trades, length, tape.window().end)
        parts.append(pandas.DataFrame({
            "event": trades.event, "time": trades.time, "stock": numpy.int32(stock), "sign": trades.sign,
            "price": trades.price, "shares": trades.shares, "mid": spreads.mid, "later": spreads.later,
            "effective": spreads.effective, "realised": spreads.realised, "impact": spreads.impact}, index=trades.row))
    return pandas.concat(parts).sort_index()


def quoted_spread(branch: Branch, *, after: int = 0, stock: int | str | None = None) -> dict[str, float]:
    """The time-weighted mean of ask less bid while the stock trades and both sides are displayed.

        quoted_spread = sum(w_i (a_i - b_i)) / sum(w_i),   w_i: for how long the prices a_i and b_i stood

    in 0.0001 dollars. quoted_spread_bps is that of 10,000 (a_i - b_i) / m_i; two_sided is the part of the trading time
    in which both sides were displayed. Sources: Huang and Stoll (1996); `quotedSpread` in R's highfrequency is
    a_i - b_i of each quote.
    """
    numbers: dict[str, float] = {}
    window = tape_of(branch).window(after)
    for number, steps, _ in per_stock(branch, stock):
        numbers |= named(branch, number, quoted_numbers(steps, window))
    return numbers


def quoted_numbers(steps: Steps, window: Window) -> dict[str, float]:
    """The numbers of one stock."""
    held, mid = weights(steps, window), steps.mid[:-1]
    spread = numpy.where(numpy.isnan(mid), numpy.nan, steps.ask - steps.bid)
    trading = trading_time(steps, window)
    return {"quoted_spread": mean(spread, held), "quoted_spread_bps": mean(10_000 * spread / mid, held),
            "two_sided": float(held[~numpy.isnan(mid)].sum() / trading) if trading else float("nan")}


def trading_time(steps: Steps, window: Window) -> int:
    """For how many nanoseconds of the window the stock trades."""
    first = int(steps.time[0]) if len(steps.time) else window.end
    return int(weights(steps, window).sum()) + max(min(first, window.end) - window.start, 0)


def effective_spread(branch: Branch, *, after: int = 0, stock: int | str | None = None) -> dict[str, float]:
    """The mean over the trades of twice the distance of the price from the mid before, in the direction of the order.

        effective_spread = mean(2 q_i (p_i - m_i))
        effective_spread_by_shares = sum(n_i 2 q_i (p_i - m_i)) / sum(n_i),   n_i: the shares

    in 0.0001 dollars. effective_spread_bps is the mean of 10,000 times the spread over its mid. Sources: Bessembinder
    and Kaufman (1997); by shares it is the "average effective spread" of 17 CFR 242.600(b); `effectiveSpread` in R's
    highfrequency.
    """
    numbers: dict[str, float] = {}
    for number, steps, trades in per_stock(branch, stock):
        trades = trades.since(after)
        found = spreads_of(steps, trades, 0, 0)
        numbers |= named(branch, number, {
            "effective_spread": mean(found.effective),
            "effective_spread_by_shares": mean(found.effective, trades.shares),
            "effective_spread_bps": mean(10_000 * found.effective / found.mid)})
    return numbers


def realised_spread(branch: Branch, *, horizon: int | str = HORIZON, after: int = 0,
                    stock: int | str | None = None) -> dict[str, float]:
    """The mean over the trades of twice the distance of the price from the mid `horizon` later: what whoever stood in
    the book keeps of the effective spread.

        realised_spread = mean(2 q_i (p_i - m'_i))
        realised_spread_by_shares = sum(n_i 2 q_i (p_i - m'_i)) / sum(n_i)

    In 0.0001 dollars. A trade whose horizon is behind the run's end is left out. Sources: Huang and Stoll (1996); by
    shares, with five minutes, the "average realized spread" of 17 CFR 242.600(b); `realizedSpread` in R's
    highfrequency.
    """
    return horizon_numbers(branch, "realised", "realised_spread", horizon, after, stock)


def price_impact(branch: Branch, *, horizon: int | str = HORIZON, after: int = 0,
                 stock: int | str | None = None) -> dict[str, float]:
    """The mean over the trades of twice the move of the mid, in the direction of the order, from before the trade to
    `horizon` behind it: what whoever stood in the book loses of the effective spread to those who knew more.

        price_impact = mean(2 q_i (m'_i - m_i))         price_impact_by_shares = sum(n_i 2 q_i (m'_i - m_i)) / sum(n_i)

    In 0.0001 dollars. Trade by trade it is effective less realised spread. Sources: Huang and Stoll (1996);
    Bessembinder and Kaufman (1997); `priceImpact` in R's highfrequency is half of it.
    """
    return horizon_numbers(branch, "impact", "price_impact", horizon, after, stock)


def horizon_numbers(branch: Branch, column: str, name: str, horizon: int | str, after: int,
                    stock: int | str | None) -> dict[str, float]:
    """The means of a spread that needs a later mid, equal-weighted and weighted by shares."""
    numbers: dict[str, float] = {}
    length, end = duration(horizon), tape_of(branch).window().end
    for number, steps, trades in per_stock(branch, stock):
        trades = trades.since(after)
        values = getattr(spreads_of(steps, trades, length, end), column)
        numbers |= named(branch, number, {name: mean(values), f"{name}_by_shares": mean(values, trades.shares)})
    return numbers
