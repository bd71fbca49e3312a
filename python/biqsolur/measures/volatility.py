"""How much prices move: variances, autocorrelations, and the spread that bounces show.

Returns are differences of the logarithm of the mid, from one point of a grid of times to the next. At each point the
mid is that after all events at or before it.
"""

from __future__ import annotations

import math
from collections.abc import Sequence
from typing import TYPE_CHECKING

import numpy
import pandas

from biqsolur.measures.tape import Steps, Window, duration, mean, named, per_stock, tape_of, whole_number

if TYPE_CHECKING:
    from biqsolur.bundle import Branch

INTERVAL = 1_000_000_000        # ns
INTERVALS = ("100ms", "200ms", "500ms", "1s", "2s", "5s", "10s", "30s", "60s")
LAGS = 10


def grid_returns(steps: Steps, window: Window, interval: int) -> numpy.ndarray:
    """The log-returns of the mid over a grid; not-a-number where the mid at either end is not known."""
    return numpy.diff(numpy.log(steps.mid[steps.at(window.grid(interval))]))


def realised_variance(branch: Branch, *, interval: int | str = INTERVAL, after: int = 0,
                      stock: int | str | None = None) -> dict[str, float]:
    """The sum of the squared log-returns of the mid over a grid of times.

        realised_variance = sum(r_j^2),   r_j = log m(t_j) - log m(t_(j-1)),   t_j = start + j interval

    realised_volatility_bps is 10,000 times its square root. Returns of which an end has no mid are left out. Sources:
    Andersen, Bollerslev, Diebold and Labys (2003); `rCov` in R's highfrequency.
    """
    numbers: dict[str, float] = {}
    window, length = tape_of(branch).window(after), duration(interval, "interval")
    for number, steps, _ in per_stock(branch, stock):
        returns = grid_returns(steps, window, length)
        known = returns[~numpy.isnan(returns)]
        variance = float(numpy.square(known).sum()) if len(known) else math.nan
        numbers |= named(branch, number, {"realised_variance": variance,
                                          "realised_volatility_bps": 10_000 * math.sqrt(variance)})
    return numbers


def signature_plot(branch: Branch, intervals: Sequence[int | str] = INTERVALS, *, after: int = 0) -> pandas.DataFrame:
    """The realised variance of each stock at several intervals: a row a stock and interval, with stock, symbol,
    interval (ns), returns (how many are known) and realised_variance (not-a-number where none is).

    Where it rises as the interval gets shorter, prices bounce. Source: Andersen, Bollerslev, Diebold and Labys
    (2000).
    """
    window, rows = tape_of(branch).window(after), []
    for number, steps, _ in per_stock(branch, None):
        for interval in intervals:
            length = duration(interval, "interval")
            returns = grid_returns(steps, window, length)
            known = returns[~numpy.isnan(returns)]
            variance = float(numpy.square(known).sum()) if len(known) else math.nan
            rows.append((number, branch.symbols[number], length, len(known), variance))
    return pandas.DataFrame(rows, columns=["stock", "symbol", "interval", "returns", "realised_variance"])


def correlation_at(values: numpy.ndarray, lag: int) -> float:
    """The correlation of a series with itself `lag` places later, over the pairs of which both are known:

        sum((x_i - x)(x_(i+lag) - x)) / sum((x_i - x)^2)

    with x the mean of all known; not-a-number where there is no pair or nothing varies.
    """
    centred = values - mean(values)
    products = centred[lag:] * centred[:max(len(values) - lag, 0)]
    products = products[~numpy.isnan(products)]
    square = float(numpy.nansum(numpy.square(centred)))
    return float(products.sum()) / square if len(products) and square > 0 else math.nan


def autocorrelations(branch: Branch, lags: int = LAGS, *, interval: int | str = INTERVAL,
                     after: int = 0) -> pandas.DataFrame:
    """Autocorrelations of each stock at the lags 1 to `lags`: a row a stock and lag, with stock, symbol, lag, returns
    (log-returns of the mid over the grid), absolute (their absolute values) and signs (1 and -1 for the side of each
    trade, in order); not-a-number where a series is no longer than its lag. Source: Cont (2001): returns have next to
    none, absolute returns and signs keep theirs for long.
    """
    lags = whole_number("lags", lags)
    window, length, rows = tape_of(branch).window(after), duration(interval, "interval"), []
    for number, steps, trades in per_stock(branch, None):
        returns = grid_returns(steps, window, length)
        signs = trades.since(after).sign.astype(float)
        rows += [(number, branch.symbols[number], lag, *(correlation_at(values, lag)
                  for values in (returns, numpy.abs(returns), signs))) for lag in range(1, lags + 1)]
    return pandas.DataFrame(rows, columns=["stock", "symbol", "lag", "returns", "absolute", "signs"])


def autocorrelation(branch: Branch, *, lag: int = 1, interval: int | str = INTERVAL, after: int = 0,
                    stock: int | str | None = None) -> dict[str, float]:
    """The autocorrelation, at one lag, of the log-returns of the mid over a grid, of their absolute values, and of
    the sides of the trades in order.

        autocorrelation_* = sum((x_i - x)(x_(i+lag) - x)) / sum((x_i - x)^2),   x: the mean

    Source: Cont (2001).
    """
    lag = whole_number("lag", lag)
    numbers: dict[str, float] = {}
    window, length = tape_of(branch).window(after), duration(interval, "interval")
    for number, steps, trades in per_stock(branch, stock):
        returns = grid_returns(steps, window, length)
        series = {"returns": returns, "absolute": numpy.abs(returns), "signs": trades.since(after).sign.astype(float)}
        numbers |= named(branch, number, {f"autocorrelation_{name}": correlation_at(values, lag)
                                          for name, values in series.items()})
    return numbers


def roll_spread(branch: Branch, *, after: int = 0, stock: int | str | None = None) -> dict[str, float]:
    """The spread that the bounce of trade prices between bid and ask shows, without any quote.

        roll_spread = 2 sqrt(-cov(d_i, d_(i-1))),   d_i: the change from one trade's price to the next one's

    with the covariance over the pairs of changes in a row, divided by their number; not-a-number where it is above 0
    (Roll's measure has no answer then) or where there are fewer than two pairs, that is four trades, as nothing varies
    then. In 0.0001 dollars. Source: Roll (1984).
    """
    numbers: dict[str, float] = {}
    for number, _, trades in per_stock(branch, stock):
        changes = numpy.diff(trades.since(after).price.astype(float))
        now, before = changes[1:], changes[:-1]
        covariance = float(((now - now.mean()) * (before - before.mean())).mean()) if len(now) > 1 else math.nan
        spread = 2 * math.sqrt(abs(covariance)) if covariance <= 0 else math.nan
        numbers |= named(branch, number, {"roll_spread": spread})
    return numbers
