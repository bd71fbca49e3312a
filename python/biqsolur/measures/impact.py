"""How far trading moves prices, from trades and mids over a grid of times."""

from __future__ import annotations

import math
from typing import TYPE_CHECKING

import numpy
import pandas

from biqsolur.measures.depth import slope
from biqsolur.measures.tape import duration, mean, named, per_stock, tape_of

if TYPE_CHECKING:
    from biqsolur.bundle import Branch

INTERVAL = 1_000_000_000        # ns


def trade_flows(branch: Branch, interval: int | str = INTERVAL, *, after: int = 0) -> pandas.DataFrame:
    """What was traded over each interval of a grid, and how the mid moved: a row a stock and interval, with stock,
    start (ns), bought and sold (shares of the orders that came), dollars (traded), move (of the mid, 0.0001 dollars)
    and part (the move as a part of the mid at the start). Trades behind the interval's start and at or before its end
    count; the move is not-a-number where an end has no mid.
    """
    window, length, parts = tape_of(branch).window(after), duration(interval, "interval"), []
    for number, steps, trades in per_stock(branch, None):
        trades = trades.since(after)
        points = window.grid(length)
        # What a trade at the very start of the window moved is in the mid there already: it belongs to no interval.
        which = numpy.searchsorted(points, trades.time, side="left") - 1
        inside = (which >= 0) & (which < len(points) - 1)
        columns = {"bought": trades.shares * (trades.sign > 0), "sold": trades.shares * (trades.sign < 0),
                   "dollars": trades.price * trades.shares / 10_000}
        sums = {name: numpy.bincount(which[inside], values[inside], len(points) - 1)[:len(points) - 1]
                for name, values in columns.items()}
        mid = steps.mid[steps.at(points)]
        move = numpy.diff(mid)
        parts.append(pandas.DataFrame({"stock": numpy.int32(number), "start": points[:-1], **sums, "move": move,
                                       "part": move / mid[:-1]}))
    return pandas.concat(parts, ignore_index=True)


def kyle_lambda(branch: Branch, *, interval: int | str = INTERVAL, after: int = 0,
                stock: int | str | None = None) -> dict[str, float]:
    """How far a share of one-sided trading moves the mid.

        move_j = c + kyle_lambda * (bought_j - sold_j) + rest_j       (least squares over the intervals of a grid)

    in 0.0001 dollars a share; kyle_r2 is the part of the moves' variance that the line explains. Sources: Kyle (1985);
    Hasbrouck (2009) estimates it over intervals of five minutes, from the signed roots of the dollars traded.
    """
    numbers: dict[str, float] = {}
    flows = trade_flows(branch, interval, after=after)
    for number, _, _ in per_stock(branch, stock):
        own = flows[flows.stock == number]
        steep, explained = slope((own.bought - own.sold).to_numpy(float), own.move.to_numpy())
        numbers |= named(branch, number, {"kyle_lambda": steep, "kyle_r2": explained})
    return numbers


def amihud(branch: Branch, *, interval: int | str = INTERVAL, after: int = 0,
           stock: int | str | None = None) -> dict[str, float]:
    """How far a million dollars of trading moves the price, whichever way.

        amihud = 1,000,000 * mean(|m_j / m_(j-1) - 1| / D_j),   D_j: the dollars traded in interval j

    over the intervals with trades and a mid at both ends, as a part of the price per million dollars. Source: Amihud
    (2002), with the days replaced by intervals and the closing prices by mids.
    """
    numbers: dict[str, float] = {}
    flows = trade_flows(branch, interval, after=after)
    for number, _, _ in per_stock(branch, stock):
        own = flows[(flows.stock == number) & (flows.dollars > 0)]
        values = (own.part.abs() / own.dollars).to_numpy()
        numbers |= named(branch, number, {"amihud": 1e6 * mean(values) if len(values) else math.nan})
    return numbers
