"""Series over time, made small for a picture: of each stretch that a pixel stands for, the first, least, greatest and
last value, so that the picture is the one that all points would give."""

from __future__ import annotations

from typing import Any

import numpy

from biqsolur.errors import InputError
from biqsolur.explore.view import View

MOST_POINTS = 4000          # stretches of one series
Table = dict[str, Any]


def kept_rows(times: numpy.ndarray, values: numpy.ndarray, begin: int, end: int, points: int) -> numpy.ndarray:
    """The rows, rising, of a series that a picture from `begin` to `end` needs: of each of `points` equal stretches of
    time the first, the least, the greatest and the last. Not-a-number is never least or greatest; rows of it that are
    first or last stay, so a gap stays a gap. `times` rise (ns)."""
    first, last = numpy.searchsorted(times, [begin, end + 1])
    if last - first <= 4 * points:
        return numpy.arange(first, last)
    stretch = ((times[first:last] - begin).astype(float) * (points / max(1, end - begin))).astype(numpy.int64)
    starts = numpy.flatnonzero(numpy.append(True, numpy.diff(stretch) > 0))
    ends = numpy.append(starts[1:], last - first) - 1
    window = values[first:last]
    order = numpy.lexsort((window, stretch))                # in each stretch by value, not-a-number last
    lowest = order[starts]
    missing = numpy.isnan(window) if window.dtype.kind == "f" else numpy.zeros(len(window), bool)
    present = numpy.add.reduceat((~missing).astype(numpy.int64), starts)
    highest = order[starts + numpy.maximum(present, 1) - 1]
    return first + numpy.unique(numpy.concatenate([starts, ends, lowest, highest]))


def step_rows(times: numpy.ndarray, values: numpy.ndarray, begin: int, end: int, points: int) -> numpy.ndarray:
    """The same of a series whose values hold until the next: with the row that holds as the picture begins."""
    rows = kept_rows(times, values, begin, end, points)
    before = int(numpy.searchsorted(times, begin)) - 1
    return numpy.append(before, rows) if before >= 0 else rows


def series(times: numpy.ndarray, values: numpy.ndarray, rows: numpy.ndarray) -> Table:
    """Two lists for a picture: `x` (ns) and `y`, where not-a-number is null."""
    y = values[rows].astype(float)
    return {"x": times[rows].tolist(), "y": [None if number != number else number for number in y.tolist()]}


class Tops:
    """The best prices of one stock of a branch: a row each time that they change."""

    def __init__(self, times: numpy.ndarray, bid: numpy.ndarray, ask: numpy.ndarray) -> None:
        both = (bid > 0) & (ask > 0)
        self.times = times
        self.mid = numpy.where(both, (bid + ask) / 20000, numpy.nan)
        self.spread = numpy.where(both, (ask - bid) / 10000, numpy.nan)


class Timeline:
    """The pictures' numbers of one branch."""

    def __init__(self, view: View) -> None:
        self.view = view
        self.tops: dict[int, Tops] = {}
        self.values: dict[int, tuple[numpy.ndarray, numpy.ndarray] | None] = {}
        self.trades: dict[int, tuple[numpy.ndarray, numpy.ndarray, numpy.ndarray]] = {}

    def top(self, stock: int) -> Tops:
        """The best prices of a stock, made at the first use."""
        if stock not in self.tops:
            frame = self.view.branch.top()
            for number in range(len(self.view.symbols)):
                own = frame[frame["stock"] == number]
                self.tops[number] = Tops(*(own[name].to_numpy() for name in ("time", "bid", "ask")))
        return self.tops[stock]

    def trade_arrays(self, stock: int) -> tuple[numpy.ndarray, numpy.ndarray, numpy.ndarray]:
        """Times (ns), prices (dollars) and shares of a stock's trades."""
        if stock not in self.trades:
            frame = self.view.branch.trades
            own = frame[frame["stock"] == stock]
            self.trades[stock] = (own["time"].to_numpy(), own["price"].to_numpy() / 10000, own["shares"].to_numpy())
        return self.trades[stock]

    def picture(self, stock: int, begin: int, end: int, points: int) -> Table:
        """Mid, spread, trades, shares traded and value (dollars) of a stock from `begin` to `end` (ns), each about
        `points` wide."""
        points = max(1, min(points, MOST_POINTS))
        top = self.top(stock)
        times, prices, shares = self.trade_arrays(stock)
        rows = kept_rows(times, prices, begin, end, points)
        return {
            "mid": series(top.times, top.mid, step_rows(top.times, top.mid, begin, end, points)),
            "spread": series(top.times, top.spread, step_rows(top.times, top.spread, begin, end, points)),
            "trades": {**series(times, prices, rows), "shares": shares[rows].tolist()},
            "volume": volume(times, shares, begin, end, min(points, 200)),
            "value": self.value(stock, begin, end, points),
        }

    def value(self, stock: int, begin: int, end: int, points: int) -> Table | None:
        """The value that the stock's traders see (dollars); None where it cannot be made, as without the package for
        it."""
        if stock not in self.values:
            try:
                frame = self.view.branch.value(self.view.symbols[stock])
                self.values[stock] = (frame["time"].to_numpy(), frame["value"].to_numpy() / 10000)
            except InputError:
                self.values[stock] = None
        kept = self.values[stock]
        if kept is None:
            return None
        times, values = kept
        return series(times, values, step_rows(times, values, begin, end, points))


def volume(times: numpy.ndarray, shares: numpy.ndarray, begin: int, end: int, bars: int) -> Table:
    """Shares traded in each of `bars` equal stretches of time; x is where a stretch begins (ns)."""
    width = max(1, -(-(end + 1 - begin) // bars))
    inside = (times >= begin) & (times <= end)
    sums = numpy.bincount((times[inside] - begin) // width, weights=shares[inside], minlength=bars)
    return {"x": [begin + place * width for place in range(len(sums))], "y": sums.astype(numpy.int64).tolist(),
            "width": width}
