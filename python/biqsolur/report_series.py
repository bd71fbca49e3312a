"""What the pictures of a report show: series over time of one branch and one stock.

Times are nanoseconds past midnight, prices have four implied decimals, shares are shares, fees are millionths of a
dollar. A series is a step: a value holds from its time on until the next one.
"""

from __future__ import annotations

from dataclasses import dataclass

import numpy
import pandas

LEVELS = 5


@dataclass
class StockSeries:
    """One branch's market in one stock.

    times: of the states of the book, rising. bid, ask: the best prices, 0 where a side is empty. bid_shares,
    ask_shares: a row a state, a column a level from the best on. trade_times, volume, trade_fees: after each match the
    shares and the fees of all matches up to it. begin, end: of the branch's run.
    """

    times: numpy.ndarray
    bid: numpy.ndarray
    ask: numpy.ndarray
    bid_shares: numpy.ndarray
    ask_shares: numpy.ndarray
    trade_times: numpy.ndarray
    volume: numpy.ndarray
    trade_fees: numpy.ndarray
    begin: int
    end: int

    @property
    def two_sided(self) -> numpy.ndarray:
        """In which states both sides of the book have an order."""
        return (self.bid > 0) & (self.ask > 0)

    @property
    def spread(self) -> numpy.ndarray:
        """Ask less bid, with four implied decimals; not-a-number where a side is empty."""
        return numpy.where(self.two_sided, (self.ask - self.bid).astype(float), numpy.nan)

    @property
    def mid_twice(self) -> numpy.ndarray:
        """Bid and ask together, that is twice the mid price; not-a-number where a side is empty."""
        return numpy.where(self.two_sided, (self.ask + self.bid).astype(float), numpy.nan)

    def at(self, instants: numpy.ndarray) -> numpy.ndarray:
        """For each instant the number of the state that held then, -1 before the first."""
        return numpy.searchsorted(self.times, instants, side="right") - 1

    def mean_spread(self, begin: int) -> float:
        """The mean over time of the spread from `begin` to the end, of the time in which there is one."""
        edges = numpy.append(numpy.clip(self.times, begin, self.end), self.end)
        lengths = numpy.where(self.two_sided, numpy.diff(edges), 0).astype(float)
        total = lengths.sum()
        return float((numpy.nan_to_num(self.spread) * lengths).sum() / total) if total else float("nan")

    def traded(self, begin: int) -> tuple[int, int]:
        """Shares and fees of the matches after `begin`."""
        if not len(self.trade_times):
            return 0, 0
        before = int(numpy.searchsorted(self.trade_times, begin, side="right")) - 1
        first = (int(self.volume[before]), int(self.trade_fees[before])) if before >= 0 else (0, 0)
        return int(self.volume[-1]) - first[0], int(self.trade_fees[-1]) - first[1]


def last_of_each_time(times: numpy.ndarray) -> numpy.ndarray:
    """Of rows that have the same time the last one."""
    return numpy.flatnonzero(numpy.append(numpy.diff(times) != 0, True)) if len(times) else numpy.zeros(0, int)


def stock_series(book: pandas.DataFrame, trades: pandas.DataFrame, stock: int, begin: int, end: int) -> StockSeries:
    """The series of one stock, from a branch's book of LEVELS levels and its trades."""
    rows = book[book.stock.to_numpy() == stock]
    times = rows.time.to_numpy()
    keep = last_of_each_time(times)
    matches = trades[trades.stock.to_numpy() == stock]
    trade_times = matches.time.to_numpy()
    last = last_of_each_time(trade_times)

    def column(name: str) -> numpy.ndarray:
        return rows[name].to_numpy()[keep]

    return StockSeries(
        times=times[keep], bid=column("bid_1"), ask=column("ask_1"),
        bid_shares=numpy.column_stack([column(f"bid_shares_{level}") for level in range(1, LEVELS + 1)]),
        ask_shares=numpy.column_stack([column(f"ask_shares_{level}") for level in range(1, LEVELS + 1)]),
        trade_times=trade_times[last], volume=matches.shares.to_numpy().cumsum()[last],
        trade_fees=matches.fees.to_numpy().cumsum()[last], begin=begin, end=end)


def changes(columns: numpy.ndarray) -> numpy.ndarray:
    """The rows that differ from the row before them; missing values are equal to each other."""
    if len(columns) == 0:
        return numpy.zeros(0, int)
    table = columns.reshape(len(columns), -1)
    same = (table[1:] == table[:-1]) | (numpy.isnan(table[1:].astype(float)) & numpy.isnan(table[:-1].astype(float)))
    return numpy.flatnonzero(numpy.append(True, ~same.all(axis=1)))


def extremes(cells: numpy.ndarray, values: numpy.ndarray) -> numpy.ndarray:
    """The rows that stand first, last, lowest and highest in their cell, and its first missing value.

    `cells` rise. No value that is left out is below the lowest or above the highest that is kept of its cell; and the
    rows behind the lowest, the highest and the missing one are kept, so that these last as long as they did.
    """
    starts = numpy.flatnonzero(numpy.append(True, numpy.diff(cells) != 0))
    ends = numpy.append(starts[1:], len(cells))
    order = numpy.lexsort((numpy.nan_to_num(values, nan=numpy.inf), cells))
    lowest = order[starts]
    highest = numpy.lexsort((numpy.nan_to_num(values, nan=-numpy.inf), cells))[ends - 1]
    missing = numpy.flatnonzero(numpy.isnan(values))
    first_missing = missing[numpy.unique(cells[missing], return_index=True)[1]]
    extreme = numpy.concatenate([lowest, highest, first_missing])
    return numpy.unique(numpy.concatenate([starts, ends - 1, extreme, numpy.minimum(extreme + 1, len(cells) - 1)]))


def thin(times: numpy.ndarray, table: numpy.ndarray, values: list[numpy.ndarray], cells: int,
         span: tuple[int, int]) -> numpy.ndarray:
    """The rows of a step that a picture needs: only changes, and of a long series the extremes of each cell of time.

    `table` is what is drawn, and `values` are the columns whose extremes are to be seen. `cells` is the number of
    cells in the span of time from its begin to its end.
    """
    begin, end = span
    rows = changes(table)
    if len(rows) <= 6 * cells:
        return rows
    width = max(1, -(-(end - begin + 1) // cells))
    numbers = (times[rows] - begin) // width
    kept = [extremes(numbers, column[rows].astype(float)) for column in values]
    return rows[numpy.unique(numpy.concatenate(kept))]


def from_fork(times: numpy.ndarray, fork: int) -> slice:
    """The rows from the state that holds at the fork on."""
    return slice(max(0, int(numpy.searchsorted(times, fork, side="right")) - 1), None)
