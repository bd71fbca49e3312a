"""The public record of one stock: what a market's feed tells, from a branch or from LOBSTER's two files.

All facts are measured on a tape, so that a simulated market and a real one go through the same code.
"""

from __future__ import annotations

import os
from array import array
from dataclasses import dataclass
from functools import cached_property
from heapq import heappop, heappush
from pathlib import Path

import numpy
import pandas

from biqsolur.bundle import Branch
from biqsolur.errors import TapeError
from biqsolur.feed import feed_frame, find_references, sides_of_orders

ADDED, REDUCED, DELETED, EXECUTED, HIDDEN = 1, 2, 3, 4, 5     # LOBSTER's types of messages; the others are left out
TYPES = {"A": ADDED, "X": REDUCED, "D": DELETED, "E": EXECUTED, "P": HIDDEN}
SECOND = 10**9
NO_ASK = 9999999999         # LOBSTER's price of an ask that is not there; of a bid it is the negative


@dataclass(frozen=True)
class Tape:
    """The messages of one stock, in order, with the best prices after each.

    Attributes, arrays with an item a message: time (ns past midnight, never falling), kind (1 an order came to rest,
    2 a part of it was canceled, 3 it was canceled, 4 it was executed, 5 a hidden order was executed), reference
    (of the resting order, 0 of a hidden one), shares (of the message), price (four implied decimals), direction
    (1: the resting order buys, -1: it sells), bid, bid_shares, ask, ask_shares (0 where the side is empty).
    """

    name: str
    time: numpy.ndarray
    kind: numpy.ndarray
    reference: numpy.ndarray
    shares: numpy.ndarray
    price: numpy.ndarray
    direction: numpy.ndarray
    bid: numpy.ndarray
    bid_shares: numpy.ndarray
    ask: numpy.ndarray
    ask_shares: numpy.ndarray

    @cached_property
    def two_sided(self) -> numpy.ndarray:
        """After which messages both sides have an order."""
        return (self.bid > 0) & (self.ask > 0)

    @cached_property
    def mid(self) -> numpy.ndarray:
        """Half of bid and ask after each message (four implied decimals, may end in a half); where a side is empty, the
        last one that there was, and not-a-number before the first."""
        places = numpy.where(self.two_sided, numpy.arange(len(self.time)), -1)
        last = numpy.maximum.accumulate(places) if len(places) else places
        halves = (self.bid + self.ask) / 2
        return numpy.where(last >= 0, halves[numpy.maximum(last, 0)], numpy.nan)

    @cached_property
    def span(self) -> tuple[int, int]:
        """The whole seconds between which the market has prices: the first one at which both sides had an order, and
        the last one that a message reached (ns past midnight). Both are 0 where there is none."""
        first = numpy.flatnonzero(self.two_sided)
        if not len(first):
            return 0, 0
        begin = -(-int(self.time[first[0]]) // SECOND) * SECOND
        return begin, max(begin, int(self.time[-1]) // SECOND * SECOND)

    def instants(self, step: int) -> numpy.ndarray:
        """The times from the beginning of `span` to its end, `step` nanoseconds apart."""
        begin, end = self.span
        return numpy.arange(begin, end + 1, step) if end > begin else numpy.zeros(0, numpy.int64)

    def at(self, instants: numpy.ndarray) -> numpy.ndarray:
        """For each time the place of the last message not later than it."""
        return numpy.searchsorted(self.time, instants, side="right") - 1


def tape_of_branch(branch: Branch, symbol: str | None = None) -> Tape:
    """The tape of a stock of a branch; of the first one where no symbol is given.

    Hidden orders are on it as on a real one: only their executions are told.
    """
    symbols = branch.symbols
    if symbol is not None and symbol not in symbols:
        raise TapeError(f"no stock {symbol!r}; there are {', '.join(symbols)}")
    stock = 0 if symbol is None else symbols.index(symbol)
    feed = feed_frame(branch.bundle.frames, branch.part, symbols)
    sides = sides_of_orders(branch.bundle.frames, branch.part, feed)
    keep = ((feed.stock == stock) & feed.kind.isin(list(TYPES))).to_numpy()
    buys = (sides == "B").to_numpy()[keep]
    feed = feed[keep]
    kind = numpy.select([feed.kind == letter for letter in TYPES], list(TYPES.values())).astype(numpy.int8)
    reference, shares, price = (feed[name].to_numpy(copy=True) for name in ("reference", "shares", "price"))
    direction = numpy.where(buys, 1, -1).astype(numpy.int8)
    complete_rows(kind, reference, shares, price, direction)
    best = best_prices(kind, shares, price, direction)
    return Tape(symbols[stock], feed.time.to_numpy(), kind, reference, shares, price, direction, *best.T)


def complete_rows(kind: numpy.ndarray, reference: numpy.ndarray, shares: numpy.ndarray, price: numpy.ndarray,
                  direction: numpy.ndarray) -> None:
    """Gives each message of an order that rests the price and side of that order, and a delete the shares that were
    open. The arrays are changed in place."""
    adds = numpy.flatnonzero(kind == ADDED)
    later = numpy.flatnonzero((kind == REDUCED) | (kind == DELETED) | (kind == EXECUTED))
    place = find_references(reference[later], reference[adds])
    if (place < 0).any():
        raise TapeError(f"order {reference[later[place < 0][0]]} was never added: the bundle's feed is damaged")
    price[later], direction[later] = price[adds[place]], direction[adds[place]]
    open_shares = shares[adds].copy()
    numpy.subtract.at(open_shares, place, shares[later])        # a delete of the feed has no shares
    gone = kind[later] == DELETED
    shares[later[gone]] = open_shares[place[gone]]


def best_prices(kind: numpy.ndarray, shares: numpy.ndarray, price: numpy.ndarray,
                direction: numpy.ndarray) -> numpy.ndarray:
    """Bid, bid shares, ask and ask shares after each message, 0 and 0 where a side is empty. Shape (n, 4)."""
    change = numpy.select([kind == ADDED, kind == HIDDEN], [shares, 0], -shares)
    ranks = -direction.astype(numpy.int64) * price                 # the best one of a side is the least
    sides = {1: BestOf(), -1: BestOf()}
    bids, asks = sides[1], sides[-1]
    out = array("q")
    for side, rank, shares_more in zip(direction.tolist(), ranks.tolist(), change.tolist()):
        if shares_more:
            sides[side].change(rank, shares_more)
        out.extend((-bids.rank, bids.shares, asks.rank, asks.shares))
    return numpy.array(out, numpy.int64).reshape(-1, 4)


class BestOf:
    """The best price of one side: `rank` is the least of its prices (negative ones of bids), 0 where it is empty."""

    def __init__(self) -> None:
        self.rank = 0
        self.shares = 0
        self.levels: dict[int, int] = {}        # shares by rank
        self.heap: list[int] = []               # ranks, also such as have left

    def change(self, rank: int, shares: int) -> None:
        """Adds shares at a rank, or takes them where they are negative."""
        levels = self.levels
        total = levels.get(rank, 0) + shares
        if rank not in levels:
            heappush(self.heap, rank)
        if total > 0:
            levels[rank] = total
        else:
            levels.pop(rank, None)
        while self.heap and self.heap[0] not in levels:
            heappop(self.heap)
        self.rank = self.heap[0] if self.heap else 0
        self.shares = levels[self.rank] if self.heap else 0


def tape_of_lobster(message: str | os.PathLike[str], orderbook: str | os.PathLike[str]) -> Tape:
    """The tape of LOBSTER's message file and orderbook file of one stock and day.

    Message rows: time (seconds past midnight, up to nine decimals), type, reference, shares, price, direction. Of the
    orderbook the first four columns are read: ask price, ask shares, bid price, bid shares after the message. Crosses
    and halts (types 6 and 7) are left out. Source: lobsterdata.com, "Output structure".
    """
    rows = read_rows(message, 6, float)
    book = read_rows(orderbook, 4, numpy.int64)
    if len(rows) != len(book):
        raise TapeError(f"{message} has {len(rows)} rows and {orderbook} {len(book)}: they are not of one market")
    time = numpy.rint(rows[:, 0] * SECOND).astype(numpy.int64)     # exact: a day's nanoseconds are below 2^53
    falls = numpy.flatnonzero(numpy.diff(time) < 0)
    if len(falls):
        raise TapeError(f"{message}: row {falls[0] + 2} is earlier than the row before it")
    kind, reference, shares, price, direction = rows[:, 1:].astype(numpy.int64).T
    keep = (kind >= ADDED) & (kind <= HIDDEN)
    ask = numpy.where(book[:, 0] >= NO_ASK, 0, book[:, 0])
    bid = numpy.maximum(book[:, 2], 0)
    columns = [time, kind.astype(numpy.int8), reference, shares, price, numpy.sign(direction).astype(numpy.int8),
               bid, numpy.where(bid > 0, book[:, 3], 0), ask, numpy.where(ask > 0, book[:, 1], 0)]
    return Tape(Path(message).name, *(column[keep] for column in columns))


def read_rows(path: str | os.PathLike[str], columns: int, kind: type) -> numpy.ndarray:
    """The first `columns` columns of a file of numbers without a header."""
    try:
        frame = pandas.read_csv(path, header=None, usecols=range(columns), dtype=kind)
    except pandas.errors.EmptyDataError:
        raise TapeError(f"{path} is empty: a row for each message is wanted") from None
    except (ValueError, OverflowError) as fault:
        raise TapeError(f"{path}: {columns} columns of numbers are wanted, as LOBSTER writes them ({fault})") from None
    return frame.to_numpy()
