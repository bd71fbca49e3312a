"""The displayed book, rebuilt from the messages of the feed alone."""

from __future__ import annotations

from array import array
from bisect import bisect_left
from dataclasses import dataclass

import numpy
import pandas

from biqsolur.check import Part
from biqsolur.errors import BundleError, LevelsError
from biqsolur.feed import feed_frame, feed_rows, sides_of_orders
from biqsolur.frames import Frames


class Side:
    """One side of a book: the open shares at each price, the best price first."""

    def __init__(self, buys: bool) -> None:
        self.sign = -1 if buys else 1
        self.ranks: list[int] = []          # the prices, with the sign: they rise from the best on
        self.shares: dict[int, int] = {}    # by rank

    def change(self, price: int, shares: int) -> int:
        """Adds shares (or takes them, where they are negative) at a price; the level, from 0, that this changed."""
        rank = self.sign * price
        level = bisect_left(self.ranks, rank)
        total = self.shares.get(rank, 0) + shares
        if rank not in self.shares:
            self.ranks.insert(level, rank)
        self.shares[rank] = total
        if total == 0:
            del self.ranks[level], self.shares[rank]
        return level

    def top(self, levels: int) -> list[int]:
        """Price and shares of each of the best levels, 0 and 0 where there is none."""
        out: list[int] = []
        for rank in self.ranks[:levels]:
            out += (self.sign * rank, self.shares[rank])
        return out + [0] * (2 * levels - len(out))


class Snapshots:
    """The best levels of one side, each state of them once."""

    def __init__(self, buys: bool, levels: int) -> None:
        self.side = Side(buys)
        self.levels = levels
        self.values = array("q", [0] * (2 * levels))
        self.count = 1

    def change(self, price: int, shares: int) -> None:
        """Changes the side, and keeps its best levels where they changed."""
        if self.side.change(price, shares) < self.levels:
            self.values.extend(self.side.top(self.levels))
            self.count += 1


@dataclass
class Rebuilt:
    """The feed of one stock with the book after each message.

    feed: the messages, as rows of the feed's data frame. side, price, shares: of the order that the message changed
    (of a delete the shares that were open), of a Trade those of the match and the hidden order's side. bids, asks: a
    row a message, price and shares of each level in turn.
    """

    feed: pandas.DataFrame
    side: list[str]
    price: list[int]
    shares: list[int]
    bids: numpy.ndarray
    asks: numpy.ndarray


def rebuild(frames: Frames, part: Part, symbols: list[str], levels: int) -> list[Rebuilt]:
    """The books of a branch, one for each stock."""
    if levels < 1:
        raise LevelsError(f"levels = {levels}: a book has at least one level")
    feed = feed_frame(frames, part, symbols)
    sides = sides_of_orders(frames, part, feed)
    of_stocks = [feed.stock == stock for stock in range(len(symbols))]
    return [rebuild_stock(frames, part, feed[own], sides[own], levels) for own in of_stocks]


def rebuild_stock(frames: Frames, part: Part, feed: pandas.DataFrame, order_sides: pandas.Series, levels: int) -> Rebuilt:
    """The book of one stock after each of its messages; `order_sides` has the side of each message's order."""
    sides = {"B": Snapshots(True, levels), "S": Snapshots(False, levels)}
    orders: dict[int, tuple[str, int, int]] = {}       # by reference: side, price, open shares
    changed: list[tuple[str, int, int]] = []
    bid_places, ask_places = array("q"), array("q")
    messages = zip(feed.kind, feed.reference.tolist(), order_sides, feed.shares.tolist(), feed.price.tolist())
    for row, (kind, reference, side, shares, price) in enumerate(messages):
        if kind == "A":
            orders[reference] = (side, price, shares)
            sides[side].change(price, shares)
        elif kind in ("E", "X", "D"):
            side, price, open_shares = orders.get(reference, ("", 0, 0))
            shares = open_shares if kind == "D" else shares
            if side == "" or shares > open_shares:
                index = feed_rows(frames, part).indexes[feed.index[row]]
                raise BundleError(frames.path, frames.offset(index), f"order {reference} has no {shares} open shares")
            if shares == open_shares:
                del orders[reference]
            else:
                orders[reference] = (side, price, open_shares - shares)
            sides[side].change(price, -shares)
        changed.append((side, price, shares))
        bid_places.append(sides["B"].count - 1)
        ask_places.append(sides["S"].count - 1)
    tables = [numpy.array(sides[side].values, numpy.int64).reshape(-1, 2 * levels)[numpy.array(places, numpy.int64)]
              for side, places in (("B", bid_places), ("S", ask_places))]
    return Rebuilt(feed, [side for side, _, _ in changed], [price for _, price, _ in changed],
                   [shares for _, _, shares in changed], *tables)


def book_frame(frames: Frames, part: Part, symbols: list[str], levels: int) -> pandas.DataFrame:
    """The book of each message's own stock after the message, a row a message of a stock."""
    parts = []
    for rebuilt in rebuild(frames, part, symbols, levels):
        table = {name: rebuilt.feed[name] for name in ("event", "time", "kind", "stock", "symbol")}
        for level in range(levels):
            table[f"bid_{level + 1}"] = rebuilt.bids[:, 2 * level]
            table[f"bid_shares_{level + 1}"] = rebuilt.bids[:, 2 * level + 1]
            table[f"ask_{level + 1}"] = rebuilt.asks[:, 2 * level]
            table[f"ask_shares_{level + 1}"] = rebuilt.asks[:, 2 * level + 1]
        parts.append(pandas.DataFrame(table, index=rebuilt.feed.index))
    return pandas.concat(parts).sort_index() if parts else pandas.DataFrame()
