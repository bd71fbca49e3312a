"""The best displayed prices of a branch after each event that changed them, from the feed alone.

No message is gone through one by one. A displayed order is there from its Add Order to the message that ends it, so the
best price after a message is the greatest (or least) price of the orders whose spans cover it, and the shares at that
price are a running sum over the messages of one price.
"""

from __future__ import annotations

from dataclasses import dataclass

import numpy
import pandas

from biqsolur import columns, layouts
from biqsolur.check import Part
from biqsolur.errors import BundleError
from biqsolur.feed import feed_time
from biqsolur.frames import Frames

MESSAGE = layouts.layout(19, kind=(0, "u1"), locate=(1, ">u2"), time_upper=(5, ">u2"), time_lower=(7, ">u4"),
                         reference=(11, ">u8"))
BUY = ord("B")


@dataclass
class BookMessages:
    """The messages of a branch's feed that change its displayed book, and the orders that they speak of.

    Of each message, in the feed's order: index (of its frame), event (with which it came), time (ns), stock, kind (its
    letter's code), order (a place among the orders), change (of the open shares, signed). Of each order, in the order
    in which the feed adds them: row (of its Add Order among the messages), end (the row of the message that ends it;
    the number of messages where it is there at the end), reference, buy (bool), price, shares.
    """

    index: numpy.ndarray
    event: numpy.ndarray
    time: numpy.ndarray
    stock: numpy.ndarray
    kind: numpy.ndarray
    order: numpy.ndarray
    change: numpy.ndarray
    row: numpy.ndarray
    end: numpy.ndarray
    reference: numpy.ndarray
    buy: numpy.ndarray
    price: numpy.ndarray
    shares: numpy.ndarray


def book_messages(frames: Frames, part: Part) -> BookMessages:
    """Reads them. BundleError where a message takes from an order what is not there."""
    kinds = frames.kinds[part.entries:part.entries_end]
    places = numpy.flatnonzero(numpy.isin(kinds, numpy.frombuffer(b"AEXD", numpy.uint8)))
    index = part.entries + places
    head = frames.records(index, MESSAGE)
    adds = numpy.flatnonzero(head["kind"] == ord("A"))
    added = frames.records(index[adds], layouts.FEED_ADD)
    reference = added["reference"].astype(numpy.uint64)
    order = find_orders(frames, index, head["reference"].astype(numpy.uint64), adds, reference)
    shares = added["shares"].astype(numpy.int64)
    change, end = changes_of(frames, index, head["kind"], order, adds, shares)
    return BookMessages(
        index, events_of(frames, part, kinds, places), feed_time(head), head["locate"].astype(numpy.int32) - 1,
        head["kind"].copy(), order, change, adds, end, reference, added["side"] == BUY,
        added["price"].astype(numpy.int64), shares)


def events_of(frames: Frames, part: Part, kinds: numpy.ndarray, places: numpy.ndarray) -> numpy.ndarray:
    """The number of the event before each of these entries, which the entry came with."""
    events = numpy.flatnonzero(kinds == ord("e"))
    which = numpy.searchsorted(events, places) - 1
    numbers = frames.records(part.entries + events[which], layouts.EVENT)["number"]
    return numbers.astype(numpy.int64)


def find_orders(frames: Frames, index: numpy.ndarray, wanted: numpy.ndarray, adds: numpy.ndarray,
                reference: numpy.ndarray) -> numpy.ndarray:
    """For each message the place of its order among those that were added, all of them before it."""
    if len(index) == 0:
        return numpy.zeros(0, numpy.int64)
    by_reference = numpy.argsort(reference, kind="stable")
    place = numpy.searchsorted(reference[by_reference], wanted)
    order = by_reference[numpy.minimum(place, len(reference) - 1)] if len(reference) else numpy.zeros(len(index), int)
    known = (reference[order] == wanted) & (adds[order] <= numpy.arange(len(index))) if len(reference) else order < 0
    if not known.all():
        row = int(known.argmin())
        raise BundleError(frames.path, frames.offset(int(index[row])), f"no order {wanted[row]} was added before")
    return order


def changes_of(frames: Frames, index: numpy.ndarray, kind: numpy.ndarray, order: numpy.ndarray, adds: numpy.ndarray,
               shares: numpy.ndarray) -> tuple[numpy.ndarray, numpy.ndarray]:
    """Of each message by how many shares it changes what is open, and of each order the row that ends it."""
    change = numpy.zeros(len(index), numpy.int64)
    change[adds] = shares
    for letter, layout in (("E", layouts.FEED_EXECUTED), ("X", layouts.FEED_CANCEL)):
        rows = numpy.flatnonzero(kind == ord(letter))
        change[rows] = -frames.records(index[rows], layout)["shares"].astype(numpy.int64)
    left = numpy.bincount(order, change, len(adds)).astype(numpy.int64)
    deletes = numpy.flatnonzero(kind == ord("D"))
    change[deletes] = -left[order[deletes]]
    last = numpy.zeros(len(adds), numpy.int64)
    last[order] = numpy.arange(len(index))      # of several rows of one order the last one stays
    gone = left <= 0
    gone[order[deletes]] = True
    wrong = numpy.flatnonzero(left[order] < 0)
    late = numpy.flatnonzero((kind == ord("D")) & (last[order] != numpy.arange(len(index))))
    for row in (*wrong[:1], *late[:1]):
        raise BundleError(frames.path, frames.offset(int(index[row])), "this order has not so many open shares")
    return change, numpy.where(gone, last, len(index))


def greatest_covering(starts: numpy.ndarray, ends: numpy.ndarray, values: numpy.ndarray, count: int) -> numpy.ndarray:
    """For each place below `count` the greatest of the values whose span, from `starts` up to before `ends`, covers it;
    0 where none does. The values are above 0.

    A span is two blocks of a power of two, which may overlap; from the greatest blocks down each one hands its value to
    its halves. Shapes: spans (n,) each, answer (count,).
    """
    spans = numpy.flatnonzero(ends > starts)
    spans = spans[numpy.argsort(values[spans], kind="stable")]     # of several at one place the greatest is put last
    starts, ends, values = starts[spans], ends[spans], values[spans]
    power = numpy.frexp(ends - starts)[1] - 1
    best = numpy.zeros(count, numpy.int64)
    greatest = int(power.max(initial=0))
    for exponent in range(greatest, -1, -1):
        size = 1 << exponent
        if exponent < greatest:
            best[size:] = numpy.maximum(best[size:], best[:-size])
        own = numpy.flatnonzero(power == exponent)
        for first in (starts[own], ends[own] - size):
            best[first] = numpy.maximum(best[first], values[own])
    return best


@dataclass
class Levels:
    """The open shares of each price level after each message that changes it.

    level: of each order, a number that rises with stock, side and price. keys: level times the number of messages,
    and the row, in rising order; sums: the open shares of that level after that row.
    """

    level: numpy.ndarray
    keys: numpy.ndarray
    sums: numpy.ndarray

    def open_shares(self, level: numpy.ndarray, row: numpy.ndarray, count: int) -> numpy.ndarray:
        """The open shares of these levels after these rows, of `count` messages; a level has been changed by then."""
        return self.sums[numpy.searchsorted(self.keys, level * count + row, side="right") - 1]


def level_totals(messages: BookMessages) -> Levels:
    """The open shares of all levels: a running sum over the messages, level by level."""
    orders, count = len(messages.row), len(messages.index)
    key = (messages.stock[messages.row].astype(numpy.int64) << 1 | messages.buy) << 32 | messages.price
    level = numpy.unique(key, return_inverse=True)[1] if orders else numpy.zeros(0, numpy.int64)
    keys = level[messages.order] * count + numpy.arange(count)
    by_level = numpy.argsort(keys, kind="stable")
    sums = numpy.cumsum(messages.change[by_level])
    # A level's own sum is what the sum over all has more than where the level begins.
    first = numpy.flatnonzero(numpy.diff(level[messages.order][by_level], prepend=-1))
    sums -= numpy.repeat(numpy.append(0, sums)[first], numpy.diff(numpy.append(first, count)))
    return Levels(level, keys[by_level], sums)


@dataclass
class Tops:
    """The best displayed prices after each message of the book, and of which stock each message is.

    Of each row: bid, bid_shares, ask, ask_shares of the message's own stock; 0 and 0 where a side is empty.
    """

    bid: numpy.ndarray
    bid_shares: numpy.ndarray
    ask: numpy.ndarray
    ask_shares: numpy.ndarray


def tops(messages: BookMessages, levels: Levels) -> Tops:
    """The best prices after each message."""
    count = len(messages.index)
    best = numpy.full((2, count), -1, numpy.int64)
    order_stock = messages.stock[messages.row]
    for stock in numpy.unique(order_stock):
        rows = numpy.flatnonzero(messages.stock == stock)
        for buy in (0, 1):
            own = numpy.flatnonzero((order_stock == stock) & (messages.buy == bool(buy)))
            best[buy, rows] = best_levels(messages, own, rows, levels.level, bool(buy))
    prices = numpy.zeros(len(levels.level) + 1, numpy.int64)    # by level; the last one is that of an empty side
    prices[levels.level] = messages.price
    shares = [numpy.zeros(count, numpy.int64), numpy.zeros(count, numpy.int64)]
    for side in (0, 1):
        there = numpy.flatnonzero(best[side] >= 0)
        shares[side][there] = levels.open_shares(best[side, there], there, count)
    return Tops(prices[best[1]], shares[1], prices[best[0]], shares[0])


def best_levels(messages: BookMessages, own: numpy.ndarray, rows: numpy.ndarray, level: numpy.ndarray,
                buy: bool) -> numpy.ndarray:
    """The best level of one side of one stock after each of its messages (`rows`), -1 where the side is empty."""
    starts = numpy.searchsorted(rows, messages.row[own])
    ends = numpy.searchsorted(rows, messages.end[own])
    if len(own) == 0:
        return numpy.full(len(rows), -1)
    least, most = int(level[own].min()), int(level[own].max())
    rank = level[own] - least + 1 if buy else most + 1 - level[own]
    best = greatest_covering(starts, ends, rank, len(rows))
    return numpy.where(best == 0, -1, best - 1 + least if buy else most + 1 - best)


def changed_rows(messages: BookMessages, best: Tops) -> numpy.ndarray:
    """The rows after which, at the end of their event, the best prices or their shares are others than before it."""
    found = []
    for stock in numpy.unique(messages.stock):
        rows = numpy.flatnonzero(messages.stock == stock)
        last = rows[numpy.diff(messages.event[rows], append=-1) != 0]
        changed = numpy.zeros(len(last), bool)
        for column in (best.bid, best.bid_shares, best.ask, best.ask_shares):
            changed |= numpy.diff(column[last], prepend=0) != 0
        found.append(last[changed])
    return numpy.sort(numpy.concatenate(found)) if found else numpy.zeros(0, numpy.int64)


def top_frame(messages: BookMessages, best: Tops) -> pandas.DataFrame:
    """The best displayed prices of each stock after each event that changed them; no hidden order is in them.

    Columns: event, time (ns), stock (its number), bid, bid_shares, ask, ask_shares (prices with four implied decimals;
    0 and 0 where the side is empty). Before a stock's first row its book is empty.
    """
    rows = changed_rows(messages, best)
    return pandas.DataFrame({
        "event": columns.small(messages.event[rows]), "time": messages.time[rows], "stock": messages.stock[rows],
        "bid": best.bid[rows], "bid_shares": best.bid_shares[rows],
        "ask": best.ask[rows], "ask_shares": best.ask_shares[rows],
    }, copy=False)
