"""The feed of a branch and its trades, as data frames."""

from __future__ import annotations

from dataclasses import dataclass

import numpy
import pandas

from biqsolur import columns, layouts
from biqsolur.check import Part, edit_halts
from biqsolur.frames import Frames

SOURCES = ["opening", "event", "change", "edit", "close"]
OPENING, EVENT, CHANGE, EDIT, CLOSE = range(5)


@dataclass
class FeedRows:
    """Which frames of a branch are messages of its feed, and what each came with.

    indexes: of the frames. kinds: their letters. source: a place in SOURCES. event: the number of the event that it
    came with; of an edit the number of events before it, 0 at the opening. event_frame: the index of that event's
    frame; of an opening, an edit or a close a frame that says nothing of it.
    """

    indexes: numpy.ndarray
    kinds: numpy.ndarray
    source: numpy.ndarray
    event: numpy.ndarray
    event_frame: numpy.ndarray


def feed_rows(frames: Frames, part: Part) -> FeedRows:
    """Finds the feed of a branch, and gives each message to the opening, an event, a change, an edit or the close."""
    first, end = part.branch + 1, part.entries_end + 1
    kinds = frames.kinds[first:end]
    places = numpy.flatnonzero((kinds >= ord("A")) & (kinds <= ord("Z")))
    indexes = first + places
    feed_kinds = kinds[places]

    source = numpy.full(len(places), EVENT, numpy.int8)
    source[feed_kinds == ord("H")] = CHANGE
    of_edits = edit_halts(frames, part.entries, part.entries_end) + part.entries
    source[numpy.searchsorted(indexes, of_edits)] = EDIT
    source[indexes < part.entries] = OPENING
    source[-1] = CLOSE

    event_indexes = first + numpy.flatnonzero(kinds == ord("e"))
    # A message behind an event came with it; a dated change stands before the event that it came with.
    before = numpy.searchsorted(event_indexes, indexes)
    which = numpy.clip(numpy.where(source == CHANGE, before, before - 1), 0, max(len(event_indexes) - 1, 0))
    event = numpy.zeros(len(places), numpy.int64)
    event_frame = numpy.full(len(places), part.branch, numpy.int64)
    if len(event_indexes):
        event_frame = event_indexes[which]
        event = columns.whole(frames.records(event_indexes, layouts.EVENT)["number"])[which]
    event[source == OPENING] = 0
    event[source == EDIT] = frames.records(of_edits - 1, layouts.EDIT)["event"]
    event[-1] = frames.records(numpy.array([part.counts]), layouts.COUNTS)["events"][0]
    return FeedRows(indexes, feed_kinds, source, event, event_frame)


def feed_frame(frames: Frames, part: Part, symbols: list[str]) -> pandas.DataFrame:
    """A row a message of the feed."""
    rows = feed_rows(frames, part)
    head = frames.records(rows.indexes, layouts.FEED_HEAD)
    count = len(rows.indexes)
    numbers = {name: numpy.zeros(count, "u8") for name in ("reference", "shares", "price", "match")}
    codes = {name: numpy.zeros(count, "u1") for name in ("side", "state", "code")}
    for letter, layout in layouts.FEED.items():
        of_kind = numpy.flatnonzero(rows.kinds == ord(letter))
        if len(of_kind):
            records = frames.records(rows.indexes[of_kind], layout)
            for name in layout.names or ():
                if name in numbers:
                    numbers[name][of_kind] = records[name]
                elif name in codes:
                    codes[name][of_kind] = records[name]
    stock = head["locate"].astype(numpy.int32) - 1
    price = columns.whole(numbers["price"])
    return pandas.DataFrame({
        "event": columns.small(rows.event),
        "time": feed_time(head),
        "source": pandas.Categorical.from_codes(rows.source, SOURCES),
        "kind": columns.letters(rows.kinds, "".join(layouts.FEED)),
        "stock": stock,
        "symbol": columns.stock_symbols(stock, symbols),
        "reference": columns.whole(numbers["reference"]),
        "side": columns.words(codes["side"], columns.SIDES),
        "shares": columns.whole(numbers["shares"]),
        "price": price,
        "price_dollars": columns.dollars(price),
        "match": columns.whole(numbers["match"]),
        "state": columns.letters(codes["state"] + codes["code"], "HTOC"),
    }, copy=False)


def feed_time(head: numpy.ndarray) -> numpy.ndarray:
    """The times of messages of the feed, of six bytes each, in nanoseconds past midnight."""
    return head["time_upper"].astype(numpy.int64) << 32 | head["time_lower"].astype(numpy.int64)


def find_references(wanted: numpy.ndarray, among: numpy.ndarray) -> numpy.ndarray:
    """For each wanted reference its last place in `among`, and -1 where it is not there."""
    if len(among) == 0:
        return numpy.full(len(wanted), -1)
    order = numpy.argsort(among, kind="stable")
    place = order[numpy.maximum(numpy.searchsorted(among[order], wanted, side="right") - 1, 0)]
    return numpy.where(among[place] == wanted, place, -1)


def entered_sides(frames: Frames, events: numpy.ndarray) -> numpy.ndarray:
    """Of these events' frames the side of the order that came with each; 0 where none did."""
    sides = numpy.zeros(len(events), numpy.uint8)
    enters = numpy.flatnonzero(frames.sizes[events] == layouts.EVENT.itemsize + layouts.ENTER.itemsize)
    sides[enters] = frames.records(events[enters], layouts.ENTER, skip=layouts.EVENT.itemsize)["side"]
    return sides


def sides_of_orders(frames: Frames, part: Part, feed: pandas.DataFrame) -> pandas.Series:
    """The side of each message's order, of a branch's whole feed. It is the feed's own but for a Trade, which says `B`
    whatever the hidden order's side was: that is the other side than the one of the order that met it."""
    trades = numpy.flatnonzero(feed.kind == "P")
    if len(trades) == 0:
        return feed.side
    sides = feed.side.copy()
    came = entered_sides(frames, feed_rows(frames, part).event_frame[trades])
    sides.iloc[trades] = columns.words(opposite(came), columns.SIDES)
    return sides


def told_agents(frames: Frames, part: Part, matches: numpy.ndarray) -> numpy.ndarray:
    """For each number of a match the agent that is told that its resting order traded; -1 where no such reply is
    among the branch's events."""
    kinds, sizes = (of[part.entries:part.entries_end] for of in (frames.kinds, frames.sizes))
    replies = (kinds == ord("e")) & (sizes == layouts.EVENT.itemsize + layouts.EXECUTED.itemsize)
    events = part.entries + numpy.flatnonzero(replies)
    executed = frames.records(events, layouts.EXECUTED, skip=layouts.EVENT.itemsize)
    added = executed["flag"] == ord("A")
    agents = numpy.append(frames.records(events[added], layouts.EVENT)["receiver"].astype(numpy.int32), -1)
    return agents[find_references(matches, executed["match"][added].astype(numpy.uint64))]


def trades_frame(frames: Frames, part: Part, symbols: list[str]) -> pandas.DataFrame:
    """A row a match: an Order Executed of the feed, with the resting order that the feed once added, and a Trade, with
    the agent of the hidden order from the replies. The aggressor is who sent the order that came with the event."""
    rows = feed_rows(frames, part)
    adds = numpy.flatnonzero((rows.kinds == ord("A")) & (rows.source == EVENT))
    added = frames.records(rows.indexes[adds], layouts.FEED_ADD)
    owners = frames.records(rows.event_frame[adds], layouts.EVENT)["sender"]

    matches = numpy.flatnonzero((rows.kinds == ord("E")) | (rows.kinds == ord("P")))
    hidden = rows.kinds[matches] == ord("P")
    head = frames.records(rows.indexes[matches], layouts.FEED_HEAD)
    event = frames.records(rows.event_frame[matches], layouts.EVENT)
    executed = frames.records(rows.indexes[matches], layouts.FEED_EXECUTED)
    reference = executed["reference"].astype(numpy.uint64)
    shares = executed["shares"].astype(numpy.int64)
    match = executed["match"].astype(numpy.uint64)
    place = find_references(reference, added["reference"].astype(numpy.uint64))
    known = place >= 0
    price = numpy.zeros(len(matches), numpy.int64)
    resting_side = numpy.zeros(len(matches), numpy.uint8)
    resting = numpy.full(len(matches), -1, numpy.int32)
    price[known] = added["price"][place[known]]
    resting_side[known] = added["side"][place[known]]
    resting[known] = owners[place[known]]
    trades = frames.records(rows.indexes[matches[hidden]], layouts.FEED_TRADE)
    for column, name in [(shares, "shares"), (match, "match"), (price, "price")]:
        column[hidden] = trades[name]
    resting[hidden] = told_agents(frames, part, match[hidden])
    came = entered_sides(frames, rows.event_frame[matches])
    side = numpy.where(came == 0, opposite(resting_side), came)

    stock = head["locate"].astype(numpy.int32) - 1
    # The event has the fees of all its matches together, which have one fee a share.
    first_of_event = numpy.flatnonzero(numpy.diff(rows.event[matches], prepend=-1))
    groups = numpy.repeat(numpy.arange(len(first_of_event)), numpy.diff(numpy.append(first_of_event, len(matches))))
    together = numpy.add.reduceat(shares, first_of_event) if len(matches) else shares
    fees = event["fee"].astype(numpy.int64) // numpy.maximum(together[groups], 1) * shares
    return pandas.DataFrame({
        "event": columns.small(rows.event[matches]),
        "time": feed_time(head),
        "stock": stock,
        "symbol": columns.stock_symbols(stock, symbols),
        "side": columns.words(side, columns.SIDES),
        "price": price,
        "price_dollars": columns.dollars(price),
        "shares": shares,
        "match": columns.whole(match),
        "aggressor": columns.small(event["sender"]),
        "resting": resting,
        "reference": columns.whole(reference),
        "fees": fees,
    }, copy=False)


def displayed_frame(frames: Frames, part: Part, symbols: list[str]) -> pandas.DataFrame:
    """A row an order that the feed says is resting at the end, by stock and then by arrival: no hidden one."""
    feed = feed_frame(frames, part, symbols)
    orders = feed.loc[feed.kind == "A", ["reference", "side", "shares", "stock", "symbol", "price", "price_dollars"]]
    orders = orders.rename(columns={"shares": "open"})
    taken = feed.loc[feed.kind.isin(["E", "X"])].groupby("reference").shares.sum()
    gone = feed.loc[feed.kind == "D", "reference"]
    orders["open"] -= taken.reindex(orders.reference, fill_value=0).to_numpy()
    left = orders[(orders.open > 0) & ~orders.reference.isin(gone)]
    return left.sort_values("stock", kind="stable", ignore_index=True)


def opposite(sides: numpy.ndarray) -> numpy.ndarray:
    """The other side of each; 0 stays."""
    other = sides.copy()
    other[sides == ord("B")] = ord("S")
    other[sides == ord("S")] = ord("B")
    return other
