"""The messages that agents send each other, as data frames: events, orders, replies, quotes.

Each function takes the indexes of frames that have a message: `e` frames of a branch, or `w` frames of a rewind.
"""

from __future__ import annotations

from collections.abc import Iterator
from dataclasses import dataclass

import numpy
import pandas

from biqsolur import columns, layouts, ouch
from biqsolur.columns import Tokens
from biqsolur.frames import Frames

BODY_WORDS = {ord("w"): "wakeup", ord("i"): "order", ord("o"): "reply", ord("a"): "question", ord("q"): "quote"}
ORDER_SIZES = {49: "enter", 19: "cancel"}
REPLY_SIZES = {66: "accepted", 40: "executed", 28: "canceled", 24: "rejected", 10: "system"}
QUOTE_SIZE = 31


@dataclass
class Source:
    """A file's frames with what is needed to read their messages.

    head: bytes of a frame before its message's body. layout: the fields of that head.
    """

    frames: Frames
    tokens: Tokens
    symbols: list[str]
    layout: numpy.dtype = layouts.EVENT

    def with_bodies(self, indexes: numpy.ndarray, sizes: list[int]) -> numpy.ndarray:
        """Of these frames those whose body has one of these sizes, and so is of the kinds that have them."""
        return indexes[numpy.isin(self.frames.sizes[indexes] - self.layout.itemsize, sizes)]

    def body(self, indexes: numpy.ndarray, layout: numpy.dtype) -> numpy.ndarray:
        """The fields of the bodies of these frames."""
        return self.frames.records(indexes, layout, skip=self.layout.itemsize)


@dataclass(frozen=True)
class Sent:
    """An order or a reply where it was delivered.

    event: the number of the event that delivered it. time: ns past midnight; of an order when the exchange took it, of a
    reply when its trader heard it. trader: who sent the order, or whom the reply is for. data: the bytes as they stand.
    """

    event: int
    time: int
    trader: int
    data: bytes

    @property
    def message(self) -> ouch.Message:
        """The bytes as an object of `biqsolur.ouch`."""
        return ouch.decode(self.data)

    @property
    def is_order(self) -> bool:
        """Whether it goes to the exchange; else it comes from there."""
        return self.data[:1] in (b"O", b"X")


def sent_messages(source: Source, indexes: numpy.ndarray) -> Iterator[Sent]:
    """The orders and replies of those of these frames that have one, in order, each made when it is asked for."""
    indexes = source.with_bodies(indexes, [*ORDER_SIZES, *REPLY_SIZES])
    head = source.frames.records(indexes, source.layout)
    raw, skip = source.frames.raw, source.layout.itemsize
    is_order = numpy.isin(source.frames.sizes[indexes] - skip, list(ORDER_SIZES))
    traders = numpy.where(is_order, head["sender"], head["receiver"])
    rows = zip(head["number"].tolist(), head["time"].tolist(), traders.tolist(), source.frames.starts[indexes].tolist(),
               source.frames.sizes[indexes].tolist())
    for event, time, trader, start, size in rows:
        yield Sent(event, time, trader, raw[start + skip:start + size].tobytes())


class Table:
    """Columns of a data frame that is filled kind by kind: a number or letter that a kind has not stays 0."""

    def __init__(self, source: Source, indexes: numpy.ndarray) -> None:
        self.source = source
        self.indexes = indexes
        self.sizes = source.frames.sizes[indexes] - source.layout.itemsize
        self.columns: dict[str, numpy.ndarray] = {}

    def zeros(self, kind: str, *names: str) -> None:
        """Adds columns of zeros."""
        for name in names:
            self.columns[name] = numpy.zeros(len(self.indexes), kind)

    def fill(self, size: int, layout: numpy.dtype) -> None:
        """Takes the fields of the bodies of this size into the columns that are named as they are."""
        rows = numpy.flatnonzero(self.sizes == size)
        body = self.source.body(self.indexes[rows], layout)
        for name in layout.names or ():
            if name in self.columns:
                field = body[name]
                self.columns[name][rows] = self.source.tokens.numbers(field) if name == "token" else field

    def kinds(self, names: dict[int, str]) -> pandas.Categorical:
        """A column of the words for the sizes of the bodies."""
        return columns.words(self.sizes.astype(numpy.uint8), names)


def events_frame(source: Source, indexes: numpy.ndarray) -> pandas.DataFrame:
    """A row an event."""
    head = source.frames.records(indexes, layouts.EVENT)
    return pandas.DataFrame({
        "number": columns.small(head["number"]),
        "time": columns.whole(head["time"]),
        "message": columns.whole(head["message"]),
        "sender": columns.small(head["sender"]),
        "receiver": columns.small(head["receiver"]),
        "kind": columns.words(head["body"], BODY_WORDS),
        "put_back": head["delivery"] == ord("P"),
        "busy_until": columns.whole(head["busy_until"]),
        "fee": columns.whole(head["fee"]),
    }, copy=False)


def message_columns(source: Source, indexes: numpy.ndarray, agent: str) -> dict[str, numpy.ndarray]:
    """The columns with which each data frame of messages begins; `agent` is sender or receiver."""
    head = source.frames.records(indexes, source.layout)
    first = {"event": columns.small(head["number"])} if "number" in head.dtype.names else {}
    return {**first, "time": columns.whole(head["time"]), "agent": columns.small(head[agent])}


def named_order_columns(source: Source, table: Table) -> dict:
    """The columns of the order that a message names."""
    return {
        "token": table.columns["token"],
        "side": columns.words(table.columns["side"], columns.SIDES),
        "shares": table.columns["shares"],
        "symbol": columns.symbols_of(table.columns["symbol"], source.symbols),
        "price": table.columns["price"],
        "price_dollars": columns.dollars(table.columns["price"]),
    }


def orders_frame(source: Source, indexes: numpy.ndarray) -> pandas.DataFrame:
    """A row an order message, of the frames that have one."""
    indexes = source.with_bodies(indexes, list(ORDER_SIZES))
    table = Table(source, indexes)
    table.zeros("i8", "token", "shares", "price", "time_in_force")
    table.zeros("u1", "side")
    table.zeros("u8", "symbol")
    table.fill(49, layouts.ENTER)
    table.fill(19, layouts.CANCEL)
    return pandas.DataFrame({
        **message_columns(source, indexes, "sender"),
        "kind": table.kinds(ORDER_SIZES),
        **named_order_columns(source, table),
        "time_in_force": table.columns["time_in_force"],
    }, copy=False)


def replies_frame(source: Source, indexes: numpy.ndarray) -> pandas.DataFrame:
    """A row a reply, of the frames that have one."""
    indexes = source.with_bodies(indexes, list(REPLY_SIZES))
    table = Table(source, indexes)
    table.zeros("u8", "handled", "symbol", "reference", "match")
    table.zeros("i8", "token", "shares", "price")
    table.zeros("u1", "side", "flag", "reason")
    for size, layout in [(66, layouts.ACCEPTED), (40, layouts.EXECUTED), (28, layouts.CANCELED),
                         (24, layouts.REJECTED), (10, layouts.SYSTEM_REPLY)]:
        table.fill(size, layout)
    return pandas.DataFrame({
        **message_columns(source, indexes, "receiver"),
        "kind": table.kinds(REPLY_SIZES),
        "handled": columns.whole(table.columns["handled"]),
        **named_order_columns(source, table),
        "reference": columns.whole(table.columns["reference"]),
        "match": columns.whole(table.columns["match"]),
        "flag": columns.letters(table.columns["flag"], "AR"),
        "reason": columns.letters(table.columns["reason"], "HIOSUX"),
    }, copy=False)


def quotes_frame(source: Source, indexes: numpy.ndarray) -> pandas.DataFrame:
    """A row a quote, of the frames that have one."""
    indexes = source.with_bodies(indexes, [QUOTE_SIZE])
    quote = source.body(indexes, layouts.QUOTE)
    stock = columns.small(quote["stock"])
    prices = {name: columns.whole(quote[name]) for name in ("bid", "ask", "last")}
    return pandas.DataFrame({
        **message_columns(source, indexes, "receiver"),
        "stock": stock,
        "symbol": columns.stock_symbols(stock, source.symbols),
        "state": columns.letters(quote["state"], "HT"),
        "bid": prices["bid"],
        "bid_shares": columns.whole(quote["bid_shares"]),
        "ask": prices["ask"],
        "ask_shares": columns.whole(quote["ask_shares"]),
        "last": prices["last"],
        **{f"{name}_dollars": columns.dollars(price) for name, price in prices.items()},
    }, copy=False)
