"""What a trader knows at a moment: what it was told by then, and what it sent. Nothing else of the market is in it."""

from __future__ import annotations

from collections.abc import Iterator, Mapping
from dataclasses import dataclass, field, replace
from types import MappingProxyType
from typing import Any

import numpy

from biqsolur import layouts, messages
from biqsolur.bundle import Branch
from biqsolur.messages import Sent
from biqsolur.ouch import Accepted, Cancel, Canceled, Enter, Executed, Order, Rejected, Reply

SECOND = 1_000_000_000
PRICE_UNITS, MONEY_UNITS = 10_000, 1_000_000    # of a dollar


@dataclass(frozen=True)
class Quote:
    """The displayed best prices of a stock, as the trader was last told them; they may have changed since.

    time: when it heard them, ns past midnight. state: "T" trades, "H" is halted. bid, ask, last: prices with four
    implied decimals, 0 where there is none. bid_shares, ask_shares: displayed at the best price.
    """

    time: int
    symbol: str
    state: str
    bid: int
    bid_shares: int
    ask: int
    ask_shares: int
    last: int

    @property
    def mid(self) -> float:
        """The middle of bid and ask (four implied decimals); the last price where a side is missing, 0 without one."""
        return (self.bid + self.ask) / 2 if self.bid and self.ask else float(self.last)


@dataclass(frozen=True)
class OpenOrder:
    """An order of the trader that may still trade, as far as it knows.

    open: shares that were neither executed nor canceled, by the replies heard. accepted: whether a reply said so; until
    then the order is on its way. sent: when it was given, ns past midnight.
    """

    order: Enter
    open: int
    accepted: bool
    sent: int


@dataclass(frozen=True)
class Account:
    """What the replies heard add up to. cash: millionths of a dollar, without fees, which no reply tells.
    positions: shares by symbol; a stock that was never traded is not there."""

    cash: int
    positions: Mapping[str, int]


@dataclass(frozen=True)
class Heard:
    """A reply and when the trader heard it, ns past midnight."""

    time: int
    reply: Reply


@dataclass(frozen=True)
class Given:
    """An order that a strategy gave, and when it decided so, ns past midnight."""

    time: int
    order: Order


@dataclass(frozen=True)
class Observation:
    """What a trader knows at a decision.

    decision: its number, from 1. time: now; open, close: the market's hours; all in ns past midnight. trader: its
    number. symbol: its stock, of which it asks quotes. book: the last quote it heard, None before the first. orders:
    its own open orders, in the order given. account: cash and positions by the replies heard. replies: those heard
    since the last decision, in order.

    `buy`, `sell` and `cancel` make orders for the policy to return; `as_vector` gives numbers for a learner.
    """

    decision: int
    time: int
    open: int
    close: int
    trader: int
    symbol: str
    book: Quote | None
    orders: tuple[OpenOrder, ...]
    account: Account
    replies: tuple[Heard, ...]
    tokens: Iterator[str] = field(repr=False, compare=False)

    # What `as_vector` gives, in order. Seconds, dollars and shares; 0 where there is no such price.
    VECTOR = (
        "seconds_since_open", "seconds_to_close", "quote_age_seconds", "halted", "bid", "bid_shares", "ask",
        "ask_shares", "last", "position", "cash", "open_to_buy", "open_to_sell")

    @property
    def position(self) -> int:
        """Shares of the trader's own stock, by the replies heard; negative where it is short."""
        return self.account.positions.get(self.symbol, 0)

    def buy(self, shares: int, price: object, **more: object) -> Enter:
        """An order to buy the trader's stock: `price` as a whole number with four decimals, a text or Decimal of
        dollars. `more` goes to `Enter`: time_in_force=0 takes what is there at once, symbol another stock."""
        return self._enter("B", shares, price, more)

    def sell(self, shares: int, price: object, **more: object) -> Enter:
        """An order to sell, as `buy`."""
        return self._enter("S", shares, price, more)

    def cancel(self, order: OpenOrder | Enter | str, shares: int = 0) -> Cancel:
        """Asks that an order (or the one of this token) be lowered to so many shares in all, those already executed among
        them; 0 takes it away."""
        order = order.order if isinstance(order, OpenOrder) else order
        return Cancel(order.token if isinstance(order, Enter) else order, shares)

    def _enter(self, side: str, shares: int, price: object, more: Mapping[str, object]) -> Enter:
        fields = {"token": next(self.tokens), "side": side, "shares": shares, "symbol": self.symbol, "price": price}
        return Enter(**{**fields, **more})      # type: ignore[arg-type]

    def as_vector(self) -> numpy.ndarray[Any, numpy.dtype[numpy.float64]]:
        """The observation as floating-point numbers, of the shape (13,), named by `VECTOR`."""
        book = self.book
        told = (0.0,) * 7 if book is None else (
            (self.time - book.time) / SECOND, float(book.state != "T"), book.bid / PRICE_UNITS, book.bid_shares,
            book.ask / PRICE_UNITS, book.ask_shares, book.last / PRICE_UNITS)
        mine = [order for order in self.orders if order.order.symbol == self.symbol]
        waiting = (sum(order.open for order in mine if order.order.side == side) for side in "BS")
        return numpy.array([
            (self.time - self.open) / SECOND, (self.close - self.time) / SECOND, *told, self.position,
            self.account.cash / MONEY_UNITS, *waiting,
        ], dtype=numpy.float64)

    def worth(self) -> float:
        """Cash and the position in the trader's own stock at the last quote's middle, in dollars, without fees."""
        mid = self.book.mid if self.book else 0.0
        return self.account.cash / MONEY_UNITS + self.position * mid / PRICE_UNITS


# ---------------------------------------------------------------- from a branch's run


def own_messages(branch: Branch, trader: int) -> list[Sent]:
    """The orders of a trader that the exchange took, and the replies that it heard, in order."""
    return list(messages.sent_messages(branch._source, own_events(branch, trader)))


def own_events(branch: Branch, trader: int) -> numpy.ndarray[Any, numpy.dtype[numpy.int64]]:
    """The indexes of the events that delivered what a trader sent, or what was sent to it."""
    indexes = branch._event_frames(put_back=False)
    head = branch.bundle.frames.records(indexes, layouts.EVENT)
    return indexes[(head["sender"] == trader) | (head["receiver"] == trader)]


def last_quote(branch: Branch, trader: int) -> Quote | None:
    """The last quote that a trader heard."""
    quotes = messages.quotes_frame(branch._source, own_events(branch, trader))
    if not len(quotes):
        return None
    row = quotes.iloc[-1]
    prices = {name: int(row[name]) for name in ("bid", "bid_shares", "ask", "ask_shares", "last")}
    return Quote(int(row["time"]), str(row["symbol"]), str(row["state"]), **prices)


class Ledger:
    """A trader's open orders and account, from what it sent and heard."""

    def __init__(self, cash: int, given: list[Given], sent: list[Sent]) -> None:
        """cash: what it had at the opening (millionths of a dollar). given: the strategy's orders; sent: as
        `own_messages`, of which the trader's own rule may have sent some too: such an order is known once a reply about
        it is heard."""
        self.cash = cash
        self.positions: dict[str, int] = {}
        told = [(one, one.message) for one in sent]
        self.replies = [(one.event, Heard(one.time, reply)) for one, reply in told if isinstance(reply, Reply)]
        self.entered = {order.token: OpenOrder(order, order.shares, False, one.time)
                        for one, order in told if isinstance(order, Enter)}
        self.known = {one.order.token: OpenOrder(one.order, one.order.shares, False, one.time)
                      for one in given if isinstance(one.order, Enter)}
        for _, heard in self.replies:
            self._hear(heard.reply)

    def _hear(self, reply: Reply) -> None:
        """What a reply changes."""
        token = reply.token     # type: ignore[attr-defined]
        order = self.known.get(token) or self.entered.get(token)
        if order is None:
            return
        if isinstance(reply, Accepted):
            order = replace(order, accepted=True)
        elif isinstance(reply, Rejected):
            order = replace(order, open=0)
        elif isinstance(reply, (Canceled, Executed)):
            order = replace(order, open=max(0, order.open - reply.shares), accepted=True)
        if isinstance(reply, Executed):
            self._trade(order.order, reply)
        self.known[token] = order

    def _trade(self, order: Enter, executed: Executed) -> None:
        """What an execution moves: shares, and 100 millionths of a dollar for each unit of the price."""
        sign = 1 if order.side == "B" else -1
        self.cash -= sign * 100 * executed.price * executed.shares
        self.positions[order.symbol] = self.positions.get(order.symbol, 0) + sign * executed.shares

    def heard_after(self, events: int) -> tuple[Heard, ...]:
        """The replies heard after so many events of the run. Their times would not do: what is decided at a time may be
        answered within the same nanosecond."""
        return tuple(heard for event, heard in self.replies if event > events)

    @property
    def orders(self) -> tuple[OpenOrder, ...]:
        """The orders that may still trade."""
        return tuple(order for order in self.known.values() if order.open > 0)

    @property
    def account(self) -> Account:
        """Cash and positions."""
        return Account(self.cash, MappingProxyType(dict(self.positions)))
