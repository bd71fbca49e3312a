"""What a cross answers: at which price a stock would reopen, and which orders would trade."""

from __future__ import annotations

import csv
import io
import operator
import os
from collections.abc import Callable, Iterable
from dataclasses import dataclass
from functools import cached_property
from pathlib import Path
from typing import TYPE_CHECKING, Any

import numpy
import pandas

from biqsolur import columns, layouts
from biqsolur.check import cross_parts
from biqsolur.errors import InputError, RunError
from biqsolur.frames import Frames, read_frames
from biqsolur.prices import price, price_text

if TYPE_CHECKING:
    from biqsolur.rewinds import Rewind, State

HEADER = ("agent", "side", "shares", "price")
HEADER_LINE = ",".join(HEADER)
MOST_ORDERS = 16_384


@dataclass(repr=False)
class Cross:
    """What a cross answers.

    path. time: of the state (ns). stock: its number; symbol. price: at which it would reopen, with four implied
    decimals; 0 where no shares execute at any price, and then the numbers below are 0 too. shares: that execute.
    to_buy, to_sell: shares to buy at the price or above, and to sell at it or below. cut: the greatest price up to
    which no more shares are to be sold than execute; to_sell_below_cut: shares to sell up to it; to_buy_above_cut:
    shares to buy beyond it. Both are at most `shares`, so no price executes more. match: the number of the cross's
    match. orders: the orders that joined, a row each: reference, agent (-1 where the file of orders isn't known), side,
    shares, price, price_dollars. data: the answer's bytes.
    """

    path: str
    time: int
    stock: int
    symbol: str
    price: int
    shares: int
    to_buy: int
    to_sell: int
    cut: int
    to_sell_below_cut: int
    to_buy_above_cut: int
    match: int
    orders: pandas.DataFrame
    trading: pandas.DataFrame
    data: bytes
    rewound: Callable[[], Rewind] | None = None

    def __repr__(self) -> str:
        said = f"{self.shares} shares at {price_text(self.price)}" if self.price else "no cross"
        return f"<cross of {self.symbol}: {said}, {len(self.orders)} orders joined>"

    @property
    def price_dollars(self) -> float:
        """The price in dollars, for pictures; not-a-number where there is none."""
        return self.price / 10_000 if self.price else float("nan")

    @cached_property
    def state(self) -> State | None:
        """The state in which the cross would be, from one more run of the program; None where the cross was read of a
        file."""
        return None if self.rewound is None else self.rewound().states[0]

    @cached_property
    def parts(self) -> pandas.DataFrame:
        """The orders that would trade, those to buy first, and in the order in which they are filled: side, reference,
        shares (that trade), joined (bool: it came with the cross, else it rests), agent, name ("maker 1"; "" where the
        state isn't known), open (shares before the cross), price, price_dollars, hidden (bool).

        Of orders that rest agent, open and price are -1, 0 and 0, and `hidden` is False, where the cross was read of a
        file: they are told by the state that `rewind` gives."""
        known = {int(row.reference): (True, row.agent, row.shares, row.price, False)
                 for row in self.orders.itertuples()}
        resting = self.state.closing.orders.itertuples() if self.state is not None else ()
        for row in resting:
            known.setdefault(int(row.reference), (False, row.agent, row.open, row.price, row.hidden))
        found = [known.get(reference, (False, -1, 0, 0, False)) for reference in self.trading["reference"].tolist()]
        joined, agent, open_, limits, hidden = zip(*found) if found else ((), (), (), (), ())
        prices = numpy.array(limits, numpy.int64)
        return self.trading.assign(
            joined=numpy.array(joined, bool), agent=numpy.array(agent, numpy.int32),
            name=[self.agent_name(number) for number in agent],
            open=numpy.array(open_, numpy.int64), price=prices, price_dollars=columns.dollars(prices),
            hidden=numpy.array(hidden, bool))

    def agent_name(self, number: int) -> str:
        """What an agent is called, where the state is known; else the empty text."""
        return self.state.agent_name(number) if self.state is not None and number >= 0 else ""


def read_cross(source: str | Path | bytes, orders: bytes | None = None,
               rewound: Callable[[], Rewind] | None = None) -> Cross:
    """Reads what `cross` wrote, from its file or from these bytes. Raises BundleError where they are none.

    orders: the bytes of the file of orders, which tell whose each is. rewound: gives the state, where one has the
    study.
    """
    frames = read_frames(source)
    part = cross_parts(frames)
    head = frames.records(numpy.array([part.first]), layouts.FEED_HEAD)[0]
    symbol = frames.records(numpy.array([part.first]), layouts.FEED_TRADING)["symbol"][0]
    found = frames.records(part.price, layouts.CROSS_PRICE)
    match = frames.records(part.match, layouts.FEED_CROSS)["match"]
    numbers = {name: int(found[name][0]) if len(found) else 0 for name in CROSS_NUMBERS}
    return Cross(
        path=frames.path, time=(int(head["time_upper"]) << 32) + int(head["time_lower"]), stock=int(head["locate"]) - 1,
        symbol=columns.symbol_text(int(symbol)), **numbers, match=int(match[0]) if len(match) else 0,
        orders=joined_frame(frames, part.orders, agents_of(orders, len(part.orders))),
        trading=trading_frame(frames, part.trading), data=source if isinstance(source, bytes) else frames.raw.tobytes(),
        rewound=rewound)


CROSS_NUMBERS = ("price", "shares", "to_buy", "to_sell", "cut", "to_sell_below_cut", "to_buy_above_cut")


def joined_frame(frames: Frames, indexes: numpy.ndarray, agents: numpy.ndarray) -> pandas.DataFrame:
    """The orders that joined."""
    orders = frames.records(indexes, layouts.FEED_ADD)
    limit = columns.whole(orders["price"])
    return pandas.DataFrame({
        "reference": columns.whole(orders["reference"]), "agent": agents,
        "side": columns.words(orders["side"], columns.SIDES),
        "shares": columns.whole(orders["shares"]), "price": limit, "price_dollars": columns.dollars(limit)})


def trading_frame(frames: Frames, indexes: numpy.ndarray) -> pandas.DataFrame:
    """The orders that would trade: side, reference, shares."""
    parts = frames.records(indexes, layouts.CROSS_PART)
    return pandas.DataFrame({
        "side": columns.words(parts["side"], columns.SIDES), "reference": columns.whole(parts["reference"]),
        "shares": columns.whole(parts["shares"])})


def agents_of(orders: bytes | None, count: int) -> numpy.ndarray:
    """The agent of each order of a file of orders; -1 where there is no such file, or it has another number of them."""
    if orders is not None:
        rows = [row for row in csv.reader(io.StringIO(orders.decode("utf-8-sig", "replace"))) if row][1:]
        if len(rows) == count:
            return numpy.array([int(row[0]) for row in rows], numpy.int32)
    return numpy.full(count, -1, numpy.int32)


# ---------------------------------------------------------------- the file of orders

def orders_data(orders: object, symbol: str) -> tuple[bytes, str]:
    """The bytes of a file of orders and what it is called: of a path, a text, a data frame, or a list. Raises
    RunError."""
    from biqsolur.running import file_data
    if isinstance(orders, str) and (orders == HEADER_LINE or "\n" in orders):
        return orders.encode(), "the orders"
    if isinstance(orders, (str, os.PathLike)):
        return file_data(Path(orders)), os.fspath(orders)
    if isinstance(orders, pandas.DataFrame):
        missing = [name for name in HEADER if name not in orders]
        if missing:
            raise RunError(f"the orders have no column {', '.join(missing)}; a cross takes the columns {HEADER_LINE}")
        orders = list(orders[list(HEADER)].itertuples(index=False, name=None))
    if isinstance(orders, (bytes, dict)) or not isinstance(orders, Iterable):
        raise RunError(f"{orders!r} are no orders of a cross: give a path, a list or a data frame (docs/COMMANDS.md)")
    rows = [order_row(order, symbol, number) for number, order in enumerate(orders)]
    if len(rows) > MOST_ORDERS:
        raise RunError(f"there are {len(rows)} orders; a cross takes at most {MOST_ORDERS}")
    return "".join(f"{line}\n" for line in [HEADER_LINE, *rows]).encode(), "the orders"


def order_row(order: Any, symbol: str, number: int) -> str:
    """An order as a line of the file. An Enter alone is taken as trader 1's: whose it is changes no price."""
    from biqsolur.ouch import Enter
    trader, rest = (1, order) if isinstance(order, Enter) else split_order(order, number)
    if isinstance(rest, Enter):
        if rest.symbol != symbol:
            raise RunError(f"order {number} (counted from 0) is for {rest.symbol}, and the cross is of {symbol}")
        rest = (rest.side, rest.shares, rest.price)
    side, shares, limit = rest
    try:
        return f"{whole(trader)},{side},{whole(shares)},{price(int(limit) if hasattr(limit, '__index__') else limit)}"
    except (InputError, TypeError, ValueError) as error:
        raise RunError(f"order {number} (counted from 0): {error}") from None


def whole(value: Any) -> int:
    """A number of a trader, or of shares, of any type of whole numbers: a part of a share would be lost unseen."""
    if isinstance(value, bool) or not hasattr(value, "__index__"):
        raise RunError(f"{value!r} is of the type {type(value).__name__}; a trader and shares are whole numbers")
    return operator.index(value)


def split_order(order: Any, number: int) -> tuple[Any, Any]:
    """The trader of an order, and what it is."""
    if isinstance(order, (tuple, list)) and len(order) in (2, 4):
        from biqsolur.ouch import Enter
        if len(order) == 4 or isinstance(order[1], Enter):
            return order[0], order[1] if len(order) == 2 else order[1:]
    raise RunError(f"order {number} (counted from 0) is {order!r}; give (trader, side, shares, price), (trader, Enter), "
                   "or an ouch.Enter")
