"""What stands at the end of a branch, or at a state of a rewind, as data frames."""

from __future__ import annotations

from dataclasses import dataclass

import numpy
import pandas

from biqsolur import columns, layouts
from biqsolur.check import Part
from biqsolur.columns import Tokens
from biqsolur.frames import Frames, records_at

ENDS = {"F": "QueueFull", "L": "EventLimit", "Q": "Quiet", "C": "Closed"}


@dataclass
class Closing:
    """What stands at the end of a branch, or at a state of a rewind.

    Attributes
    ----------
    counts: dict with end ("Closed", "Quiet", "EventLimit", "QueueFull", or "-" where a rewind's run goes on),
        events, time (ns), next_message, waiting, dropped, ignored_enters, ignored_cancels, orders, matches
    stocks: a row a stock: stock, symbol, state ("T" or "H"), last, last_dollars, matched (shares),
        fees (Python integers, millionths of a dollar), offset, live (orders, hidden ones too)
    orders: a row a resting order, by stock and then by arrival: reference, agent, token, side ("B" or "S"),
        intended, open (shares), stock, symbol, price, price_dollars, time_in_force, hidden (bool: the feed and the
        quotes tell nothing of it)
    agents: a row an agent, the exchange first: agent, where the study is known name ("maker 1"), silenced,
        own_time (ns), tokens, draws,
        cash (settled; Python integers, millionths of a dollar), own_cash (Python integers), own_position (shares),
        orders (in its own list), quotes (heard), and for each stock position_SYMBOL (settled, shares)
    """

    counts: dict[str, int | str]
    stocks: pandas.DataFrame
    orders: pandas.DataFrame
    agents: pandas.DataFrame


def read_closing(frames: Frames, part: Part, tokens: Tokens, symbols: list[str],
                 names: list[str] | None = None) -> Closing:
    """The closing of a branch or state. `names` are those of the agents by number, where the study is known."""
    return Closing(
        read_counts(frames, part),
        stocks_frame(frames, numpy.arange(part.stocks, part.orders), symbols),
        orders_frame(frames, numpy.arange(part.orders, part.agents), tokens, symbols),
        agents_frame(frames, numpy.arange(part.agents, part.waiting), symbols, names),
    )


def read_counts(frames: Frames, part: Part) -> dict[str, int | str]:
    """The counters of a closing."""
    counts = frames.records(numpy.array([part.counts]), layouts.COUNTS)[0]
    letter = chr(counts["end"])
    return {"end": ENDS.get(letter, letter), **{name: int(counts[name]) for name in (layouts.COUNTS.names or ())[1:]}}


def stocks_frame(frames: Frames, indexes: numpy.ndarray, symbols: list[str]) -> pandas.DataFrame:
    """A row a stock."""
    stocks = frames.records(indexes, layouts.STOCK)
    number = columns.small(stocks["stock"])
    last = columns.whole(stocks["last"])
    return pandas.DataFrame({
        "stock": number,
        "symbol": columns.stock_symbols(number, symbols),
        "state": columns.letters(stocks["state"], "HT"),
        "last": last,
        "last_dollars": columns.dollars(last),
        "matched": columns.whole(stocks["matched"]),
        "fees": columns.long_numbers(stocks["fees_upper"], stocks["fees_lower"]),
        "offset": columns.whole(stocks["offset"]),
        "live": columns.whole(stocks["live"]),
    })


def orders_frame(frames: Frames, indexes: numpy.ndarray, tokens: Tokens, symbols: list[str]) -> pandas.DataFrame:
    """A row a resting order."""
    orders = frames.records(indexes, layouts.LIVE_ORDER)
    stock = columns.small(orders["stock"])
    price = columns.whole(orders["price"])
    return pandas.DataFrame({
        "reference": columns.whole(orders["reference"]),
        "agent": columns.small(orders["agent"]),
        "token": tokens.numbers(orders["token"]),
        "side": columns.words(orders["side"], columns.SIDES),
        "intended": columns.whole(orders["intended"]),
        "open": columns.whole(orders["open"]),
        "stock": stock,
        "symbol": columns.stock_symbols(stock, symbols),
        "price": price,
        "price_dollars": columns.dollars(price),
        "time_in_force": columns.whole(orders["time_in_force"]),
        "hidden": frames.kinds[indexes] == ord("n"),
    })


def agents_frame(frames: Frames, indexes: numpy.ndarray, symbols: list[str],
                 names: list[str] | None) -> pandas.DataFrame:
    """A row an agent."""
    agents = frames.records(indexes, layouts.AGENT)
    places = frames.starts[indexes] + layouts.AGENT.itemsize
    position = numpy.dtype([("position", layouts.I8)])
    return pandas.DataFrame({
        "agent": columns.small(agents["agent"]),
        **({} if names is None else {"name": names}),
        "silenced": agents["silenced"] == ord("Y"),
        "own_time": columns.whole(agents["own_time"]),
        "tokens": columns.whole(agents["tokens"]),
        "draws": columns.whole(agents["draws"]),
        "cash": columns.long_numbers(agents["cash_upper"], agents["cash_lower"]),
        "own_cash": columns.long_numbers(agents["own_cash_upper"], agents["own_cash_lower"]),
        "own_position": columns.whole(agents["own_position"]),
        "orders": columns.small(agents["orders"]),
        "quotes": columns.whole(agents["quotes"]),
        **{f"position_{symbol}": columns.whole(records_at(frames.raw, places + 8 * stock, position)["position"])
           for stock, symbol in enumerate(symbols)},
    })
