"""What all measures of a branch go by: the best prices over time, and the trades with the prices before and behind
them.

The mid of a stock is half the sum of its best displayed bid and ask, and there is none where a side is empty. Hidden
orders are in no bid, ask or mid; what they trade is among the trades. The side of a trade is that of the order that
came with its event. It is known, and not guessed from prices as by Lee and Ready (1991).
"""

from __future__ import annotations

from collections.abc import Callable, Iterator
from dataclasses import dataclass, field
from functools import cached_property
from numbers import Integral
from typing import TYPE_CHECKING

import numpy
import pandas

from biqsolur import layouts, times, top
from biqsolur.errors import MeasureError
from biqsolur.feed import feed_time

if TYPE_CHECKING:
    from biqsolur.bundle import Branch

MOST_POINTS = 10_000_000        # of a grid of times


@dataclass
class Steps:
    """The best displayed prices of one stock as a function of time: a row for each change of them or of the trading
    state, in order. Before the first row the book is empty and the stock trades.

    Attributes, an array each: event, time (ns), bid, bid_shares, ask, ask_shares, trading (bool).
    """

    event: numpy.ndarray
    time: numpy.ndarray
    bid: numpy.ndarray
    bid_shares: numpy.ndarray
    ask: numpy.ndarray
    ask_shares: numpy.ndarray
    trading: numpy.ndarray

    @cached_property
    def mid(self) -> numpy.ndarray:
        """Half the sum of bid and ask (0.0001 dollars), not-a-number where a side is empty; one more element, the last,
        is that before the first row, which the place -1 takes."""
        both = (self.bid > 0) & (self.ask > 0)
        return numpy.append(numpy.where(both, (self.bid + self.ask) / 2, numpy.nan), numpy.nan)

    def before(self, events: numpy.ndarray) -> numpy.ndarray:
        """The row that holds before each of these events; -1 where none does yet."""
        return numpy.searchsorted(self.event, events, side="left") - 1

    def at(self, times: numpy.ndarray) -> numpy.ndarray:
        """The row that holds after all events at or before each of these times (ns); -1 where none does yet."""
        return numpy.searchsorted(self.time, times, side="right") - 1


@dataclass
class Window:
    """The events of a branch that a measure takes: those numbered above `after`, and the times from that of the event
    `after` (of the opening for 0) to that of the last event, in ns."""

    after: int
    start: int
    end: int

    @property
    def length(self) -> int:
        """Its length in nanoseconds."""
        return self.end - self.start

    def grid(self, interval: int) -> numpy.ndarray:
        """The times from its start on, `interval` ns apart, that are not behind its end."""
        if interval < 1:
            raise MeasureError(f"interval = {interval} ns: take one above 0")
        if self.length // interval >= MOST_POINTS:
            raise MeasureError(f"interval = {interval} ns makes {self.length // interval + 1} points of this run: take "
                               f"a longer one, so that they are at most {MOST_POINTS}")
        return numpy.arange(self.start, self.end + 1, interval, dtype=numpy.int64)


@dataclass
class Trades:
    """The trades of one stock, a row a match, in order.

    Attributes, an array each: event, time (ns), sign (1 where the order that came bought, -1 where it sold), price,
    shares, aggressor, resting (agents), row (in the branch's `trades`).
    """

    event: numpy.ndarray
    time: numpy.ndarray
    sign: numpy.ndarray
    price: numpy.ndarray
    shares: numpy.ndarray
    aggressor: numpy.ndarray
    resting: numpy.ndarray
    row: numpy.ndarray

    def since(self, after: int) -> Trades:
        """Those of the events numbered above `after`."""
        first = int(numpy.searchsorted(self.event, event_number(after), side="right"))
        return Trades(*(getattr(self, name)[first:] for name in self.__dataclass_fields__))


@dataclass
class Tape:
    """The best prices and the trades of a branch, each made once when it is first asked for."""

    branch: Branch
    made: dict[str, pandas.DataFrame] = field(default_factory=dict)

    def keep(self, name: str, make: Callable[[Branch], pandas.DataFrame]) -> pandas.DataFrame:
        """A data frame that a measure makes of the branch, made when it is first asked for."""
        if name not in self.made:
            self.made[name] = make(self.branch)
        return self.made[name]

    @cached_property
    def messages(self) -> top.BookMessages:
        """The messages that change the displayed book."""
        return top.book_messages(self.branch.bundle.frames, self.branch.part)

    @cached_property
    def tops(self) -> top.Tops:
        """The best prices after each message."""
        return top.tops(self.messages, self.levels)

    @cached_property
    def levels(self) -> top.Levels:
        """The open shares of each price level after each message."""
        return top.level_totals(self.messages)

    @cached_property
    def event_times(self) -> numpy.ndarray:
        """The time of each event, in order (ns)."""
        frames, part = self.branch.bundle.frames, self.branch.part
        indexes = part.entries + numpy.flatnonzero(frames.kinds[part.entries:part.entries_end] == ord("e"))
        return frames.records(indexes, layouts.EVENT)["time"].astype(numpy.int64)

    @cached_property
    def opening(self) -> int:
        """The time of the opening (ns)."""
        frames = self.branch.bundle.frames
        return int(feed_time(frames.records(numpy.array([self.branch.part.branch + 1]), layouts.FEED_HEAD))[0])

    @cached_property
    def steps(self) -> list[Steps]:
        """Of each stock its best prices as a function of time."""
        return [self._steps(stock) for stock in range(len(self.branch.symbols))]

    def _steps(self, stock: int) -> Steps:
        messages, best = self.messages, self.tops
        rows = self.changed[messages.stock[self.changed] == stock]
        states = self._trading_states(stock)
        index = numpy.concatenate([messages.index[rows], states.index])
        order = numpy.argsort(index, kind="stable")
        hold = numpy.concatenate([numpy.arange(len(rows)), numpy.full(len(states.index), -1)])[order]
        hold = numpy.maximum.accumulate(hold) if len(hold) else hold
        prices = [numpy.append(of[rows], 0)[hold] for of in (best.bid, best.bid_shares, best.ask, best.ask_shares)]
        state = numpy.searchsorted(states.index, index[order], side="right") - 1
        return Steps(numpy.concatenate([messages.event[rows], states.event])[order],
                     numpy.concatenate([messages.time[rows], states.time])[order], *prices,
                     numpy.append(states.trading, True)[state])

    @cached_property
    def changed(self) -> numpy.ndarray:
        """The rows of `messages` at which the best prices of their stock, at the end of an event, are others."""
        return top.changed_rows(self.messages, self.tops)

    def _trading_states(self, stock: int) -> TradingStates:
        """The messages behind the opening that set the trading state of this stock."""
        frames, part = self.branch.bundle.frames, self.branch.part
        kinds = frames.kinds[part.entries:part.entries_end]
        index = part.entries + numpy.flatnonzero(kinds == ord("H"))
        index = index[frames.records(index, layouts.FEED_HEAD)["locate"] == stock + 1]
        event = numpy.cumsum(kinds == ord("e"))[index - part.entries]
        time = feed_time(frames.records(index, layouts.FEED_HEAD))
        return TradingStates(index, event, time, frames.records(index, layouts.FEED_TRADING)["state"] == ord("T"))

    @cached_property
    def trades(self) -> list[Trades]:
        """Of each stock its trades."""
        frame = self.branch.trades
        sign = numpy.where(frame.side.cat.codes.to_numpy() == frame.side.cat.categories.get_loc("B"), 1, -1)
        columns = [frame.event.to_numpy(numpy.int64), frame.time.to_numpy(), sign, frame.price.to_numpy(),
                   frame.shares.to_numpy(), frame.aggressor.to_numpy(), frame.resting.to_numpy(),
                   numpy.arange(len(frame))]
        stocks = frame.stock.to_numpy()
        return [Trades(*(column[stocks == stock] for column in columns)) for stock in range(len(self.branch.symbols))]

    def window(self, after: int = 0) -> Window:
        """The events numbered above `after`. A branch with fewer events has an empty window at its end."""
        moments, after = self.event_times, event_number(after)
        end = int(moments[-1]) if len(moments) else self.opening
        if after == 0:
            return Window(after, self.opening, end)
        return Window(after, int(moments[after - 1]) if after <= len(moments) else end, end)

    def stocks(self, stock: int | str | None) -> list[int]:
        """The stocks that a measure takes: the one that is named by its symbol or number, or all of them."""
        symbols = self.branch.symbols
        if stock is None:
            return list(range(len(symbols)))
        if stock in symbols:
            return [symbols.index(stock)]
        if isinstance(stock, int) and 0 <= stock < len(symbols):
            return [stock]
        raise MeasureError(f"no stock {stock!r}; there are {', '.join(symbols)}")


@dataclass
class TradingStates:
    """Messages that set a stock's trading state: index (of the frame), event (how many events are before), time (ns),
    trading (bool)."""

    index: numpy.ndarray
    event: numpy.ndarray
    time: numpy.ndarray
    trading: numpy.ndarray


def tape_of(branch: Branch) -> Tape:
    """The tape of a branch, which the branch keeps until it is told to `forget`."""
    return branch.tape


def whole_number(name: str, value: object, least: int = 1) -> int:
    """A setting that is a whole number, from `least` on. MeasureError where it is none."""
    if not isinstance(value, Integral) or isinstance(value, bool) or value < least:
        raise MeasureError(f"{name} = {value!r}: take a whole number, {least} or more")
    return int(value)


def event_number(after: object) -> int:
    """The event behind which a measure counts; 0 is the opening."""
    return whole_number("after", after, 0)


def duration(value: object, name: str = "horizon") -> int:
    """A length of time in nanoseconds: from nanoseconds, a Timedelta, or a text such as "5s" or "250ms"."""
    length = times.duration(value)
    if length < 0:
        raise MeasureError(f"{name} = {value!r}: take a length of time of 0 or more")
    return length


def weights(steps: Steps, window: Window) -> numpy.ndarray:
    """For how many nanoseconds of the window each row of the steps holds while the stock trades. Shape (rows,)."""
    begin = numpy.maximum(steps.time, window.start)
    end = numpy.minimum(numpy.append(steps.time[1:], window.end), window.end)
    return numpy.where(steps.trading, numpy.maximum(end - begin, 0), 0)


def mean(values: numpy.ndarray, weight: numpy.ndarray | None = None) -> float:
    """The mean of those values that are numbers, weighted where `weight` is given; not-a-number where there are
    none."""
    known = ~numpy.isnan(values)
    if weight is not None:
        known &= weight > 0
    if not known.any():
        return float("nan")
    return float(numpy.average(values[known], weights=None if weight is None else weight[known]))


def named(branch: Branch, stock: int, numbers: dict[str, float]) -> dict[str, float]:
    """Numbers of one stock by their names, to which a market of several stocks adds a point and the symbol."""
    if len(branch.symbols) == 1:
        return numbers
    return {f"{name}.{branch.symbols[stock]}": value for name, value in numbers.items()}


def per_stock(branch: Branch, stock: int | str | None) -> Iterator[tuple[int, Steps, Trades]]:
    """The stocks that are asked for, each with its steps and trades."""
    tape = tape_of(branch)
    for number in tape.stocks(stock):
        yield number, tape.steps[number], tape.trades[number]
