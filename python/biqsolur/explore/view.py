"""A branch as the explorer walks through it: a row an event in numpy arrays, so that each step and search is quick."""

from __future__ import annotations

from functools import cached_property
from typing import Any

import numpy

from biqsolur import layouts
from biqsolur.bundle import Branch
from biqsolur.errors import InputError
from biqsolur.explore.people import People
from biqsolur.frames import records_at
from biqsolur.senders import opening_time

SEARCHES = ("trade", "agent", "stock", "difference")


class NoSuchEvent(InputError):
    """An event that a branch has not, or nothing found by a search."""


class View:
    """One branch of a run.

    Attributes: branch (of the bundle), people (whose names stand in its study), count (of its events).
    Event e stands in row e - 1 of each array.
    """

    def __init__(self, branch: Branch, people: People) -> None:
        self.branch = branch
        self.people = people
        self.symbols = branch.symbols

    @cached_property
    def frames(self) -> numpy.ndarray:
        """The index of each event's frame."""
        part = self.branch.part
        kinds = self.branch.bundle.frames.kinds[part.entries:part.entries_end]
        return part.entries + numpy.flatnonzero(kinds == ord("e"))

    @cached_property
    def heads(self) -> numpy.ndarray:
        """The head of each event's frame, in the layout EVENT."""
        return self.branch.bundle.frames.records(self.frames, layouts.EVENT)

    @property
    def count(self) -> int:
        """How many events the branch has."""
        return len(self.frames)

    @cached_property
    def times(self) -> numpy.ndarray:
        """Nanoseconds past midnight of each event; they never fall."""
        return self.heads["time"].astype(numpy.int64)

    @cached_property
    def open(self) -> int:
        """The time of the opening, nanoseconds past midnight."""
        return opening_time(self.branch)

    def check(self, event: int) -> int:
        """The event, where the branch has it; 0 is the opening."""
        if not 0 <= event <= self.count:
            raise NoSuchEvent(f"branch {self.branch.name} has the events 1 to {self.count}, and 0 is its opening; "
                              f"not {event}")
        return event

    def time_of(self, event: int) -> int:
        """The time of the state after an event, nanoseconds past midnight."""
        return int(self.times[event - 1]) if self.check(event) else self.open

    def event_at(self, time: int) -> int:
        """The last event that is not later than a time; 0 where there is none."""
        return int(numpy.searchsorted(self.times, time, side="right"))

    @cached_property
    def trade_events(self) -> numpy.ndarray:
        """The events with a trade, rising, each once."""
        return numpy.unique(self.branch.trades["event"].to_numpy())

    @cached_property
    def stocks(self) -> numpy.ndarray:
        """The stock that each event is about: the one that its message names, else the one that its trader trades;
        -1 where a message names a symbol that is no stock's."""
        heads = self.heads
        traders = numpy.where(heads["sender"] == 0, heads["receiver"], heads["sender"])
        out = self.people.stock_of_agent[numpy.minimum(traders,
                                                       len(self.people.stock_of_agent) - 1)].astype(numpy.int16)
        sizes = self.branch.bundle.frames.sizes[self.frames] - layouts.EVENT.itemsize
        for size in (2, 31):
            rows = numpy.flatnonzero(sizes == size)
            out[rows] = self._bodies(rows, layouts.QUESTION)["stock"]
        for size, layout in ((49, layouts.ENTER), (66, layouts.ACCEPTED)):
            rows = numpy.flatnonzero(sizes == size)
            out[rows] = self._stock_numbers(self._bodies(rows, layout)["symbol"])
        return out

    def _bodies(self, rows: numpy.ndarray, layout: numpy.dtype) -> numpy.ndarray:
        frames = self.branch.bundle.frames
        return records_at(frames.raw, frames.starts[self.frames[rows]] + layouts.EVENT.itemsize, layout)

    def _stock_numbers(self, symbols: numpy.ndarray) -> numpy.ndarray:
        out = numpy.full(len(symbols), -1, numpy.int16)
        for number, symbol in enumerate(self.symbols):
            out[symbols == int.from_bytes(symbol.encode("latin1").ljust(8), "big")] = number
        return out

    def find(self, kind: str, event: int, forward: bool, number: int = 0) -> int:
        """The nearest event behind (or before) this one with a trade, of an agent or stock, or that first differs from
        the parent. Raises NoSuchEvent where there is none."""
        rows = self._found(kind, number)
        place = numpy.searchsorted(rows, event, side="right") if forward else numpy.searchsorted(rows, event) - 1
        if not 0 <= place < len(rows):
            raise NoSuchEvent(f"no such event {'after' if forward else 'before'} event {event} of branch "
                              f"{self.branch.name}")
        return int(rows[place])

    def _found(self, kind: str, number: int) -> numpy.ndarray:
        """The numbers of the events that a search looks for, rising."""
        if kind == "trade":
            return self.trade_events
        if kind == "agent":
            return numpy.flatnonzero((self.heads["sender"] == number) | (self.heads["receiver"] == number)) + 1
        if kind == "stock":
            return numpy.flatnonzero(self.stocks == number) + 1
        if kind == "difference":
            first = self.branch.first_difference
            return numpy.array([first] if first else [], numpy.int64)
        raise InputError(f"a search is for one of {', '.join(SEARCHES)}, not {kind!r}")

    def body(self, event: int) -> bytes:
        """The bytes of an event's message."""
        frames, index = self.branch.bundle.frames, int(self.frames[event - 1])
        start, size = int(frames.starts[index]), int(frames.sizes[index])
        return frames.raw[start + layouts.EVENT.itemsize:start + size].tobytes()

    def head(self, event: int) -> dict[str, Any]:
        """The fields of an event's frame as plain numbers."""
        record = self.heads[event - 1]
        return {name: int(record[name]) for name in layouts.EVENT.names}
