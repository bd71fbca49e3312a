"""During which event each message of a branch was sent.

Numbers of messages rise by one as messages are sent, in the order of the events. So the event that sent number m is the
first one after which the next number is above m; that is how a `rewind` tells it. A bundle has no such counters, but it
says enough to know almost every sender without them:

- A trader has one wakeup waiting at a time, and each wakeup of it that is delivered sends its next, as the last of what
it
  sends. So the next wakeup with a higher number ends what was sent with a question or a cancel.
- The exchange stamps each reply with the time at which it handled the order, and a match has its number in the feed.
- Each question is answered by one quote.
- What a trader orders, it orders as it hears a quote.

Where more than one event could have sent a message, the neighbours in number say between which events it was sent;
where that leaves two, the program is asked (`counters`).
"""

from __future__ import annotations

from typing import Callable

import numpy

from biqsolur import layouts
from biqsolur.bundle import Branch
from biqsolur.errors import StudyNeededError
from biqsolur.frames import bytes_at, records_at

OPENING, EDIT, UNKNOWN = 0, -1, -2
ASKED_AT_ONCE = 64
Counters = Callable[[list[int]], list[int]]     # of events: the next message's number after each


def opening_time(branch: Branch) -> int:
    """The time of a branch's opening, nanoseconds past midnight: that of the System Event with which its feed
    begins."""
    head = branch.bundle.frames.records(numpy.array([branch.part.branch + 1]), layouts.FEED_HEAD)[0]
    return (int(head["time_upper"]) << 32) + int(head["time_lower"])


class Senders:
    """The messages that stand in a branch's events, by number, and the event that sent each.

    Attributes, a row a message, by number: numbers, sender, receiver, letter (of its body), size (of its body, bytes),
    first (the event in which it first stands), delivered (the event in which it is delivered, 0 where it is not), event
    (the one during which it was sent: OPENING where it stood at the opening, EDIT where an edit injected it, UNKNOWN
    where only the program could tell), fork (where an edit injected it, the event after which that edit was made; else
    0).
    """

    def __init__(self, branch: Branch, counters: Counters | None = None) -> None:
        self.branch = branch
        self.counters = counters
        frames = branch.bundle.frames
        indexes = branch._event_frames()
        heads = frames.records(indexes, layouts.EVENT)
        self.numbers, rows = numpy.unique(heads["message"].astype(numpy.int64), return_index=True)
        self.first = rows + 1
        self.sender = heads["sender"][rows].astype(numpy.int64)
        self.receiver = heads["receiver"][rows].astype(numpy.int64)
        self.letter = heads["body"][rows]
        self.size = frames.sizes[indexes[rows]].astype(numpy.int64) - layouts.EVENT.itemsize
        self.bodies = frames.starts[indexes[rows]] + layouts.EVENT.itemsize
        self.times = heads["time"].astype(numpy.int64)
        self.delivered = numpy.zeros(len(self.numbers), numpy.int64)
        events = numpy.flatnonzero(heads["delivery"] == ord("D"))
        self.delivered[self.rows_of(heads["message"][events].astype(numpy.int64))] = events + 1
        self.event = numpy.full(len(self.numbers), UNKNOWN, numpy.int64)
        self.fork = numpy.zeros(len(self.numbers), numpy.int64)
        self._find()

    def rows_of(self, numbers: numpy.ndarray) -> numpy.ndarray:
        """The rows of these numbers, all of which stand in the branch."""
        return numpy.searchsorted(self.numbers, numbers)

    def _find(self) -> None:
        self._injected()
        self._wakeups()
        self._before_wakeups()
        self._matched()
        self._replies()
        self._quotes()
        self._orders()
        self._asked()

    def _is(self, letter: str, size: int | None = None) -> numpy.ndarray:
        """Which messages have a body of this letter and size."""
        of_letter = self.letter == ord(letter)
        return of_letter if size is None else of_letter & (self.size == size)

    # ------------------------------------------------------------ one kind after another

    def _injected(self) -> None:
        """What edits injected: at each fork so many numbers as there are edits `inject`, the last ones before it goes
        on."""
        edits = self.branch.edits
        events = edits["event"].to_numpy()[(edits["kind"] == "inject").to_numpy()]
        forks, counts = numpy.unique(events, return_counts=True)
        if len(forks) == 0:
            return
        for fork, last, count in zip(forks.tolist(), self._counters(forks.tolist()), counts.tolist()):
            rows = slice(*numpy.searchsorted(self.numbers, [last - count, last]))
            self.event[rows], self.fork[rows] = EDIT, fork

    def _wakeups(self) -> None:
        """A trader's first wakeup stands at the opening; each later one was sent as the one before it was delivered."""
        rows = numpy.flatnonzero(self._is("w"))
        rows = rows[numpy.lexsort((self.numbers[rows], self.receiver[rows]))]
        same = numpy.append(False, self.receiver[rows][1:] == self.receiver[rows][:-1])
        self.event[rows] = numpy.where(same, numpy.append(0, self.delivered[rows][:-1]), OPENING)
        self.wakeups = rows

    def _before_wakeups(self) -> None:
        """Questions and cancels of traders: sent with the wakeup of the next higher number, by the same wakeup before
        it; where no such number stands in the branch, that wakeup still waits, and the last one delivered sent them."""
        rows = numpy.flatnonzero((self._is("a") | self._is("i", 19)) & (self.event == UNKNOWN))
        keys = self._key(self.receiver[self.wakeups], self.numbers[self.wakeups])
        wanted = self._key(self.sender[rows], self.numbers[rows])
        place = numpy.searchsorted(keys, wanted)
        last = self.wakeups[place - 1]
        self.event[rows] = self.delivered[last]

    def _key(self, agents: numpy.ndarray, numbers: numpy.ndarray) -> numpy.ndarray:
        """One number for an agent and a number of a message, which rises with both."""
        return (agents << 40) + numbers

    def _matched(self) -> None:
        """Executions: the event in whose feed their match stands."""
        rows = numpy.flatnonzero(self._is("o", 40))
        trades = self.branch.trades
        matches, events = trades["match"].to_numpy(), trades["event"].to_numpy()
        if len(matches) == 0:
            return
        place = numpy.minimum(numpy.searchsorted(matches, self._field(rows, layouts.EXECUTED, "match")),
                              len(matches) - 1)
        self.event[rows] = events[place]

    def _replies(self) -> None:
        """Other replies: the event at the exchange at the time that they are stamped with, of an order of their token
        and agent: an Enter for what answers it, a Cancel for what a trader asked for. Of several replies to one token
        in one nanosecond each has its own order, in turn; where there are more orders than replies, it is left open."""
        for layout, size, orders in ((layouts.ACCEPTED, 66, 49), (layouts.REJECTED, 24, 49), (layouts.CANCELED, 28, 49),
                                     (layouts.CANCELED, 28, 19)):
            rows = numpy.flatnonzero(self._is("o", size))
            if size == 28:
                by_trader = self._field(rows, layout, "reason") == ord("U")
                rows = rows[by_trader == (orders == 19)]
            self._answer(rows, self._order_events(orders), layout)

    def _answer(self, rows: numpy.ndarray, orders: numpy.ndarray, layout: numpy.dtype) -> None:
        """Gives each reply the order that it answers, out of the rows `orders`."""
        at_time = self.times[self.delivered[orders] - 1]
        keys = self._tokens(orders, layouts.ENTER, at_time, self.sender[orders])
        wanted = self._tokens(rows, layout, self._field(rows, layout, "handled"), self.receiver[rows])
        by_key: dict[bytes, list[int]] = {}
        for key, event in zip(keys, self.delivered[orders].tolist()):
            by_key.setdefault(key, []).append(event)
        asked: dict[bytes, list[int]] = {}
        for key, row in zip(wanted, rows.tolist()):
            asked.setdefault(key, []).append(row)
        for key, own in asked.items():
            events = by_key.get(key, [])
            if len(own) == 1 and layout is not layouts.CANCELED or len(events) == len(own):
                self.event[own] = events[:len(own)]

    def _order_events(self, size: int) -> numpy.ndarray:
        """The rows of the orders of a size that the exchange handled, in the order of their events."""
        rows = numpy.flatnonzero(self._is("i", size) & (self.delivered > 0))
        return rows[numpy.argsort(self.delivered[rows])]

    def _tokens(self, rows: numpy.ndarray, layout: numpy.dtype, times: numpy.ndarray,
                agents: numpy.ndarray) -> list[bytes]:
        """A key of each message: its time, agent and token."""
        frames = self.branch.bundle.frames
        table = numpy.zeros((len(rows), 30), numpy.uint8)
        table[:, :8] = numpy.ascontiguousarray(times.astype(">u8")).view(numpy.uint8).reshape(-1, 8)
        table[:, 8:16] = numpy.ascontiguousarray(agents.astype(">u8")).view(numpy.uint8).reshape(-1, 8)
        table[:, 16:] = bytes_at(frames.raw, self.bodies[rows] + layout.fields["token"][1], 14)
        return [row.tobytes() for row in table]

    def _field(self, rows: numpy.ndarray, layout: numpy.dtype, name: str) -> numpy.ndarray:
        """A field of the bodies of these messages."""
        return records_at(self.branch.bundle.frames.raw, self.bodies[rows], layout)[name].astype(numpy.int64)

    def _quotes(self) -> None:
        """Quotes: each question that reached the exchange was answered by one, in turn."""
        self._among(self._is("q"), self.receiver, self._is("a"), self.sender, once=True)

    def _orders(self) -> None:
        """Orders of traders: sent as a quote was heard."""
        self._among(self._is("i", 49), self.sender, self._is("q"), self.receiver, once=False)

    def _among(self, wanted: numpy.ndarray, agents: numpy.ndarray, causes: numpy.ndarray, hearers: numpy.ndarray,
               once: bool) -> None:
        """Gives each wanted message of an agent its event, out of the events in which causes of that agent were
        delivered, where the neighbours in number leave one. `once`: each cause sends exactly one."""
        rows = numpy.flatnonzero(wanted & (self.event == UNKNOWN))
        delivered = numpy.flatnonzero(causes & (self.delivered > 0))
        keys = numpy.sort(self._key(hearers[delivered], self.delivered[delivered]))
        low, high = self._bounds(rows)
        first = numpy.searchsorted(keys, self._key(agents[rows], low))
        end = numpy.searchsorted(keys, self._key(agents[rows], high), side="right")
        sure = end - first == 1
        self.event[rows[sure]] = keys[first[sure]] & ((1 << 40) - 1)
        if once:
            self._take_turns(rows[~sure], first[~sure], end[~sure], keys)

    def _take_turns(self, rows: numpy.ndarray, first: numpy.ndarray, end: numpy.ndarray, keys: numpy.ndarray) -> None:
        """Of messages with the same possible events, as many as these events, each has its own, in turn."""
        groups: dict[tuple[int, int], list[int]] = {}
        for row, begin, stop in zip(rows.tolist(), first.tolist(), end.tolist()):
            groups.setdefault((begin, stop), []).append(row)
        for (begin, stop), own in groups.items():
            if stop - begin == len(own):
                self.event[own] = keys[begin:stop] & ((1 << 40) - 1)

    def _bounds(self, rows: numpy.ndarray) -> tuple[numpy.ndarray, numpy.ndarray]:
        """Between which events messages were sent: those of the nearest lower and higher number that are known. A
        message is never sent in or after the event in which it first stands."""
        known = numpy.flatnonzero(self.event >= 0)
        place = numpy.searchsorted(known, rows)
        events = numpy.concatenate([[0], self.event[known], [len(self.times)]])
        return events[place], numpy.minimum(events[place + 1], self.first[rows] - 1)

    # ------------------------------------------------------------ the program's word

    def _asked(self) -> None:
        """Asks for the counters after each event that could have sent a message whose sender is still open."""
        rows = numpy.flatnonzero(self.event == UNKNOWN)
        if len(rows) == 0 or self.counters is None:
            return
        low, high = self._bounds(rows)
        candidates = [self._could(row, *span) for row, span in zip(rows.tolist(), zip(low.tolist(), high.tolist()))]
        asked = sorted({event for events in candidates for event in events})
        after = dict(zip(asked, self._counters(asked)))
        for row, events in zip(rows.tolist(), candidates):
            self.event[row] = next(event for event in events if after[event] > self.numbers[row])

    def _could(self, row: int, low: int, high: int) -> list[int]:
        """The events from `low` to `high` that the sender of a message received."""
        agent = self.sender[row]
        receivers = numpy.flatnonzero((self.receiver == agent) & (self.delivered >= max(low, 1)) & (self.delivered
                                                                                                    <= high))
        return sorted(self.delivered[receivers].tolist())

    def _counters(self, events: list[int]) -> list[int]:
        if self.counters is None:
            raise StudyNeededError(f"which event sent a message of branch {self.branch.name} is told by the program "
                                   "alone, "
                                   "since an edit injected messages: give the study too, as in causes(branch, event, "
                                   "study=study)")
        out = []
        for begin in range(0, len(events), ASKED_AT_ONCE):
            out += self.counters(events[begin:begin + ASKED_AT_ONCE])
        return out
