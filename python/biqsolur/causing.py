"""Why an event came, and what came of it.

    biqsolur.causes(wide, 5145)     # from a trade back: its order, the quote that was heard, the order behind it
    biqsolur.effects(wide, 5145)    # the messages that were sent as it was handled, and where each arrived

A message's cause is the event during which it was sent (`biqsolur.senders`). A quote has two more: the orders that set
its bid and its ask, which are those that stood first at these prices as the exchange answered the question. An order
that traded as it came has the orders that it met. All of it is read off the bundle's own numbers; nothing is guessed.
"""

from __future__ import annotations

from dataclasses import dataclass
from functools import cached_property
from typing import Any

import numpy
import pandas

from biqsolur import columns, layouts
from biqsolur.bundle import Branch
from biqsolur.closing import read_counts
from biqsolur.errors import InputError, StudyNeededError
from biqsolur.frames import records_at
from biqsolur.messages import BODY_WORDS
from biqsolur.senders import EDIT, OPENING, UNKNOWN, Counters, Senders, opening_time
from biqsolur.top import BookMessages, book_messages

SENT, BID, ASK, MET, INJECTED, OPENED = (
    "sent during", "bid set by", "ask set by", "met an order of", "injected by an edit after", "stood at the opening")
COLUMNS = ["depth", "of", "link", "event", "time", "kind", "message", "sender", "receiver"]


@dataclass(frozen=True)
class Link:
    """That an event (`of`) has another one (`event`) as a cause, and in which way."""

    of: int
    link: str
    event: int


class Causes:
    """The causes and effects of one branch's events. Made once for a branch, each answer is quick.

    `counters` asks the program for the next message's number after events; it is needed where edits inject messages.
    """

    def __init__(self, branch: Branch, counters: Counters | None = None) -> None:
        self.branch = branch
        self.counters = counters
        frames = branch.bundle.frames
        self.frames = frames
        self.indexes = branch._event_frames()
        self.heads = frames.records(self.indexes, layouts.EVENT)
        self.senders = Senders(branch, counters)

    @cached_property
    def book(self) -> BookMessages:
        """The messages of the displayed book, with the span in which each order stood."""
        return book_messages(self.frames, self.branch.part)

    def check(self, event: int) -> None:
        """Raises InputError where the branch has no such event."""
        if not 1 <= event <= len(self.heads):
            raise InputError(f"branch {self.branch.name} has the events 1 to {len(self.heads):,}, not {event}")

    # ------------------------------------------------------------ back

    def links(self, event: int) -> list[Link]:
        """The direct causes of an event: what its message was sent during, and then what set its quote, or what it
        met."""
        if event == 0:
            return []
        self.check(event)
        head = self.heads[event - 1]
        row = int(self.senders.rows_of(numpy.array([head["message"]], numpy.int64))[0])
        sent = int(self.senders.event[row])
        if sent == UNKNOWN:
            raise StudyNeededError(f"which event sent the message of event {event} is told by the program alone: give the "
                                   "study too, as in causes(branch, event, study=study)")
        if sent == EDIT:
            out = [Link(event, INJECTED, int(self.senders.fork[row]))]
        else:
            out = [Link(event, OPENED if sent == OPENING else SENT, sent)]
        delivered = head["delivery"] == ord("D")
        if head["body"] == ord("q") and sent > 0:
            out += self._setters(event, sent)
        if head["body"] == ord("i") and delivered:
            out += self._met(event)
        return out

    def _setters(self, event: int, answered: int) -> list[Link]:
        """Of a quote, the orders that stood first at its bid and its ask in the event in which it was answered."""
        start = int(self.frames.starts[self.indexes[event - 1]]) + layouts.EVENT.itemsize
        quote = records_at(self.frames.raw, numpy.array([start]), layouts.QUOTE)[0]
        book = self.book
        row = int(numpy.searchsorted(book.event, answered, side="right"))      # the messages of the book by then
        out = []
        for link, price, buy in ((BID, int(quote["bid"]), True), (ASK, int(quote["ask"]), False)):
            there = ((book.row < row) & (book.end >= row) & (book.buy == buy) & (book.price == price)
                     & (book.stock[book.row] == int(quote["stock"])))
            orders = numpy.flatnonzero(there)
            if price and len(orders):
                out.append(Link(event, link, int(book.event[book.row[orders[0]]])))
        return out

    def _met(self, event: int) -> list[Link]:
        """Of an order, the displayed orders that it traded with as it came: the events in which they came to rest."""
        trades = self.branch.trades
        events = trades["event"].to_numpy()
        rows = slice(*numpy.searchsorted(events, [event, event + 1]))
        references = trades["reference"].to_numpy()[rows]
        places = numpy.searchsorted(self.book.reference, references[references > 0])
        rested = self.book.event[self.book.row[places]] if len(places) else numpy.zeros(0, numpy.int64)
        return [Link(event, MET, int(one)) for one in dict.fromkeys(rested.tolist())]

    def chain(self, event: int, depth: int) -> list[tuple[int, Link]]:
        """The causes of an event, their causes, and so on: each link with its depth, 1 for the event's own. An event
        that came up before is not gone into again."""
        out: list[tuple[int, Link]] = []
        seen = {event}

        def go(of: int, level: int) -> None:
            for link in self.links(of):
                out.append((level, link))
                if link.event > 0 and link.event not in seen and level < depth:
                    seen.add(link.event)
                    go(link.event, level + 1)
        go(event, 1)
        return out

    # ------------------------------------------------------------ on

    def sent_rows(self, event: int) -> numpy.ndarray:
        """The rows, among the messages that stand in the branch, of those that an event sent."""
        return numpy.arange(*numpy.searchsorted(self._by_event[0], [event, event + 1]))

    @cached_property
    def _by_event(self) -> tuple[numpy.ndarray, numpy.ndarray]:
        order = numpy.argsort(self.senders.event, kind="stable")
        return self.senders.event[order], order

    def effects(self, event: int) -> list[dict[str, Any]]:
        """The messages that an event sent and that stand in the branch: number, kind, sender, receiver, `first` (the
        event in which it first stands), `event` (in which it is delivered, 0 where that did not come)."""
        if event:
            self.check(event)
        senders = self.senders
        return [{
            "message": int(senders.numbers[row]),
            "kind": BODY_WORDS.get(int(senders.letter[row]), chr(senders.letter[row])),
            "sender": int(senders.sender[row]), "receiver": int(senders.receiver[row]),
            "first": int(senders.first[row]),
            "event": int(senders.delivered[row]),
        } for row in sorted(self._by_event[1][self.sent_rows(event)].tolist())]


def counters_of(branch: Branch, study: object) -> Counters | None:
    """What asks the program for counters, where the study is known."""
    known = getattr(branch.bundle, "study", None) if study is None else study
    if known is None:
        return None
    from biqsolur.running import rewind
    from biqsolur.study import Study
    made = known if isinstance(known, Study) else Study(known)

    def ask(events: list[int]) -> list[int]:
        states = rewind(made, [(branch.name, event) for event in events]).states
        return [int(read_counts(state.frames, state.part)["next_message"]) for state in states]
    return ask


def causes_of(branch: Branch, study: object = None) -> Causes:
    """The causes of a branch, made at the first call and kept with it; made anew where only now a study is known."""
    kept: Causes | None = branch.__dict__.get("_causes")
    if kept is None or kept.counters is None and study is not None:
        kept = branch.__dict__["_causes"] = Causes(branch, counters_of(branch, study))
    return kept


def causes(branch: Branch, event: int, depth: int = 4, study: object = None) -> pandas.DataFrame:
    """Why an event came: a row a cause, each before its own causes.

    Columns: depth (1 for the event's own causes), of (the event that it is a cause of), link ("sent during", "bid set
    by", "ask set by", "met an order of", "injected by an edit after", "stood at the opening"), event (0 at the
    opening), time (ns), kind, message (its number), sender, receiver. Raises InputError where there is no such event,
    and StudyNeededError where edits injected messages and no study is known.
    """
    made = causes_of(branch, study)
    made.check(event)
    chain = made.chain(event, depth)
    events = numpy.array([link.event for _, link in chain], numpy.int64)
    head = made.heads[numpy.maximum(events, 1) - 1]
    there = events > 0
    return pandas.DataFrame({
        "depth": numpy.array([level for level, _ in chain], numpy.int32),
        "of": numpy.array([link.of for _, link in chain], numpy.int32),
        "link": [link.link for _, link in chain],
        "event": events.astype(numpy.int32),
        "time": numpy.where(there, columns.whole(head["time"]), opening_time(branch)),
        "kind": [BODY_WORDS.get(int(code), chr(code)) if one else "" for code, one in zip(head["body"], there)],
        "message": numpy.where(there, columns.whole(head["message"]), -1),
        "sender": numpy.where(there, columns.small(head["sender"]), -1),
        "receiver": numpy.where(there, columns.small(head["receiver"]), -1),
    }, columns=COLUMNS)


def effects(branch: Branch, event: int, study: object = None) -> pandas.DataFrame:
    """What came of an event: a row a message that was sent during it, by number. 0 is the opening.

    Columns: message (its number), kind, sender, receiver, first (the event in which it first stands), event (in which
    it was delivered; 0 where the run ended before), time (ns, of `event`, else of `first`). A message that had not come
    up by the end of the run is not there. Raises as `causes`.
    """
    made = causes_of(branch, study)
    frame = pandas.DataFrame(made.effects(event), columns=["message", "kind", "sender", "receiver", "first", "event"])
    arrived = frame["event"].where(frame["event"] > 0, frame["first"]).to_numpy(numpy.int64)
    return frame.assign(time=made.heads["time"].astype(numpy.int64)[arrived - 1])
