"""A bundle: what `run` writes, with each branch as data frames."""

from __future__ import annotations

import os
import warnings
from collections.abc import Iterable, Iterator
from functools import cached_property
from pathlib import Path
from typing import TYPE_CHECKING, Any

import numpy
import pandas

from biqsolur import columns, feed, layouts, messages
from biqsolur.book import book_frame
from biqsolur.check import Part, bundle_parts
from biqsolur.closing import Closing, read_closing, read_counts
from biqsolur.columns import Tokens
from biqsolur.difference import first_difference
from biqsolur.errors import BundleError, UnknownBranchError
from biqsolur.frames import Frames, read_frames
from biqsolur.measures.tape import Tape
from biqsolur.messages import Sent, Source
from biqsolur.output import new_folder, plain_name, refuse_existing, write_new
from biqsolur.provenance import Provenance, record_of, record_path
from biqsolur.top import top_frame
from biqsolur.wording import names_of_agents, words_of_edits

if TYPE_CHECKING:
    from biqsolur.study import Study

FRAME_NAMES = ("events", "orders", "replies", "quotes", "feed", "trades", "edits")
TABLE_START = b"branch,parent,"
CLOSING_NAMES = ("stocks", "orders", "agents")
EDIT_WORDS = {ord(letter): word for letter, word in {
    "t": "tick", "f": "fee", "h": "halt", "r": "resume", "l": "latency", "p": "agent", "s": "silence", "i": "inject",
    "v": "series"}.items()}


class Branch:
    """One branch: all entries of its full run from the opening, so also those that it shares with its parent.

    Attributes: name, number (the root is 0), parent (a name, None for the root), stop (the event number at which it
    leaves its parent, as the study says it; where it leaves by time, how many events its parent then had), fork (how
    many events it shares with its parent), symbols (a list, by number of the stock), bundle.

    The data frames are made when they are first asked for, and kept; `forget` gives them up. A column of words is
    a pandas Categorical: group by it with `observed=True`. A number of an agent or an event has 32 bits, others 64.
    """

    def __init__(self, bundle: Bundle, part: Part) -> None:
        head = bundle.frames.records(numpy.array([part.branch]), layouts.BRANCH)[0]
        self.bundle = bundle
        self.part = part
        self.name = branch_name(bundle.frames, part.branch)
        self.number = int(head["branch"])
        self.parent_number = int(head["parent"])
        self.stop = int(head["stop"])
        self.symbols = bundle.symbols

    def __repr__(self) -> str:
        return f"<branch {self.name!r} of {self.bundle.path!r}>"

    @property
    def parent(self) -> str | None:
        """The name of the parent, None for the root."""
        names = list(self.bundle.branches)
        return names[self.parent_number] if self.parent_number < len(names) else None

    @property
    def fork(self) -> int:
        """How many events it shares with its parent; 0 for the root. That is `stop`, but for two cases: fewer where the
        parent's run ended before the event number `stop`, and more where the parent, which itself left by time, had more
        events from its beginning on."""
        by_number, line = list(self.bundle.branches.values()), [self]
        while line[-1].parent_number < line[-1].number:
            line.append(by_number[line[-1].parent_number])
        fork = 0
        for parent, branch in zip(reversed(line), reversed(line[:-1])):
            fork = max(fork, min(branch.stop, parent._event_count))
        return fork

    @property
    def counts(self) -> dict[str, int | str]:
        """The counters at the end, as in `closing`: end, events, time (ns), orders, matches and others."""
        return read_counts(self.bundle.frames, self.part)

    @property
    def _event_count(self) -> int:
        return int(self.counts["events"])

    @cached_property
    def events(self) -> pandas.DataFrame:
        """A row an event, in order: number, time (ns), message (its sequence number), sender, receiver
        (agents; 0 is the exchange), kind ("wakeup", "order", "reply", "question", "quote"), put_back (bool),
        busy_until (the receiver's own time afterwards, ns), fee (both sides', millionths of a dollar)."""
        return messages.events_frame(self._source, self._event_frames())

    @cached_property
    def orders(self) -> pandas.DataFrame:
        """A row an order message that was delivered: event, time (ns), agent (who sent it), kind ("enter", "cancel"),
        token (a number; `bundle.tokens.text` gives the text), side ("B", "S", "" for a cancel), shares (of a cancel:
        what is to stay), symbol, price, price_dollars, time_in_force."""
        return messages.orders_frame(self._source, self._event_frames(put_back=False))

    @cached_property
    def replies(self) -> pandas.DataFrame:
        """A row a reply that was delivered: event, time (ns; when the agent heard it), agent, kind ("accepted",
        "executed", "canceled", "rejected"), handled (the exchange's time, ns), token, side, shares (of an
        execution those that traded, of a canceled order those that went), symbol, price, price_dollars, reference,
        match, flag ("A" added, "R" removed liquidity), reason."""
        return messages.replies_frame(self._source, self._event_frames(put_back=False))

    def messages(self) -> Iterator[Sent]:
        """The orders and replies that were delivered, in order: event, time (ns), trader, data (bytes of OUCH 4.2) and message
        (those as an object of `biqsolur.ouch`). Each is made when it is asked for; `orders` and `replies` are quicker."""
        return messages.sent_messages(self._source, self._event_frames(put_back=False))

    @cached_property
    def quotes(self) -> pandas.DataFrame:
        """A row a quote that was delivered: event, time (ns), agent, stock, symbol, state ("T" or "H"), bid,
        bid_shares, ask, ask_shares, last, bid_dollars, ask_dollars, last_dollars."""
        return messages.quotes_frame(self._source, self._event_frames(put_back=False))

    @cached_property
    def feed(self) -> pandas.DataFrame:
        """A row a feed message, in order: event (the one that it came with; 0 at the opening, of an edit the number
        of events before it), time (ns), source ("opening", "event", "change", "edit", "close"), kind (ITCH's letter:
        S R H A E X D P Q), stock, symbol, reference, side, shares, price (of A, P and Q), price_dollars, match,
        state (of H; of S its code). P is a Trade, the match of a hidden order: its reference is 0 and its side "B",
        whatever the hidden order's side was."""
        return feed.feed_frame(self.bundle.frames, self.part, self.symbols)

    @cached_property
    def trades(self) -> pandas.DataFrame:
        """A row a match, in order: event, time (ns), stock, symbol, side (the aggressor's, "B" or "S", from the order
        that came with the event), price, price_dollars, shares, match (its number), aggressor, resting (agents; of a
        hidden resting order from the reply to its agent, -1 where that reply had not come up by the end), reference
        (of the resting order; 0 of a hidden one), fees (both sides' together, millionths of a dollar)."""
        return feed.trades_frame(self.bundle.frames, self.part, self.symbols)

    @cached_property
    def edits(self) -> pandas.DataFrame:
        """A row an edit, in order: event (after which it was made), time (ns), branch (a name: an ancestor's edits
        stand here too), index, kind ("tick", "fee", "halt", "resume", "latency", "agent", "silence", "inject",
        "series"), letter; where the study is known also words ("tick of ABM: 5 cents from 0 dollars")."""
        indexes = self._entries_of("d")
        edits = self.bundle.frames.records(indexes, layouts.EDIT)
        names = dict(enumerate(self.bundle.branches))
        frame = pandas.DataFrame({
            "event": columns.small(edits["event"]),
            "time": columns.whole(edits["time"]),
            "branch": numpy.array([names.get(number, str(number)) for number in edits["branch"].tolist()], object),
            "index": columns.small(edits["index"]),
            "kind": columns.words(edits["letter"], EDIT_WORDS),
            "letter": columns.letters(edits["letter"], "".join(map(chr, EDIT_WORDS))),
        })
        study = self.bundle.study
        if study is not None:
            words = words_of_edits(study)
            places = zip(frame["branch"], frame["index"].tolist())
            frame["words"] = numpy.array([words[place] for place in places], object)
        return frame

    @cached_property
    def closing(self) -> Closing:
        """What stands at the end."""
        names = self.bundle.agent_names if self.bundle.study is not None else None
        return read_closing(self.bundle.frames, self.part, self.bundle.tokens, self.symbols, names)

    def book(self, levels: int = 10) -> pandas.DataFrame:
        """The displayed book after each feed message of a stock, from the feed alone: no hidden order is in it.

        Columns: event, time (ns), kind, stock, symbol, and for each level from 1 on bid_1, bid_shares_1, ask_1,
        ask_shares_1 (prices with four implied decimals; 0 and 0 where the level is empty). The row labels are
        those of the message in `feed`. In a market of many stocks each row has the book of its own stock."""
        return book_frame(self.bundle.frames, self.part, self.symbols, levels)

    def top(self) -> pandas.DataFrame:
        """The best displayed prices of each stock after each event that changed them, from the feed alone: no hidden
        order is in them. A row an event and stock: event, time (ns), stock, bid, bid_shares, ask, ask_shares (prices
        with four implied decimals; 0 and 0 where the side is empty). Before a stock's first row its book is empty."""
        return top_frame(self.tape.messages, self.tape.tops)

    @cached_property
    def tape(self) -> Tape:
        """What the measures of this branch share, made when they first ask for it."""
        return Tape(self)

    def value(self, symbol: str, study: object = None) -> pandas.DataFrame:
        """The fundamental value of a stock: a row for each step or row of its series, from the open to the close, also where
        the run ended before, and for each edit of it. At a time the last of the rows that are not later holds.

        Columns: time (ns), value (as traders are told it, four implied decimals), value_dollars, series (without the edits'
        offset), offset (of the edits until then, four implied decimals).

        `study` is needed where the bundle was not made by `biqsolur.run`: a Study, a path, or what else makes one. Raises
        StudyNeededError where there is none or it isn't this bundle's, UnknownSymbolError, and MissingPackageError where
        `cryptography` is not installed."""
        from biqsolur.fundamental import value_frame
        return value_frame(self, symbol, study)

    def value_at(self, symbol: str, events: Iterable[int], study: object = None) -> numpy.ndarray:
        """The fundamental value of a stock at each of these events (their numbers), as a trader was told it there: whole numbers
        with four implied decimals, shape (events,). Raises as `value`, and IndexError where there is no such event."""
        from biqsolur.fundamental import values_at
        return values_at(self, symbol, events, study)

    def displayed_orders(self) -> pandas.DataFrame:
        """The orders that rest at the end, from the feed alone, by stock and then by arrival: reference, side, open
        (shares), stock, symbol, price, price_dollars. They are those of `closing.orders` that are not hidden."""
        return feed.displayed_frame(self.bundle.frames, self.part, self.symbols)

    @cached_property
    def first_difference(self) -> int:
        """The first event that differs from the parent's, or stands in one of both alone; 0 where none does, and for
        the root. It is that of `table`."""
        parent = self.parent
        if parent is None:
            return 0
        return first_difference(self.bundle.frames, self.part, self.bundle.branches[parent].part)

    def forget(self) -> None:
        """Gives up the data frames that were made, and what measures and causes keep."""
        for name in (*FRAME_NAMES, "closing", "tape", "_causes"):
            self.__dict__.pop(name, None)

    @property
    def _source(self) -> Source:
        return Source(self.bundle.frames, self.bundle.tokens, self.symbols)

    def _entries_of(self, kind: str) -> numpy.ndarray:
        part = self.part
        return part.entries + numpy.flatnonzero(self.bundle.frames.kinds[part.entries:part.entries_end] == ord(kind))

    def _event_frames(self, put_back: bool = True) -> numpy.ndarray:
        """The indexes of the events' frames, with or without those that were put back."""
        indexes = self._entries_of("e")
        if put_back:
            return indexes
        frames = self.bundle.frames
        return indexes[frames.raw[frames.starts[indexes] + layouts.EVENT.fields["delivery"][1]] != ord("P")]


class Branches(dict[str, Branch]):
    """The branches of a bundle by name, in the study's order."""

    def __missing__(self, name: str) -> Branch:
        raise UnknownBranchError(name, list(self))


class Bundle:
    """What `run` wrote.

    Attributes: path, agents (their number, with the exchange), symbols (a list, by number of the stock),
    branches (a dict in the study's order, from name to Branch; an unknown name raises UnknownBranchError),
    tokens (turns numbers of order tokens into texts).

    Where the package ran it, or the record of its run stands beside it, `provenance` and `study` say where it comes from.
    """

    def __init__(self, frames: Frames) -> None:
        self._record: Provenance | None = None
        self.frames = frames
        self.path = frames.path
        self.agents, stocks, parts = bundle_parts(frames)
        self.symbols = read_symbols(frames, parts, stocks)
        self.branches = Branches()
        for part in parts:
            branch = Branch(self, part)
            if branch.name in self.branches:
                raise BundleError(self.path, frames.offset(part.branch), f"a second branch is called {branch.name!r}")
            self.branches[branch.name] = branch

    def __repr__(self) -> str:
        known = self._record is not None or os.path.exists(record_path(self.path))
        return f"<bundle {self.path!r}: {', '.join(self.branches)}{'' if known else '; no record of its run'}>"

    @cached_property
    def provenance(self) -> Provenance | None:
        """The record of its run; None for a bundle alone. A record beside it that isn't this bundle's is None, and said in a
        warning."""
        record = self._record or record_of(self)
        if isinstance(record, str):
            warnings.warn(f"{record}; it is left out", stacklevel=3)
            return None
        return record

    @cached_property
    def study(self) -> Study | None:
        """The study that was run, where that is known; else None."""
        return None if self.provenance is None else self.provenance.study

    @cached_property
    def agent_names(self) -> list[str]:
        """What each agent is called, by its number: "exchange", "maker 1", "noise 2"; without a study "trader 1"."""
        return names_of_agents(self.study, self.agents)

    def agent_name(self, number: int) -> str:
        """What an agent is called: its kind and number, such as "maker 1", where the study is known."""
        return self.agent_names[number] if 0 <= number < self.agents else f"agent {number}"

    def ran_as(self, record: Provenance) -> None:
        """Takes the record of its run, from who ran it."""
        self._record = record
        for name in ("provenance", "study", "agent_names"):
            self.__dict__.pop(name, None)

    def write(self, path: str | Path) -> None:
        """Writes the bundle to a file that is not there yet, and the record of its run, where there is one, beside it as
        NAME.run.json. Raises OutputExistsError."""
        refuse_existing(record_path(path))
        write_new(path, self.frames.raw.data)
        if self.provenance is not None:
            write_new(record_path(path), self.provenance.to_json().encode())

    @cached_property
    def tokens(self) -> Tokens:
        """Turns numbers of order tokens into texts."""
        return Tokens(self.frames)

    def compare(self, measures: Any, parent: bool = True, **settings: Any) -> pandas.DataFrame:
        """Measures of each branch beside those of its parent, over the events behind the fork alone.

        `measures` is one measure or a list of them: a name of `biqsolur.measures.NAMES`, a table of a name and settings
        such as {"name": "realised_spread", "horizon": "1s"}, a function of a branch, or FILE.py:FUNCTION. `settings` go to
        each measure that takes them (`stock`, `study`, `horizon`, ...).

        A row a branch and number: branch, measure (the number's name; where the measure is asked for with several
        settings, those stand behind it, as `realised_spread(horizon=5s)`), value, parent (that of the parent), difference
        (value less parent), unit. Of a branch and of its parent those events count that are numbered above the branch's `fork`, and
        the times from that of the event `fork`, which both have, to that of each one's own last event. The root counts from
        the opening, and its parent is not-a-number. With parent=False all branches count from the opening (with `after`,
        behind that event), and parent and difference are left out. A number that a run does not give is not-a-number.
        MeasureError where there is no such measure or setting.
        """
        from biqsolur.compare import compare
        return compare(self, measures, parent, **settings)

    def to_csv(self, folder: str | Path) -> None:
        """Writes each data frame of each branch as FOLDER/BRANCH/NAME.csv. The folder must not be there yet."""
        folder = new_folder(folder)
        for branch in self.branches.values():
            inside = new_folder(folder / plain_name(branch.name, branch.number, "branch"))
            made = set(branch.__dict__)
            for name in FRAME_NAMES:
                self._write(inside / f"{name}.csv", getattr(branch, name))
                if name not in made:
                    del branch.__dict__[name]
            for name in CLOSING_NAMES:
                self._write(inside / f"closing_{name}.csv", getattr(branch.closing, name))
            self._write(inside / "closing_counts.csv", pandas.DataFrame([branch.closing.counts]))

    def _write(self, path: Path, frame: pandas.DataFrame) -> None:
        if "token" in frame:
            frame = frame.assign(token=self.tokens.texts(frame["token"]))
        frame.to_csv(path, index=False)


def read_symbols(frames: Frames, parts: list[Part], stocks: int) -> list[str]:
    """The symbols of the stocks, as the opening of the first branch has them."""
    if not parts:
        return [str(stock) for stock in range(stocks)]
    first = parts[0].branch + 2
    directory = frames.records(first + numpy.arange(stocks), layouts.FEED_DIRECTORY)
    symbols = [columns.symbol_text(int(symbol)) for symbol in directory["symbol"]]
    for stock, symbol in enumerate(symbols):
        if symbol in symbols[:stock]:
            raise BundleError(frames.path, frames.offset(first + stock), f"a second stock is called {symbol!r}")
    return symbols


def branch_name(frames: Frames, index: int) -> str:
    """The name that a `b` frame has."""
    start, size = int(frames.starts[index]), int(frames.sizes[index])
    return frames.raw[start + layouts.BRANCH.itemsize:start + size].tobytes().decode("latin1")


def read(path: str | Path) -> Bundle:
    """Reads a bundle. Raises BundleError where the bytes are none, with the offset and the cause, and NoSuchFile or
    ReadFailed, which are OSError too, where the file can't be read.

    The file is mapped: it has to stay as it is while the bundle is used.
    """
    try:
        frames = read_frames(path)
    except OSError as error:
        from biqsolur.running import unread
        raise unread(path, error) from None
    if len(frames.kinds) and frames.kinds[0] == ord("b"):
        raise BundleError(frames.path, 0, "this is a rewind, which `biqsolur.read_rewind` reads")
    if frames.raw[:len(TABLE_START)].tobytes() == TABLE_START:
        raise BundleError(frames.path, 0, "this is a table, which `biqsolur.read_table` reads")
    return Bundle(frames)
