"""What `rewind` writes: states of branches after an event."""

from __future__ import annotations

from collections.abc import Iterator
from dataclasses import dataclass, field
from functools import cached_property
from pathlib import Path
from typing import TYPE_CHECKING

import numpy
import pandas

from biqsolur import columns, layouts, messages
from biqsolur.bundle import branch_name
from biqsolur.check import Part, rewind_parts
from biqsolur.closing import Closing, read_closing
from biqsolur.columns import Tokens
from biqsolur.errors import BundleError, InputError
from biqsolur.frames import Frames, read_frames
from biqsolur.messages import Source
from biqsolur.wording import names_of_agents

if TYPE_CHECKING:
    from biqsolur.study import Study


@dataclass(repr=False)
class State:
    """The state of a branch after an event, with the edits at that event made.

    Attributes: branch (a name), number (of the branch; the root is 0), parent_number (None for the root), event,
    symbols, agent_names (by number: "exchange", "maker 1"; without a study "trader 1"), named (whether a study gave
    them).
    """

    branch: str
    number: int
    parent_number: int | None
    event: int
    symbols: list[str]
    part: Part
    frames: Frames
    tokens: Tokens
    agent_names: list[str]
    named: bool

    def __repr__(self) -> str:
        return f"<state of {self.branch!r} after event {self.event}>"

    def agent_name(self, number: int) -> str:
        """What an agent is called: its kind and number, such as "maker 1", where the study is known."""
        return self.agent_names[number] if 0 <= number < len(self.agent_names) else f"agent {number}"

    @cached_property
    def closing(self) -> Closing:
        """What stands then, as at the end of a branch."""
        return read_closing(self.frames, self.part, self.tokens, self.symbols, self.agent_names if self.named else None)

    @cached_property
    def waiting(self) -> pandas.DataFrame:
        """A row a message that waits, by time and then number: time (ns), message (its number), sender, receiver,
        kind ("wakeup", "order", "reply", "question", "quote")."""
        head = self.frames.records(self._indexes, layouts.WAITING)
        return pandas.DataFrame({
            "time": columns.whole(head["time"]),
            "message": columns.whole(head["message"]),
            "sender": columns.small(head["sender"]),
            "receiver": columns.small(head["receiver"]),
            "kind": columns.words(head["body"], messages.BODY_WORDS),
        })

    @property
    def waiting_orders(self) -> pandas.DataFrame:
        """The order messages that wait; columns as of a branch's `orders`, without the event."""
        return messages.orders_frame(self._source, self._indexes)

    @property
    def waiting_replies(self) -> pandas.DataFrame:
        """The replies that wait; columns as of a branch's `replies`, without the event."""
        return messages.replies_frame(self._source, self._indexes)

    @property
    def waiting_quotes(self) -> pandas.DataFrame:
        """The quotes that wait; columns as of a branch's `quotes`, without the event."""
        return messages.quotes_frame(self._source, self._indexes)

    @property
    def _indexes(self) -> numpy.ndarray:
        return numpy.arange(self.part.waiting, self.part.end)

    @property
    def _source(self) -> Source:
        return Source(self.frames, self.tokens, self.symbols, layouts.WAITING)


@dataclass
class Rewind:
    """What `rewind` wrote: `states`, in the order of its arguments. `tokens` turns numbers of tokens into texts.

    `rewind["wide", 5000]` is the state of the branch "wide" after event 5000."""

    path: str
    states: list[State]
    tokens: Tokens
    frames: Frames = field(repr=False)

    @property
    def data(self) -> bytes:
        """The bytes that the program wrote."""
        return self.frames.raw.tobytes()

    def __getitem__(self, key: tuple[str, int]) -> State:
        """The state of (branch, event)."""
        return self.state(*key)

    def __iter__(self) -> Iterator[State]:
        return iter(self.states)

    def __len__(self) -> int:
        return len(self.states)

    def state(self, branch: str, event: int) -> State:
        """The state of this branch after this event."""
        for state in self.states:
            if (state.branch, state.event) == (branch, event):
                return state
        known = ", ".join(f"{state.branch}:{state.event}" for state in self.states)
        raise InputError(f"no state {branch}:{event}; there are {known}")


def read_rewind(source: str | Path | bytes, study: Study | None = None) -> Rewind:
    """Reads what `rewind` wrote, from its file or from these bytes. Raises BundleError where they are none, with the
    offset and the cause.

    A rewind has no symbols; its stocks are called by their numbers where the study isn't given.
    """
    frames = read_frames(source)
    if len(frames.kinds) and frames.kinds[0] == ord("h"):
        raise BundleError(frames.path, 0, "this is a bundle, which `biqsolur.read` reads")
    tokens = Tokens(frames)
    return Rewind(frames.path, [state_of(frames, part, tokens, study) for part in rewind_parts(frames)], tokens, frames)


def state_of(frames: Frames, part: Part, tokens: Tokens, study: Study | None) -> State:
    """The state of which these are the frames."""
    head = frames.records(numpy.array([part.branch]), layouts.BRANCH)[0]
    number, stocks = int(head["branch"]), part.orders - part.stocks
    known = study is not None and len(study.symbols) == stocks
    symbols = study.symbols if study is not None and known else [str(stock) for stock in range(stocks)]
    parent = None if number == 0 else int(head["parent"])
    return State(branch_name(frames, part.branch), number, parent, int(head["stop"]), symbols, part, frames, tokens, names_of_agents(study, part.waiting - part.agents), study is not None)
