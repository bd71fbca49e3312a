"""The edits of a branch: what is changed at the moment at which it leaves its parent.

    study.branch("wide", after=5000, edits=[Tick("ABM", [("0", "0.05")]), Silence(2)])

A branch makes at most 16 edits, one after another, at the time of the last event before them. Prices are dollars as a
text or a Decimal, or whole numbers with four implied decimals; times are whole nanoseconds, texts or Timedelta.
"""

from __future__ import annotations

import re
from collections.abc import Mapping, Sequence
from dataclasses import dataclass, fields
from typing import Any, ClassVar

from biqsolur.errors import StudyError
from biqsolur.fields import plain_value

HEXADECIMAL = re.compile(r"(?:[0-9a-f]{2})+")


class Edit:
    """What all edits have: `KIND`, the word for it in a study, and `to_dict`, its table there.

    An edit can't be changed, and its values are plain once it is made: whole numbers and texts. A value of a wrong type
    raises StudyError; whether a stock or a trader exists is asked by the study's `check`.
    """

    KIND: ClassVar[str]
    RENAMED: ClassVar[dict[str, str]] = {}      # names of attributes that are other ones in a study

    def __post_init__(self) -> None:
        table = {self.RENAMED.get(field.name, field.name): getattr(self, field.name) for field in fields(self)}
        for field in fields(self):
            key = self.RENAMED.get(field.name, field.name)
            try:
                value = plain_value("edit", key, table[key], table)
            except StudyError as error:
                raise type(error)(f"{type(self).__name__}: {error}") from None
            object.__setattr__(self, field.name, frozen(value))

    def to_dict(self) -> dict[str, Any]:
        """The edit as a table of a study."""
        values = {self.RENAMED.get(field.name, field.name): thawed(getattr(self, field.name))
                  for field in fields(self)}
        return {"kind": self.KIND, **values}


def frozen(value: Any) -> Any:
    """A list as a tuple, so that an edit can be hashed."""
    return tuple(map(frozen, value)) if isinstance(value, list) else value


def thawed(value: Any) -> Any:
    """A tuple as a list, as a study has it."""
    return list(map(thawed, value)) if isinstance(value, tuple) else value


@dataclass(frozen=True)
class Tick(Edit):
    """Replaces a stock's tick table. bands: pairs (price from which on, tick from there on), the first from 0."""

    KIND: ClassVar[str] = "tick"
    stock: str
    bands: Sequence[Any]


@dataclass(frozen=True)
class Fee(Edit):
    """Replaces a stock's fees, of the resting order (add) and of the one that meets it (take): dollars a share as a
    text or Decimal, or whole millionths of a dollar a share. A negative fee is paid to the trader."""

    KIND: ClassVar[str] = "fee"
    stock: str
    add: Any
    take: Any


@dataclass(frozen=True)
class Halt(Edit):
    """Halts a stock: orders are rejected from then on, and cancels taken."""

    KIND: ClassVar[str] = "halt"
    stock: str


@dataclass(frozen=True)
class Resume(Edit):
    """Lets a stock trade again."""

    KIND: ClassVar[str] = "resume"
    stock: str


@dataclass(frozen=True)
class Latency(Edit):
    """Replaces the latency between two groups, for what is sent from then on.

    sender, receiver: numbers of latency groups, from 0. base: time under way; jitter: at most so much more."""

    KIND: ClassVar[str] = "latency"
    RENAMED: ClassVar[dict[str, str]] = {"sender": "from", "receiver": "to"}
    sender: int
    receiver: int
    base: Any
    jitter: Any = 0


@dataclass(frozen=True)
class AgentParameter(Edit):
    """Replaces a parameter of a trader. agent: its number, from 1. name: `every`, `wobble`, `delay`, or one of its
    kind's own but for `short` and `long`. value: a time, a price (with four decimals) or shares, as the parameter
    is."""

    KIND: ClassVar[str] = "agent"
    agent: int
    name: str
    value: Any


@dataclass(frozen=True)
class Silence(Edit):
    """Silences a trader (a number, from 1): it sends nothing from then on, and still takes replies."""

    KIND: ClassVar[str] = "silence"
    agent: int


@dataclass(frozen=True)
class Inject(Edit):
    """Sends an order or a cancel in a trader's name. It comes to the exchange without latency.

    agent: the trader's number, from 1. message: `biqsolur.ouch.Enter` or `Cancel`, its bytes, or these as lower-case
    hexadecimal digits. after: how long after the branch's last event before the edit it comes."""

    KIND: ClassVar[str] = "inject"
    agent: int
    message: Any
    after: Any = 0

    def __post_init__(self) -> None:
        object.__setattr__(self, "message", message_digits(self.message))
        super().__post_init__()

    def to_dict(self) -> dict[str, Any]:
        """The edit as a table of a study."""
        return {"kind": self.KIND, "agent": self.agent, "after": self.after, "message": self.message}


@dataclass(frozen=True)
class SeriesOffset(Edit):
    """Adds to a stock's value from then on. offset: a difference of prices, which may be negative; it comes on top of
    those of edits before."""

    KIND: ClassVar[str] = "series"
    stock: str
    offset: Any


EDITS: tuple[type[Edit], ...] = (Tick, Fee, Halt, Resume, Latency, AgentParameter, Silence, Inject, SeriesOffset)
KINDS = {kind.KIND: kind for kind in EDITS}


def message_digits(message: object) -> str:
    """A message as lower-case hexadecimal digits: from an object with `to_bytes`, from bytes, or from digits."""
    if hasattr(message, "to_bytes") and not isinstance(message, int):
        message = message.to_bytes()
    if isinstance(message, (bytes, bytearray)):
        return bytes(message).hex()
    if isinstance(message, str) and HEXADECIMAL.fullmatch(message):
        return message
    raise StudyError(
        f"{message!r} is no order; give biqsolur.ouch.Enter or Cancel, bytes, or lower-case hexadecimal digits")


def edit_of(table: Mapping[str, Any]) -> Edit:
    """The edit of a table as a study has it. Raises StudyError where it is none."""
    kind = KINDS.get(str(table.get("kind")))
    if kind is None:
        raise StudyError(f"kind: {table.get('kind')!r} is no kind of edit; there are {', '.join(KINDS)}")
    names = {kind.RENAMED.get(field.name, field.name): field.name for field in fields(kind)}
    given = {key: value for key, value in table.items() if key != "kind"}
    if given.keys() != names.keys():
        raise StudyError(f"an edit of the kind {kind.KIND} has the keys {', '.join(names)}, and not {', '.join(given)}")
    return kind(**{names[key]: value for key, value in given.items()})
