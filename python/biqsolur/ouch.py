"""Orders and replies: the messages of Nasdaq's OUCH 4.2 that the program takes and writes, as bytes and as objects.

    order = Enter(token="MINE1", side="B", shares=100, symbol="ABM", price=1_000_000)
    order.to_bytes(), order.hex()           # 49 bytes; as digits for an edit `inject`
    decode(order.to_bytes()) == order

The layouts are those of the specification "O*U*C*H Version 4.2" (Nasdaq) in the profile of docs/FORMATS.md: numbers are
unsigned, the most significant byte first, texts are padded with spaces on the right. Bytes and values stand one to one:
no two values have the same bytes, and bytes that are none of these messages are refused with the offset of the first
bad field. Nothing here needs numpy.

Units: a price has four implied decimals (100000 is ten dollars), shares are shares, a time is nanoseconds past
midnight. """

from __future__ import annotations

import operator
import re
import struct
from dataclasses import dataclass
from decimal import Decimal
from typing import TYPE_CHECKING, ClassVar, Self

from biqsolur.errors import OuchError

GOOD_TILL_DAY = (99_998, 99_999)        # times in force of an order that may rest; 0 is immediate or cancel
MOST_SHARES = 999_999                   # of an order that the exchange accepts
TOKEN_SIZE = 14

# What may stand in a field of each kind, as a text without the spaces that fill it.
PATTERNS = {
    "token": re.compile(r"[0-9A-Za-z]+"),
    "text": re.compile(r"[\x21-\x7e]+"),
    "letters": re.compile(r"(?:[\x20-\x7e]*[\x21-\x7e])?"),
    "letter": re.compile(r"[\x20-\x7e]"),
    "side": re.compile(r"[BS]"),
    "state": re.compile(r"[LD]"),
    "byte": re.compile(r"[\x00-\xff]"),
}
ASKED = {
    "token": "letters and digits", "text": "visible ASCII characters without a space",
    "letters": "ASCII characters from a space to ~, the last no space", "letter": "one ASCII character from a space to "
                                                                                  "~",
    "side": '"B" (buy) or "S" (sell)', "state": '"L" (live) or "D" (dead)', "byte": "one character of a byte",
}


@dataclass(frozen=True)
class Field:
    """A field of a message: its attribute, what it is called in the specification, where it stands, and of which kind.

    size is in bytes, offset counts from the message's first byte, its type. kind is "number" or a key of PATTERNS.
    """

    name: str
    title: str
    offset: int
    size: int
    kind: str

    def fault(self, value: object) -> str | None:
        """What is wrong with a value of this field, or None."""
        if self.kind == "number":
            most = (1 << 8 * self.size) - 1
            right = type(value) is int and 0 <= value <= most
            return None if right else f"`{self.name}` is {value!r}, and is to be a whole number from 0 to {most:,}"
        if isinstance(value, str) and len(value) <= self.size and PATTERNS[self.kind].fullmatch(value):
            return None
        size = f"1 to {self.size} " if self.kind in ("token", "text") else f"at most {self.size} " \
            if self.kind == "letters" else ""
        return f"`{self.name}` is {value!r}, and is to be {size}{ASKED[self.kind]}"

    def encoded(self, value: int | str) -> int | bytes:
        """The value as `struct` takes it."""
        return value if isinstance(value, int) else value.encode("latin1").ljust(self.size)

    def decoded(self, part: int | bytes) -> int | str:
        """The value of what `struct` gives."""
        if isinstance(part, int):
            return part
        text = part.decode("latin1")
        return text.rstrip(" ") if self.kind in ("token", "text", "letters") else text

    @property
    def code(self) -> str:
        """The field's code in a format of `struct`."""
        return {4: "I", 8: "Q"}[self.size] if self.kind == "number" else f"{self.size}s"


def _layout(*fields: tuple[str, str, int, str]) -> tuple[Field, ...]:
    """The fields of a message from (attribute, name in the specification, size, kind), in order behind the type."""
    offset, out = 1, []
    for name, title, size, kind in fields:
        out.append(Field(name, title, offset, size, kind))
        offset += size
    return tuple(out)


def _whole(value: object) -> object:
    """A whole number of another type, such as numpy's, as Python's own; any other value as it is."""
    if isinstance(value, bool) or not hasattr(value, "__index__"):
        return value
    return operator.index(value)


class Message:
    """What all messages have. A message can't be changed, and one with a wrong field isn't made: OuchError.

    Class attributes: TYPE (the first byte), NAME (in the specification), FIELDS, SIZE (bytes).
    """

    TYPE: ClassVar[str]
    NAME: ClassVar[str]
    FIELDS: ClassVar[tuple[Field, ...]] = ()
    SIZE: ClassVar[int]
    FORMAT: ClassVar[struct.Struct]

    def __init_subclass__(cls) -> None:
        cls.FORMAT = struct.Struct(">c" + "".join(field.code for field in cls.FIELDS))
        cls.SIZE = cls.FORMAT.size

    def __post_init__(self) -> None:
        for field in self.FIELDS:
            value = getattr(self, field.name)
            if field.kind == "number" and type(value) is not int:
                value = _whole(value)
                object.__setattr__(self, field.name, value)
            fault = field.fault(value)
            if fault is not None:
                raise OuchError(f"{self.NAME}: {fault}", field.offset)

    def to_bytes(self) -> bytes:
        """The message's bytes, SIZE of them."""
        values = (field.encoded(getattr(self, field.name)) for field in self.FIELDS)
        return self.FORMAT.pack(self.TYPE.encode(), *values)

    def hex(self) -> str:
        """The bytes as lower-case hexadecimal digits, two a byte, as an edit `inject` takes them."""
        return self.to_bytes().hex()

    @classmethod
    def from_bytes(cls, data: bytes) -> Self:
        """The message of these bytes. Raises OuchError with the offset of what is wrong: 0 where the type is another
        one, the length of the bytes where they are too short or too long, else the first bad field's offset."""
        data = bytes(data)
        if data[:1] != cls.TYPE.encode():
            raise OuchError(f"{cls.NAME}: the first byte is {data[:1]!r}, and is to be {cls.TYPE!r}", 0)
        if len(data) != cls.SIZE:
            raise OuchError(f"{cls.NAME}: there are {len(data)} bytes, and are to be {cls.SIZE}", len(data))
        parts = cls.FORMAT.unpack(data)[1:]
        return cls(**{field.name: field.decoded(part) for field, part in zip(cls.FIELDS, parts)})


class Order(Message):
    """What a trader sends: Enter or Cancel."""


class Reply(Message):
    """What the exchange answers: Accepted, Executed, Canceled, Rejected or SystemEvent."""


# ---------------------------------------------------------------- orders

@dataclass(frozen=True)
class Enter(Order):
    """Enter Order: asks to buy or to sell.

    token: 1 to 14 letters and digits, which name the order among its trader's own; one that was used is ignored.
    side: "B" buys, "S" sells. shares: the exchange accepts 1 to 999,999. symbol: that of the stock.
    price: the limit, with four implied decimals; a text such as "100.05" or a Decimal is taken as dollars.
    time_in_force: 99999 (or 99998) rests, 0 is immediate or cancel. display: "Y" is shown, "N" hidden (studies of
    version 2). The others are as the simulator's own traders send them.
    """

    TYPE: ClassVar[str] = "O"
    NAME: ClassVar[str] = "Enter Order"
    FIELDS: ClassVar[tuple[Field, ...]] = _layout(
        ("token", "Order Token", 14, "token"), ("side", "Buy/Sell "
                                                        "Indicator", 1, "side"), ("shares", "Shares", 4, "number"),
        ("symbol", "Stock", 8, "text"), ("price", "Price", 4, "number"), ("time_in_force", "Time in "
                                                                                           "Force", 4, "number"),
        ("firm", "Firm", 4, "letters"), ("display", "Display", 1, "letter"), ("capacity", "Capacity", 1, "letter"),
        ("sweep", "Intermarket Sweep Eligibility", 1, "letter"), ("minimum", "Minimum Quantity", 4, "number"),
        ("cross", "Cross Type", 1, "letter"), ("customer", "Customer Type", 1, "letter"))

    token: str
    side: str
    shares: int
    symbol: str
    price: int
    time_in_force: int = 99_999
    firm: str = "ABID"
    display: str = "Y"
    capacity: str = "P"
    sweep: str = "N"
    minimum: int = 0
    cross: str = "N"
    customer: str = "N"

    if TYPE_CHECKING:       # the dataclass's own, but for the price, which is taken in other types too
        def __init__(self, token: str, side: str, shares: int, symbol: str, price: int | str | Decimal,
                     time_in_force: int = 99_999, firm: str = "ABID", display: str = "Y", capacity: str = "P",
                     sweep: str = "N", minimum: int = 0, cross: str = "N", customer: str = "N") -> None: ...

    def __post_init__(self) -> None:
        if isinstance(self.price, (str, Decimal, float)):      # of which a float is refused, with what to write
            from biqsolur.prices import price
            object.__setattr__(self, "price", price(self.price))
        super().__post_init__()


@dataclass(frozen=True)
class Cancel(Order):
    """Cancel Order: lowers an order of one's own to `shares` in all, those already executed among them; 0 takes it
    away."""

    TYPE: ClassVar[str] = "X"
    NAME: ClassVar[str] = "Cancel Order"
    FIELDS: ClassVar[tuple[Field, ...]] = _layout(
        ("token", "Order Token", 14, "token"), ("shares", "Shares", 4, "number"))

    token: str
    shares: int = 0


# ---------------------------------------------------------------- replies

@dataclass(frozen=True)
class SystemEvent(Reply):
    """System Event: code is "S" at the start of a day and "E" at its end. The simulator's exchange sends none."""

    TYPE: ClassVar[str] = "S"
    NAME: ClassVar[str] = "System Event"
    FIELDS: ClassVar[tuple[Field, ...]] = _layout(
        ("handled", "Timestamp", 8, "number"), ("code", "Event Code", 1, "letter"))

    handled: int
    code: str


@dataclass(frozen=True)
class Accepted(Reply):
    """Order Accepted: repeats the order, with its reference (of a market's orders the first is 1).

    handled: the exchange's time, ns past midnight. state: "L" live, "D" dead. weight: how the order stood to the best
    bid and offer; this exchange leaves it a space. """

    TYPE: ClassVar[str] = "A"
    NAME: ClassVar[str] = "Order Accepted"
    FIELDS: ClassVar[tuple[Field, ...]] = _layout(
        ("handled", "Timestamp", 8, "number"), ("token", "Order Token", 14, "token"),
        ("side", "Buy/Sell Indicator", 1, "side"), ("shares", "Shares", 4, "number"), ("symbol", "Stock", 8, "text"),
        ("price", "Price", 4, "number"), ("time_in_force", "Time in "
                                                           "Force", 4, "number"), ("firm", "Firm", 4, "letters"),
        ("display", "Display", 1, "letter"), ("reference", "Order Reference Number", 8, "number"),
        ("capacity", "Capacity", 1, "letter"), ("sweep", "Intermarket Sweep Eligibility", 1, "letter"),
        ("minimum", "Minimum Quantity", 4, "number"), ("cross", "Cross Type", 1, "letter"),
        ("state", "Order State", 1, "state"), ("weight", "BBO Weight Indicator", 1, "byte"))

    handled: int
    token: str
    side: str
    shares: int
    symbol: str
    price: int
    time_in_force: int
    firm: str
    display: str
    reference: int
    capacity: str
    sweep: str
    minimum: int
    cross: str
    state: str = "L"
    weight: str = " "


@dataclass(frozen=True)
class Executed(Reply):
    """Order Executed: `shares` of the order traded at `price`. flag: "A" where the order rested, "R" where it came in.
    match: the trade's number. handled: the exchange's time, ns past midnight."""

    TYPE: ClassVar[str] = "E"
    NAME: ClassVar[str] = "Order Executed"
    FIELDS: ClassVar[tuple[Field, ...]] = _layout(
        ("handled", "Timestamp", 8, "number"), ("token", "Order Token", 14, "token"),
        ("shares", "Executed Shares", 4, "number"), ("price", "Execution Price", 4, "number"),
        ("flag", "Liquidity Flag", 1, "letter"), ("match", "Match Number", 8, "number"))

    handled: int
    token: str
    shares: int
    price: int
    flag: str
    match: int


@dataclass(frozen=True)
class Canceled(Reply):
    """Order Canceled: the order has `shares` less. reason: "U" asked by its trader, "I" immediate or cancel.
    handled: the exchange's time, ns past midnight."""

    TYPE: ClassVar[str] = "C"
    NAME: ClassVar[str] = "Order Canceled"
    FIELDS: ClassVar[tuple[Field, ...]] = _layout(
        ("handled", "Timestamp", 8, "number"), ("token", "Order Token", 14, "token"),
        ("shares", "Decrement Shares", 4, "number"), ("reason", "Reason", 1, "letter"))

    handled: int
    token: str
    shares: int
    reason: str


@dataclass(frozen=True)
class Rejected(Reply):
    """Order Rejected. reason: "H" the stock is halted, "S" no such stock, "X" the price is out of range or off the
    tick, "O" another. handled: the exchange's time, ns past midnight."""

    TYPE: ClassVar[str] = "J"
    NAME: ClassVar[str] = "Order Rejected"
    FIELDS: ClassVar[tuple[Field, ...]] = _layout(
        ("handled", "Timestamp", 8, "number"), ("token", "Order Token", 14, "token"), ("reason", "Reason", 1, "letter"))

    handled: int
    token: str
    reason: str


# ---------------------------------------------------------------- bytes

KINDS: tuple[type[Message], ...] = (Enter, Cancel, SystemEvent, Accepted, Executed, Canceled, Rejected)
MESSAGES: dict[str, type[Message]] = {kind.TYPE: kind for kind in KINDS}


def decode(data: bytes) -> Message:
    """The message of these bytes, an order or a reply. Raises OuchError with the offset of what is wrong."""
    if isinstance(data, str):
        raise OuchError(f"{data[:40]!r} is a text, and is to be bytes: of digits, bytes.fromhex(digits)", 0)
    letter = bytes(data[:1]).decode("latin1")
    if letter not in MESSAGES:
        known = ", ".join(f"{kind} ({found.NAME})" for kind, found in MESSAGES.items())
        raise OuchError(f"the first byte is {letter!r}, and is to be the type of a message: {known}", 0)
    return MESSAGES[letter].from_bytes(data)


def own_token(trader: int, number: int) -> str:
    """The token that the simulator's trader of this number gives its order of this number, both from 1."""
    if not (1 <= trader <= 9_999 and 1 <= number <= 999_999_999):
        raise OuchError(f"a trader's own token has a trader of 1 to 9,999 and a number of 1 to 999,999,999, "
                        f"and not {trader} and {number}", 0)
    return f"T{trader:04d}{number:09d}"
