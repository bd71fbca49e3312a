"""What an audit found: where a branch's closing isn't what its feed tells, in a sentence.

The program says branch and reference; here the feed is gone through once more, in plain Python, without numpy.
"""

from __future__ import annotations

from collections.abc import Iterator
from dataclasses import dataclass, field

from biqsolur.bundle_walk import NAMES, Frame, frames
from biqsolur.prices import price_text
from biqsolur.rule_words import ordinal

FEED = "SRHAEXDP"
LEAVES = {"E": "takes", "X": "cancels"}


@dataclass
class Resting:
    """A displayed order: its stock, side, open shares and price (four implied decimals)."""

    stock: int
    side: str
    open: int
    price: int

    def __str__(self) -> str:
        side = {"B": "to buy", "S": "to sell"}.get(self.side, self.side)
        return f"{self.open:,} shares {side} at {price_text(self.price)} dollars in stock {self.stock}"


@dataclass
class Told:
    """What the feed of a branch tells: the orders by reference, as they came, and each stock's trading state."""

    states: list[str]
    orders: dict[int, Resting] = field(default_factory=dict)
    most: int = 0

    def take(self, message: Frame) -> str | None:
        """Applies a message of the feed; why it can't be, or None."""
        letter, stock = message.letter, message.number(1, 2) - 1
        if letter not in "AEXDH":
            return None
        if not 0 <= stock < len(self.states):
            return f"its locate is {stock + 1}, and is to be 1 to {len(self.states)}"
        if letter == "H":
            self.states[stock] = chr(message.payload[19])
            return None
        reference = message.number(11, 8)
        return self.add(reference, stock, message) if letter == "A" else self.lower(reference, stock, message)

    def add(self, reference: int, stock: int, message: Frame) -> str | None:
        """An Add Order."""
        if reference <= self.most:
            return f"its reference is not above {self.most:,}, that of an order before"
        self.most = reference
        self.orders[reference] = Resting(stock, chr(message.payload[19]), message.number(20, 4), message.number(32, 4))
        return None

    def lower(self, reference: int, stock: int, message: Frame) -> str | None:
        """An Order Executed, Order Cancel or Order Delete."""
        order = self.orders.get(reference)
        if order is None:
            return "no displayed order has this reference then"
        if order.stock != stock:
            return f"it speaks of stock {stock}, and the order is of stock {order.stock}"
        shares = order.open if message.letter == "D" else message.number(19, 4)
        if shares > order.open:
            return f"it {LEAVES[message.letter]} {shares:,} shares, and {order.open:,} are open"
        order.open -= shares
        if order.open == 0:
            del self.orders[reference]
        return None


def explain_audit(data: bytes, branch: int, reference: int) -> str:
    """What is wrong in the branch of this number, in a sentence; `reference` is what the program says."""
    name, own = branch_frames(data, branch)
    where = f"branch {branch}, \"{name}\": "
    stocks = sum(frame.letter == "s" for frame in own)
    told, event = Told(["T"] * stocks), 0
    for frame in own:
        if frame.letter in ("e", "d"):
            event = frame.number(1, 4)
        elif frame.letter in FEED:
            fault = told.take(frame)
            if fault is not None:
                return f"{where}{message_name(frame)}, behind event {event:,}, can't be applied: {fault}"
    return where + (closing_fault(told, own, reference) or f"what differs is the order {reference:,}")


def message_name(frame: Frame) -> str:
    """What a message of the feed is called, and where it stands."""
    number = "" if frame.letter == "H" else f" of order {frame.number(11, 8):,}"
    return f"the {NAMES[frame.letter]}{number} at byte {frame.offset:,}"


def branch_frames(data: bytes, branch: int) -> tuple[str, list[Frame]]:
    """The name of a branch and its frames."""
    name, own, number = "", [], -1
    for frame in frames(data):
        if frame.letter == "b":
            number = frame.number(1, 2)
            name = frame.payload[10:].decode("latin1") if number == branch else name
        elif number == branch:
            own.append(frame)
    return name, own


def closing_fault(told: Told, own: list[Frame], reference: int) -> str | None:
    """Where the closing differs from what the feed told, or None."""
    closed = {order: resting for order, resting in closing_orders(own)}
    if reference:
        feed, closing = told.orders.get(reference), closed.get(reference)
        return f"order {reference:,} has {closing or 'no place'} in the closing, and {feed or 'no place'} by the feed"
    for frame in own:
        if frame.letter == "s" and chr(frame.payload[3]) != told.states[frame.number(1, 2)]:
            return (f"stock {frame.number(1, 2)} (the {ordinal(frame.number(1, 2))}) is in the state "
                    f"{chr(frame.payload[3])!r} in the closing, and in {told.states[frame.number(1, 2)]!r} by the feed")
    by_feed = sorted(told.orders, key=lambda order: told.orders[order].stock)
    for place, pair in enumerate(zip(closed, by_feed)):
        if pair[0] != pair[1]:
            return (f"the closing lists the same orders in another order: its {ordinal(place)} is order {pair[0]:,}, "
                    f"and by stock and arrival it is order {pair[1]:,}")
    return None


def closing_orders(own: list[Frame]) -> Iterator[tuple[int, Resting]]:
    """(reference, order) of each displayed order of a closing."""
    for frame in own:
        if frame.letter == "l":
            side = chr(frame.payload[25])
            yield frame.number(1, 8), Resting(frame.number(34, 2), side, frame.number(30, 4), frame.number(36, 4))
