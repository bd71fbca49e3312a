"""Whether the frames of a file are a bundle (or a rewind), and where the first fault is if they are none.

Three things can be wrong, and the first in the file's order is told: a frame is cut, bytes are no frame of
docs/FORMATS.md, or a frame stands where it may not stand.
"""

from __future__ import annotations

from collections.abc import Iterator
from dataclasses import dataclass
from typing import Any

import numpy

from biqsolur import layouts
from biqsolur.errors import BundleError
from biqsolur.field_kinds import FEED_FIELDS, OUCH_FIELDS
from biqsolur.frames import Frames, bytes_at

BLOCK = 1 << 18             # frames whose fields are looked at together, which bounds the memory
LIVE_ORDERS = "ln"          # letters of the live orders of a closing: one that is shown, one that is hidden

LETTER, TEXT, ALNUM = 1, 2, 4
CLASSES = numpy.zeros(256, numpy.uint8)
CLASSES[0x20:0x7F] |= LETTER
CLASSES[0x21:0x7F] |= TEXT
for first, last in (("0", "9"), ("A", "Z"), ("a", "z")):
    CLASSES[ord(first):ord(last) + 1] |= ALNUM

ONE_LETTER = {"side": b"BS", "order state": b"LD", "trading state": b"HPQT"}


@dataclass
class Part:
    """A branch of a bundle, or a state of a rewind: its frames by their indexes.

    branch: its `b` frame. entries to entries_end: its entries (none in a rewind), and the System Event behind them.
    counts, stocks, orders, agents: the first frame of each part of the closing. waiting to end: the messages that
    wait (none in a bundle).
    """

    branch: int
    entries: int
    entries_end: int
    counts: int
    stocks: int
    orders: int
    agents: int
    waiting: int
    end: int


# ---------------------------------------------------------------- fields

def field_faults(table: numpy.ndarray, fields: list[tuple[int, int, str]]) -> numpy.ndarray:
    """For each row of bytes whether a field has a byte that may not stand there."""
    bad = numpy.zeros(len(table), bool)
    for offset, length, kind in fields:
        part = table[:, offset:offset + length]
        if kind in ONE_LETTER:
            bad |= ~numpy.isin(part[:, 0], numpy.frombuffer(ONE_LETTER[kind], numpy.uint8))
        elif kind == "letters":
            bad |= (CLASSES[part] & LETTER == 0).any(axis=1)
        else:
            visible = CLASSES[part] & (ALNUM if kind == "token" else TEXT) != 0
            space = part == ord(" ")
            bad |= ~visible[:, 0] | ~(visible | space).all(axis=1) | (space[:, :-1] & visible[:, 1:]).any(axis=1)
    return bad


# Frames of what a cross or a session writes, which no bundle has: size, fields.
SPECIAL: dict[str, tuple[int, list[Any]]] = {
    "f": (layouts.CROSS_PART.itemsize, [(1, 1, "side")]), "k": (layouts.CROSS_PRICE.itemsize, []),
    "v": (layouts.VALUE.itemsize, []),
}


def layouts_of_frames(stocks: int | None,
                      special: str = "") -> Iterator[tuple[str, int, list[tuple[int, bytes]], list[Any]]]:
    """Each kind of frame of fixed size: letter, size, bytes that stand at an offset (offset, those allowed), fields."""
    yield "h", 9, [(1, b"\0"), (2, b"\1")], []
    for letter, size in [("d", 18), ("c", 66), ("s", 44), ("z", 3)]:
        yield letter, size, [], []
    for letter in LIVE_ORDERS:
        yield letter, 44, [], [(25, 1, "side")]
    for letter in special:
        yield letter, SPECIAL[letter][0], [], SPECIAL[letter][1]
    for count in range(8184) if stocks is None else [stocks]:
        yield "a", 70 + 8 * count, [(3, b"YN")], []
    for letter, layout in layouts.FEED.items():
        yield letter, layout.itemsize, [], FEED_FIELDS[letter]
    for letter, head in [("e", 43), ("w", 22)]:
        for size, (body, message) in layouts.BODIES.items():
            fixed = [(25, b"DP")] if letter == "e" else []
            fixed.append((head - 1, body.encode()))
            if message:
                fixed.append((head, message.encode()))
            fields = [(head + offset, length, kind) for offset, length, kind in OUCH_FIELDS.get(message, [])]
            yield letter, head + size, fixed, fields


def first_bad_frame(frames: Frames, special: str = "") -> int:
    """The index of the first frame that is none of the formats, with the special ones of these letters; their number
    where there is none such."""
    stocks = None
    if len(frames.starts) and frames.kinds[0] == ord("h") and frames.sizes[0] == 9:
        stocks = int(frames.records(numpy.array([0]), layouts.HEADER)["stocks"][0])
    for start in range(0, len(frames.starts), BLOCK):
        bad = bad_frames(frames, start, min(start + BLOCK, len(frames.starts)), stocks, special)
        if bad.any():
            return start + int(bad.argmax())
    return len(frames.starts)


def bad_frames(frames: Frames, start: int, end: int, stocks: int | None, special: str = "") -> numpy.ndarray:
    """For each frame from `start` to `end` whether it is none of the formats."""
    kinds = frames.kinds[start:end]
    sizes = frames.sizes[start:end]
    bad = numpy.ones(end - start, bool)
    present = set(numpy.unique(kinds.astype(numpy.uint32) << 16 | sizes).tolist())
    for letter, size, fixed, fields in layouts_of_frames(stocks, special):
        if ord(letter) << 16 | size not in present:
            continue
        rows = numpy.flatnonzero((kinds == ord(letter)) & (sizes == size))
        table = bytes_at(frames.raw, frames.starts[start:end][rows], size)
        wrong = field_faults(table, fields)
        for offset, allowed in fixed:
            wrong |= ~numpy.isin(table[:, offset], numpy.frombuffer(allowed, numpy.uint8))
        bad[rows] = wrong
    rows = numpy.flatnonzero((kinds == ord("b")) & (sizes >= 11) & (sizes <= 42))
    bad[rows] = frames.records(start + rows, layouts.BRANCH)["name_size"] != sizes[rows].astype(numpy.int64) - 10
    return bad


# ---------------------------------------------------------------- order

class Order:
    """Goes through the frames in their order and asks for what may stand there."""

    def __init__(self, frames: Frames, special: str = "") -> None:
        self.frames = frames
        self.good = first_bad_frame(frames, special)    # the frames before this one may be looked at
        self.at = 0

    def fault(self, index: int) -> BundleError:
        """The first fault, where the frame of this index may not stand there or is not there."""
        frames = self.frames
        offset = frames.offset(min(index, self.good))
        if index < self.good:
            cause = f"bad order: a frame {chr(frames.kinds[index])!r} may not stand here"
        elif self.good < len(frames.starts):
            cause = "bad frame: these bytes are no frame of a bundle"
        else:
            cause = f"cut: {len(frames.raw) - frames.end} bytes are left where a frame should stand"
        return BundleError(frames.path, offset, cause if offset else f"{cause}; this file is no bundle")

    def ask(self, kind: str, count: int = 1) -> int:
        """The index of the first of the next `count` frames, which are all of this kind."""
        first = self.at
        end = min(first + count, self.good)
        other = self.frames.kinds[first:end] != ord(kind)
        if other.any():
            raise self.fault(first + int(other.argmax()))
        if end < first + count:
            raise self.fault(self.good)
        self.at = first + count
        return first

    def ask_numbered(self, kind: str, count: int, layout: numpy.dtype, field: str, start: int = 0) -> int:
        """As `ask`, and the frames are numbered from `start` on."""
        first = self.at
        end = min(first + count, self.good)
        same = self.frames.kinds[first:end] == ord(kind)
        run = len(same) if same.all() else int(same.argmin())
        numbers = self.frames.records(numpy.arange(first, first + run), layout)[field]
        wrong = numbers != numpy.arange(start, start + run)
        if wrong.any():
            raise self.fault(first + int(wrong.argmax()))
        return self.ask(kind, count)

    def entries(self) -> tuple[int, int]:
        """The entries that stand there, up to the System Event that ends them; which is passed over."""
        first = self.at
        kinds = self.frames.kinds[first:self.good]
        systems = kinds == ord("S")
        end = int(systems.argmax()) if systems.any() else len(kinds)
        kinds = kinds[:end + 1]
        before = numpy.append(0, kinds[:-1])
        of_event = numpy.isin(kinds, numpy.frombuffer(b"AEXDP", numpy.uint8))
        after_event = numpy.isin(before, numpy.frombuffer(b"eAEXDP", numpy.uint8))
        halts = kinds == ord("H")
        free = halts.copy()
        free[edit_halts(self.frames, first, first + len(kinds))] = False
        after_free = numpy.append(False, free[:-1])
        known = numpy.isin(kinds, numpy.frombuffer(b"edHSAEXDP", numpy.uint8))
        wrong = ~known | (of_event & ~after_event) | (after_free & ~halts & (kinds != ord("e")))
        if wrong.any():
            raise self.fault(first + int(wrong.argmax()))
        if end == len(kinds):
            raise self.fault(self.good)
        self.at = first + end + 1
        return first, first + end

    def run(self, kinds: str) -> int:
        """How many frames of these kinds stand here, one after another."""
        other = ~numpy.isin(self.frames.kinds[self.at:self.good], numpy.frombuffer(kinds.encode(), numpy.uint8))
        return int(other.argmax()) if other.any() else len(other)

    def closing(self, part: Part, stocks: int | None = None, agents: int | None = None) -> None:
        """A closing: `c`, the stocks, the live orders, shown and hidden ones as they come, the agents. A number that is
        not known is as many as come."""
        part.counts = self.ask("c")
        part.stocks = self.ask_numbered("s", self.run("s") if stocks is None else stocks, layouts.STOCK, "stock")
        part.orders = self.at
        self.at += self.run(LIVE_ORDERS)
        part.agents = self.ask_numbered("a", self.run("a") if agents is None else agents, layouts.AGENT, "agent")
        part.waiting = part.end = self.at

    def finish(self, count: int) -> None:
        """The end: `z` with this number, and nothing behind it."""
        last = self.ask_numbered("z", 1, layouts.END, "count", count)
        if last + 1 < len(self.frames.starts) or self.frames.end < len(self.frames.raw):
            raise BundleError(self.frames.path, self.frames.offset(last + 1), "bad order: bytes follow the end")


def edit_halts(frames: Frames, first: int, end: int) -> numpy.ndarray:
    """Of the frames from `first` to `end` the `H` messages that belong to an edit, by their places in this range:
    those that follow at once an edit of letter `h` or `r`, with its time."""
    kinds = frames.kinds[first:end]
    places = numpy.flatnonzero((kinds[1:] == ord("H")) & (kinds[:-1] == ord("d"))) + 1
    edits = frames.records(first + places - 1, layouts.EDIT)
    heads = frames.records(first + places, layouts.FEED_HEAD)
    same_time = edits["time"] == heads["time_upper"].astype(numpy.uint64) << 32 | heads["time_lower"]
    return places[numpy.isin(edits["letter"], numpy.frombuffer(b"hr", numpy.uint8)) & same_time]


def bundle_parts(frames: Frames) -> tuple[int, int, list[Part]]:
    """Agents, stocks and the branches of a bundle; BundleError where it is none."""
    order = Order(frames)
    header = frames.records(numpy.array([order.ask("h")]), layouts.HEADER)[0]
    agents, stocks, branches = int(header["agents"]), int(header["stocks"]), int(header["branches"])
    parts = []
    for number in range(branches):
        part = Part(*[order.ask_numbered("b", 1, layouts.BRANCH, "branch", number)] * 9)
        order.ask("S")
        order.ask("R", stocks)
        order.ask("H", stocks)
        part.entries, part.entries_end = order.entries()
        order.closing(part, stocks, agents)
        parts.append(part)
    order.finish(branches)
    return agents, stocks, parts


def rewind_parts(frames: Frames) -> list[Part]:
    """The states of a rewind; BundleError where it is none."""
    order = Order(frames)
    parts = []
    while order.run("b"):
        parts.append(state_part(order))
    order.finish(len(parts))
    return parts


def state_part(order: Order) -> Part:
    """The frames of a state: `b`, its closing, and the messages that wait."""
    part = Part(*[order.ask("b")] * 9)
    part.entries = part.entries_end = order.at
    order.closing(part)
    stocks = part.orders - part.stocks
    odd = order.frames.sizes[part.agents:part.waiting] != layouts.AGENT.itemsize + 8 * stocks
    if odd.any():
        raise order.fault(part.agents + int(odd.argmax()))
    part.waiting = order.ask("w", order.run("w"))
    part.end = order.at
    return part


@dataclass
class CrossPart:
    """The frames of a cross by their indexes. first: the Stock Trading Action that begins it. orders: those that
    joined. match, price: the Cross Trade and the `k`, one each or none. trading: a frame for each order that trades."""

    first: int
    orders: numpy.ndarray
    match: numpy.ndarray
    trading: numpy.ndarray
    price: numpy.ndarray


def cross_parts(frames: Frames) -> CrossPart:
    """The frames of a cross; BundleError where it is none."""
    order = Order(frames, "fk")

    def taken(kind: str, count: int) -> numpy.ndarray:
        first = order.ask(kind, count)
        return numpy.arange(first, first + count)

    first = order.ask("H")
    orders = taken("A", order.run("A"))
    match = taken("Q", min(1, order.run("Q")))
    trading = taken("f", order.run("f") if len(match) else 0)
    order.ask("H")
    price = taken("k", len(match))
    order.finish(len(trading))
    return CrossPart(first, orders, match, trading, price)


def session_parts(frames: Frames, probes: int) -> tuple[int, list[Part | numpy.ndarray]]:
    """How many acts a session had, and its answers: a state or closing, or the indexes of the values of so many
    probes."""
    order = Order(frames, "v")
    answers: list[Part | numpy.ndarray] = []
    while order.run("bv"):
        if order.run("b"):
            answers.append(state_part(order))
        else:
            first = order.ask("v", probes)
            answers.append(numpy.arange(first, first + probes))
    last = order.ask("z")
    count = int(frames.records(numpy.array([last]), layouts.END)["count"][0])
    order.at = last
    order.finish(count)
    return count, answers
