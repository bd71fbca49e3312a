"""A bundle frame by frame, in plain Python: what stands at an offset, and what may stand there.

The readers of bundles (`biqsolur.read`) are quicker and need numpy; this one serves `why`, which needs none. The frames
and their order are those of docs/FORMATS.md.
"""

from __future__ import annotations

from collections.abc import Iterator
from dataclasses import dataclass

from biqsolur import ouch
from biqsolur.field_kinds import FEED_FIELDS, OUCH_FIELDS, field_faults

# What each letter of a frame is.
NAMES = {
    "h": "header", "b": "branch", "e": "event", "d": "edit", "c": "counters of a closing", "s": "stock of a closing",
    "l": "live order that is shown", "n": "live order that is hidden", "a": "agent of a closing", "z": "end",
    "S": "System Event", "R": "Stock Directory", "H": "Stock Trading Action", "A": "Add Order", "E": "Order Executed",
    "X": "Order Cancel", "D": "Order Delete", "P": "Trade",
    "w": "waiting message, which a rewind or a session has", "v": "value, which a session has",
    "f": "order that trades, which a cross has", "k": "price, which a cross has", "Q": "Cross Trade, which a cross has",
}
SIZES = {"h": 9, "d": 18, "c": 66, "s": 44, "l": 44, "n": 44, "z": 3, "S": 12, "R": 39, "H": 25, "A": 36, "E": 31,
         "X": 23, "D": 19, "P": 44, "Q": 40}
HEAD = 43                       # bytes of an event before its body
LEAST_AGENT, LEAST_BRANCH, MOST_BRANCH = 70, 11, 42
# (offset, length, those that may stand there) of the bytes of a frame that are no numbers.
FIXED = {"h": (1, 2, [b"\0\1"]), "l": (25, 1, [b"B", b"S"]), "n": (25, 1, [b"B", b"S"]), "a": (3, 1, [b"Y", b"N"])}
# The body of an event by its size: the letter of its kind, and of OUCH the letter of the message.
BODIES = {0: ("w", ""), 2: ("a", ""), 31: ("q", ""), **{
    kind.SIZE: ("i" if issubclass(kind, ouch.Order) else "o", letter) for letter, kind in ouch.MESSAGES.items()}}


@dataclass(frozen=True)
class Frame:
    """A frame: its offset in the file (where its length stands), and its payload."""

    offset: int
    payload: bytes

    @property
    def letter(self) -> str:
        """The payload's first byte, or "" where it is empty."""
        return self.payload[:1].decode("latin1")

    def number(self, offset: int, size: int) -> int:
        """The unsigned number at an offset of the payload."""
        return int.from_bytes(self.payload[offset:offset + size], "big")


def frames(data: bytes) -> Iterator[Frame]:
    """The whole frames of a file, in order; the first one that is cut ends them."""
    at = 0
    while at + 2 <= len(data):
        size = int.from_bytes(data[at:at + 2], "big")
        if at + 2 + size > len(data):
            return
        yield Frame(at, data[at + 2:at + 2 + size])
        at += 2 + size


def frame_name(letter: str) -> str:
    """What a frame is called."""
    return f"`{letter}` ({NAMES[letter]})" if letter in NAMES else f"the first byte {letter.encode('latin1').hex()}"


# ---------------------------------------------------------------- one frame

def frame_faults(frame: Frame, stocks: int) -> list[str]:
    """What of a frame's own bytes is wrong in a bundle of so many stocks."""
    letter, size = frame.letter, len(frame.payload)
    if letter == "":
        return ["its length is 0, and is to be 3 at least"]
    if letter not in NAMES or letter in "wvfkQ":
        known = [name for name in NAMES if name not in "wvfkQ"]
        return [f"it is {frame_name(letter)}, and a frame of a bundle begins with one of {' '.join(known)}"]
    if letter == "e":
        return event_faults(frame)
    fault = size_fault(letter, size, stocks, frame)
    if fault is not None:
        return [f"{frame_name(letter)} has {size} bytes, and is to have {fault}"]
    if letter in FEED_FIELDS:
        return field_faults(frame.payload, FEED_FIELDS[letter])
    if letter not in FIXED:
        return []
    offset, length, allowed = FIXED[letter]
    return fixed_faults(frame.payload, offset, length, allowed)


def size_fault(letter: str, size: int, stocks: int, frame: Frame) -> str | None:
    """How many bytes a frame of a letter is to have, where it has others."""
    if letter == "b":
        named = frame.number(9, 1) + 10
        right = LEAST_BRANCH <= size <= MOST_BRANCH and size == named
        return None if right else f"10 and those of a name of 1 to 32 (byte 9 says {frame.number(9, 1)})"
    wanted = LEAST_AGENT + 8 * stocks if letter == "a" else SIZES[letter]
    return None if size == wanted else str(wanted)


def fixed_faults(payload: bytes, offset: int, length: int, allowed: list[bytes]) -> list[str]:
    """That other bytes stand at an offset than may."""
    part = payload[offset:offset + length]
    return [] if part in allowed else [f"{part.hex()} at byte {offset}, where "
                                       f"{' or '.join(item.hex() for item in allowed)} is to stand"]


def event_faults(frame: Frame) -> list[str]:
    """What is wrong with the bytes of an event."""
    payload = frame.payload
    if len(payload) - HEAD not in BODIES:
        return [f"{frame_name('e')} has {len(payload)} bytes, and is to have {HEAD} and those of a body: "
                f"{', '.join(map(str, sorted(BODIES)))}"]
    kind, message = BODIES[len(payload) - HEAD]
    faults = fixed_faults(payload, 25, 1, [b"D", b"P"]) + fixed_faults(payload, HEAD - 1, 1, [kind.encode()])
    if message and not faults:
        faults = fixed_faults(payload, HEAD, 1, [message.encode()])
        fields = OUCH_FIELDS[message]
        faults += field_faults(payload[HEAD:], fields, HEAD)
    return [f"of {frame_name('e')}: {fault}" for fault in faults]


# ---------------------------------------------------------------- their order

class Walk:
    """Goes through the frames of a bundle in order. `may` has the letters of which the next frame may be."""

    def __init__(self) -> None:
        self.may = "h"
        self.agents = self.stocks = self.branches = self.seen = 0
        self.next = 0                       # the number that the next frame is to have, where frames are numbered
        self.opening: list[str] = []        # the letters that are still to come of an opening
        self.last: Frame | None = None

    def fault(self, frame: Frame) -> str | None:
        """Why a frame may not stand here, or None."""
        letter = frame.letter
        if letter == "" or letter not in self.may:
            return f"here {frame_name(letter) if letter else 'an empty frame'} stands, and may stand {self.wanted()}"
        if letter in "bsa" and frame.number(1, 2) != self.next:
            return f"{frame_name(letter)} has the number {frame.number(1, 2)}, and is to have {self.next}"
        if letter == "z" and frame.number(1, 2) != self.branches:
            return (f"{frame_name('z')} has the number {frame.number(1, 2)}, and is to have that of the branches, "
                    f"{self.branches}")
        return None

    def wanted(self) -> str:
        """What may stand here, in words."""
        return " or ".join(map(frame_name, self.may)) or "nothing, as the end stands before"

    def take(self, frame: Frame) -> None:
        """Goes on behind a frame that may stand here."""
        letter = frame.letter
        if letter == "h":
            self.agents, self.stocks, self.branches = frame.number(3, 2), frame.number(5, 2), frame.number(7, 2)
            self.next, self.may = 0, "b" if self.branches else "z"
        elif letter == "b":
            self.seen += 1
            self.opening = ["S", *"R" * self.stocks, *"H" * self.stocks]
            self.may = "S"
        elif self.opening:
            self.opening.pop(0)
            self.may = self.opening[0] if self.opening else "HedS"
        elif letter in "csalnz":
            self.closing(letter)
        else:
            self.entry(frame)
        self.last = frame

    def entry(self, frame: Frame) -> None:
        """Behind an entry, or a message of the feed that belongs to one."""
        letter, last = frame.letter, self.last
        if letter == "S":
            self.may = "c"
        elif letter in "eAEXDP":
            self.may = "AEXDPHedS"
        elif letter == "d" or last is not None and is_edits_own(last, frame):
            self.may = "HedS"
        else:
            self.may = "He"                 # of a dated change, which the next event brings

    def closing(self, letter: str) -> None:
        """Behind a frame of a closing."""
        self.next = self.next + 1 if letter in "sa" else 0 if letter == "c" else self.next
        if letter == "c" and self.stocks or letter == "s" and self.next < self.stocks:
            self.may = "s"
            return
        if letter in "cs":
            self.next = 0
        if letter == "z":
            self.may = ""
        elif letter != "a" and self.agents:
            self.may = "lna"
        elif letter == "a" and self.next < self.agents:
            self.may = "a"
        else:
            self.next = self.seen
            self.may = "b" if self.seen < self.branches else "z"


def is_edits_own(edit: Frame, action: Frame) -> bool:
    """Whether a Stock Trading Action belongs to the edit right before it."""
    return edit.letter == "d" and edit.payload[17:18] in (b"h", b"r") and edit.number(5, 8) == action.number(5, 6)


def explain_bytes(data: bytes, reason: int, offset: int) -> str:
    """What stands where a file is no bundle, and what may: `reason` 1 is a frame that is cut, with `offset` bytes left
    from its length on, 2 a frame that is none, and 3 one that may not stand there."""
    walk, place = Walk(), len(data) - offset if reason == 1 else offset
    for frame in frames(data):
        if frame.offset == place:
            return f"at byte {place:,}: " + at_frame(walk, frame, reason)
        if frame.offset > place or walk.fault(frame) is not None:
            break
        walk.take(frame)
    return f"at byte {place:,}: " + at_cut(data, place, walk)


def at_frame(walk: Walk, frame: Frame, reason: int) -> str:
    """What is wrong with a whole frame at its place."""
    own = frame_faults(frame, walk.stocks)
    order = walk.fault(frame)
    faults = own or ([order] if order else []) if reason == 2 else [order] if order else own
    hint = "" if reason == 2 else "; a file to which something was added, or in which two were joined, is no bundle"
    return "; ".join(faults or ["these bytes are none of a bundle's frames"]) + (hint if not walk.may else "")


def at_cut(data: bytes, place: int, walk: Walk) -> str:
    """What is wrong where the file ends too early."""
    left = len(data) - place
    again = "the run that wrote it did not end with status 0, or the copy isn't whole: run or copy it again"
    if not data:
        return f"the file is empty; {again}"
    if left == 0:
        return f"the file ends here, and {walk.wanted()} is to stand; {again}"
    if left == 1:
        return f"one byte is left, and a frame begins with two of its length; {again}"
    size = int.from_bytes(data[place:place + 2], "big")
    return f"the frame says {size:,} bytes, and {left - 2:,} are left; {again}"
