"""Where a branch first differs from its parent."""

from __future__ import annotations

import numpy

from biqsolur import layouts
from biqsolur.check import Part, edit_halts
from biqsolur.frames import Frames, runs


def entry_frames(frames: Frames, part: Part) -> numpy.ndarray:
    """The indexes of the frames of a branch's events, each with its feed: all entries but edits and their feed."""
    indexes = numpy.arange(part.entries, part.entries_end)
    of_edits = frames.kinds[part.entries:part.entries_end] == ord("d")
    of_edits[edit_halts(frames, part.entries, part.entries_end)] = True
    return indexes[~of_edits]


def first_difference(frames: Frames, one: Part, other: Part) -> int:
    """The least number of an event whose frames differ, or which stands in one of both alone; 0 where none does."""
    ours, theirs = entry_frames(frames, one), entry_frames(frames, other)
    same = equal_bytes(frames, ours, theirs)
    numbers = [event_at_byte(frames, indexes, same) for indexes in (ours, theirs)]
    return min((number for number in numbers if number is not None), default=0)


def equal_bytes(frames: Frames, ours: numpy.ndarray, theirs: numpy.ndarray) -> int:
    """With how many equal bytes both lists of frames begin, their lengths counted too."""
    raw = frames.raw
    slices = [list(reversed(runs(frames, indexes))) for indexes in (ours, theirs)]
    equal = 0
    while slices[0] and slices[1]:
        (our_first, our_end), (their_first, their_end) = slices[0].pop(), slices[1].pop()
        size = min(our_end - our_first, their_end - their_first)
        different = raw[our_first:our_first + size] != raw[their_first:their_first + size]
        if different.any():
            return equal + int(different.argmax())
        equal += size
        if our_first + size < our_end:
            slices[0].append((our_first + size, our_end))
        if their_first + size < their_end:
            slices[1].append((their_first + size, their_end))
    return equal


def event_at_byte(frames: Frames, indexes: numpy.ndarray, byte: int) -> int | None:
    """The number of the event to which the frame belongs that has this byte of a list of frames; None behind it."""
    ends = numpy.cumsum(frames.sizes[indexes].astype(numpy.int64) + 2)
    place = int(numpy.searchsorted(ends, byte, side="right"))
    if place == len(indexes):
        return None
    events = numpy.flatnonzero(frames.kinds[indexes] == ord("e"))
    # A dated change stands before its event, and an event before the rest of its feed.
    side = "left" if frames.kinds[indexes[place]] == ord("H") else "right"
    which = numpy.searchsorted(events, place, side=side)
    event = events[which if side == "left" else which - 1]
    return int(frames.records(indexes[event:event + 1], layouts.EVENT)["number"][0])
