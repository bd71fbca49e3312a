"""Finding the frames of a file.

A frame is a length of two bytes and a payload of that many bytes, so where a frame begins is known only once the
frame before it is. One walker that goes from frame to frame takes seconds for millions of frames in Python. So a
large file is walked by some thousand walkers at once, each a place in a numpy array. Each begins where a frame
seems to begin, and has to arrive exactly where the next one began. The first one begins at the file's first byte,
so where all arrive, each began at a frame. A beginning at which nobody arrives is given up, and they walk again.
"""

from __future__ import annotations

import mmap
from array import array
from dataclasses import dataclass
from pathlib import Path

import numpy

from biqsolur import layouts

SMALL_FILE = 1_000_000      # bytes; below, a single walker is quick enough
WALKERS = 4096
FEWEST_WALKERS = 16         # below, one walker is quicker
SHORTEST = 3                # bytes of a payload
ROUNDS = 4                  # of walkers together, before one walks alone
WINDOW = 256                # bytes in which a walker looks for the beginning of a frame; the longest frame has 200


@dataclass
class Frames:
    """A file and where its whole frames stand: a row of three columns a frame, in the file's order.

    starts: offset of the payload, that is two bytes after the frame's own offset. sizes: bytes of the payload.
    kinds: its first byte, 0 where it is empty. end: where the last whole frame ends; the file goes on behind it
    where a frame is cut.
    """

    path: str
    raw: numpy.ndarray
    starts: numpy.ndarray
    sizes: numpy.ndarray
    kinds: numpy.ndarray
    end: int

    def offset(self, index: int) -> int:
        """The offset of a frame in the file; of the one behind the last, where that one would begin."""
        return int(self.starts[index]) - 2 if index < len(self.starts) else self.end

    def records(self, indexes: numpy.ndarray, layout: numpy.dtype, skip: int = 0) -> numpy.ndarray:
        """The fields of `layout` of these frames, `skip` bytes behind the beginning of their payloads."""
        return records_at(self.raw, self.starts[indexes] + skip, layout)


BYTES_NAME = "(bytes)"        # in place of a path, where bytes were given


def name_of(source: str | Path | bytes) -> str:
    """What a source is called in messages: its path."""
    return BYTES_NAME if isinstance(source, bytes) else str(source)


def map_file(path: str | Path | bytes) -> numpy.ndarray:
    """The bytes of a file, mapped into memory where the system can, else read; or these bytes themselves."""
    if isinstance(path, bytes):
        return numpy.frombuffer(path, numpy.uint8)
    with open(path, "rb") as file:
        try:
            return numpy.frombuffer(mmap.mmap(file.fileno(), 0, access=mmap.ACCESS_READ), numpy.uint8)
        except (ValueError, OSError):       # an empty file, or one that is no plain file
            return numpy.frombuffer(file.read(), numpy.uint8)


def records_at(raw: numpy.ndarray, places: numpy.ndarray, layout: numpy.dtype) -> numpy.ndarray:
    """A structured array: the fields of `layout` at each of these places, which all lie whole in `raw`."""
    if len(places) == 0:
        return numpy.zeros(0, layout)
    size = layout.itemsize
    # Each byte of the file begins one item of this view, so that to pick items is to copy bytes.
    everywhere = numpy.ndarray((len(raw) - size + 1,), f"V{size}", buffer=raw, strides=(1,))
    return everywhere[places].view(layout)


def bytes_at(raw: numpy.ndarray, places: numpy.ndarray, size: int) -> numpy.ndarray:
    """A table of bytes: a row of `size` bytes for each of these places."""
    return records_at(raw, places, numpy.dtype((numpy.void, size))).view(numpy.uint8).reshape(len(places), size)


def read_frames(path: str | Path | bytes) -> Frames:
    """Maps a file and finds its frames; or finds those of bytes."""
    raw = map_file(path)
    offsets = find_offsets(raw)
    sizes = lengths_at(raw, offsets)
    end = 0
    if len(offsets):
        end = int(offsets[-1]) + 2 + int(sizes[-1])
        if end > len(raw):                  # the last one is cut
            end = int(offsets[-1])
            offsets, sizes = offsets[:-1], sizes[:-1]
    starts = offsets + 2
    kinds = numpy.zeros(len(starts), numpy.uint8)
    whole = sizes > 0
    kinds[whole] = raw[starts[whole]]
    return Frames(name_of(path), raw, starts, sizes.astype(numpy.uint16), kinds, end)


def lengths_at(raw: numpy.ndarray, offsets: numpy.ndarray) -> numpy.ndarray:
    """The lengths that stand at these offsets, the more significant byte first."""
    return raw[offsets].astype(numpy.int64) * 256 + raw[offsets + 1]


def find_offsets(raw: numpy.ndarray) -> numpy.ndarray:
    """The offset of each frame of which two bytes of length are there. The last one may be cut, or too short to be one:
    behind that nothing is looked for, so that a file of zeros is no file of a million empty frames."""
    if len(raw) >= SMALL_FILE:
        starts = likely_starts(raw)
        for _ in range(ROUNDS):
            offsets, missed = walk_together(raw, starts)
            if offsets is not None and len(missed) == 0:
                return offsets
            if offsets is None:
                break
            starts = numpy.setdiff1d(starts, missed)
    return walk_alone(raw)


def walk_alone(raw: numpy.ndarray) -> numpy.ndarray:
    """The same by one walker."""
    data = memoryview(raw)
    found = array("q")
    at, last = 0, len(raw) - 1
    while at < last:
        found.append(at)
        size = data[at] * 256 + data[at + 1]
        if size < SHORTEST:
            break
        at += 2 + size
    return numpy.array(found, numpy.int64)


def walk_together(raw: numpy.ndarray, starts: numpy.ndarray) -> tuple[numpy.ndarray | None, numpy.ndarray]:
    """The same by a walker from each of `starts`, which rise from 0; and which of `starts` were missed. None where a
    walker comes to a frame that is too short, or where there are too few of them."""
    last = len(raw) - 1
    goals = numpy.append(starts[1:], last)
    at = starts
    found, missed = [], []
    if len(at) < FEWEST_WALKERS:
        return None, starts
    while len(at):
        found.append(at)
        sizes = lengths_at(raw, at)
        if sizes.min() < SHORTEST:
            return None, starts
        at = at + 2 + sizes
        walking = at < goals
        missed.append(goals[(at > goals) & (goals < last)])
        at, goals = at[walking], goals[walking]
    offsets = numpy.concatenate(found)
    offsets.sort()
    return offsets, numpy.concatenate(missed)


def likely_starts(raw: numpy.ndarray) -> numpy.ndarray:
    """0, and in each of many equal parts of the file the first offset from which three frames seem to follow."""
    known = known_sizes()
    parts = numpy.arange(1, WALKERS, dtype=numpy.int64) * (len(raw) // WALKERS)
    candidates = parts[:, None] + numpy.arange(WINDOW)
    seems = numpy.ones(candidates.shape, bool)
    at = candidates
    for _ in range(3):
        seems &= at < len(raw) - 3
        at = numpy.where(seems, at, 0)
        sizes = lengths_at(raw, at)
        seems &= known[raw[at + 2], numpy.minimum(sizes, 255)]
        at = at + 2 + sizes
    first = seems.argmax(axis=1)
    rows = numpy.flatnonzero(seems.any(axis=1))
    return numpy.append(0, candidates[rows, first[rows]])


def known_sizes() -> numpy.ndarray:
    """A table of bools: whether an entry's payload with this first byte may have this size, both below 256."""
    known = numpy.zeros((256, 256), bool)
    for letter in "AEXD":
        known[ord(letter), layouts.FEED[letter].itemsize] = True
    for size in layouts.BODIES:
        known[ord("e"), layouts.EVENT.itemsize + size] = True
    return known


def runs(frames: Frames, indexes: numpy.ndarray) -> list[tuple[int, int]]:
    """Where these frames stand in the file, with their lengths: first byte and end of each run of neighbours."""
    if len(indexes) == 0:
        return []
    first = numpy.append(0, numpy.flatnonzero(numpy.diff(indexes) != 1) + 1)
    last = numpy.append(first[1:], len(indexes)) - 1
    begins = frames.starts[indexes[first]] - 2
    ends = frames.starts[indexes[last]] + frames.sizes[indexes[last]]
    return list(zip(begins.tolist(), ends.tolist()))
