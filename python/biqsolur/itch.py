"""A branch's feed as a file of TotalView-ITCH 5.0 messages, each behind its length of two bytes."""

from __future__ import annotations

from pathlib import Path

from biqsolur.bundle import Branch
from biqsolur.feed import feed_rows
from biqsolur.frames import runs
from biqsolur.output import new_file


def to_itch(path: str | Path, branch: Branch) -> None:
    """Writes the feed of a branch, from the opening to the close, into a new file."""
    frames = branch.bundle.frames
    with new_file(path) as file:
        for first, end in runs(frames, feed_rows(frames, branch.part).indexes):
            file.write(frames.raw[first:end])
