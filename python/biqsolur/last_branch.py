"""The last branch of a study's run, read without the others.

A chain of branches has its whole run in the last one, while the bundle holds each of them from the opening to its end.
A strategy asks for nothing but the last one, once for each decision; to find the frames of the others would cost most
of it.
"""

from __future__ import annotations

import mmap
import tempfile
from os import PathLike
from pathlib import Path

from biqsolur.bundle import Bundle
from biqsolur.frames import read_frames
from biqsolur.study import Study

HEADER_SIZE, END_SIZE = 2 + 9, 2 + 3    # of the frames `h` and `z`, with their lengths
NAME_PLACE = 2 + 9                      # of the length of the name in the frame `b`
NO_PARENT = b"\xff\xff"


def run_last(study: Study, workers: int = 1, *, program: str | PathLike[str] | None = None) -> Bundle:
    """Runs a study and gives a bundle of its last branch alone, under its name, as if it were a root. Nothing is kept
    in the cache. Raises what `biqsolur.run` raises."""
    from biqsolur.running import command, workers_words, written_bundle
    with command("run", study, program, *workers_words(workers)) as (call, _), \
            tempfile.NamedTemporaryFile(prefix="biqsolur-", suffix=".bundle") as file:
        call.subject = file.name
        call.end(file.fileno())
        try:
            with mmap.mmap(file.fileno(), 0, access=mmap.ACCESS_READ) as data:
                alone = branch_alone(data, study.branches[-1].encode(), len(study.branches) - 1)
            return Bundle(read_frames(alone))
        except ValueError:              # no bundle, or an empty file
            return written_bundle(Path(file.name), call.program)    # which says what is wrong with the whole


def branch_alone(data: mmap.mmap, name: bytes, number: int) -> bytes:
    """A bundle of the last branch, of this name and number: its frames between a header and an end of one branch. What
    is no bundle gives bytes that are none."""
    wanted, size = bytes([len(name)]) + name, (10 + len(name)).to_bytes(2, "big")
    place = data.rfind(wanted)
    while place >= 0:
        start = place - NAME_PLACE
        if start >= HEADER_SIZE and data[start:start + 5] == size + b"b" + number.to_bytes(2, "big"):
            header = data[:HEADER_SIZE - 2] + b"\0\1"
            head = size + b"b" + b"\0\0" + NO_PARENT
            return header + head + data[start + len(head):len(data) - END_SIZE] + b"\0\3z\0\1"
        place = data.rfind(wanted, 0, place)
    return b""
