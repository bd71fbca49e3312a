"""How long the measures of a branch of 1,000,000 events take, and how much memory beyond the bundle.

    PYTHONPATH=python python3 bench/measures.py

Seconds are those of one processor; memory is the peak of the process less that with the bundle read.
"""

import resource
import time
from collections.abc import Callable
from pathlib import Path

import biqsolur
from biqsolur.measures import NAMES

EXAMPLE = Path(__file__).resolve().parent.parent / "examples" / "tick_size.toml"


def peak() -> int:
    """The greatest size of this process until now, in millions of bytes."""
    return resource.getrusage(resource.RUSAGE_SELF).ru_maxrss // 1000


def took(what: str, call: Callable[[], object], before: int) -> None:
    """Writes the time of a call and the memory beyond `before`."""
    start = time.process_time()
    call()
    print(f"{what:32} {time.process_time() - start:5.2f} s {peak() - before:5} MB")


study = biqsolur.Study(EXAMPLE).without_branch("wide").without_branch("same")
study = study.with_("close", 50_000_000_000_000).with_("events", 1_000_000)
bundle = biqsolur.run(study, cache=False)
root, read = bundle.branches["root"], peak()
print(f"{len(root.tape.event_times):,} events, {len(bundle.frames.raw) / 1e6:.1f} MB")
took("best prices, top()", root.top, read)
took(f"all {len(NAMES)} measures", lambda: bundle.compare(list(NAMES)), read)
took("all once more", lambda: bundle.compare(list(NAMES)), read)
