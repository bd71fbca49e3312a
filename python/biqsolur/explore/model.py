"""What the explorer has in hand: the versions of a study, the run of the one that is looked at, undo and redo."""

from __future__ import annotations

import sys
import threading
import time
from typing import Any, Callable

from biqsolur.errors import InputError
from biqsolur.explore.changes import CHANGES, BadRequest
from biqsolur.explore.engine import Engine, Stopped
from biqsolur.explore.run import Run
from biqsolur.study import Study

KEPT_RUNS = 6               # versions whose bundles stay at hand
EVENT_BYTES = 84            # of a bundle, about, by which a run's progress is guessed before one has ended
EVENTS_A_SECOND = 1_000_000     # of one worker, about, before one has ended

Table = dict[str, Any]


class Stale(InputError):
    """Something to do with a version of the study that is no longer looked at, since another tab changed it; or a
    question about one whose run is no longer at hand."""


class Busy(InputError):
    """A change while another one runs."""


class Explorer:
    """The versions of one study, of which one is looked at.

    `tag` is the number of the version that is looked at; it rises with each change, undo and redo, so that a tab that
    knows an older one is told. A question about an older one is answered by its own run while that is at hand: a page
    cannot know at which moment the version changes behind what it asks. All methods may be called by several threads.
    """

    def __init__(self, source: Callable[[], Study], name: str, engine: Engine) -> None:
        """`source` reads the study, anew where the first run is begun again; `name` is what it is called."""
        self.source = source
        self.name = name
        self.engine = engine
        self.lock = threading.RLock()
        self.history: list[tuple[str, Study]] = []
        self.place = 0
        self.tag = 0
        self.run: Run | None = None
        self.runs: dict[str, Run] = {}
        self.tagged: dict[int, Run] = {}
        self.worker: threading.Thread | None = None
        self.job: Table = {}
        self.failure: Table | None = None

    # ------------------------------------------------------------ runs

    def open(self) -> None:
        """Reads the study and begins the first run, or begins it again where it failed or was stopped."""
        with self.lock:
            self._idle()
            if self.run is None:
                self.failure = None
                self._start(f"open {self.name}", self.source,
                            lambda study: self.history.append((f"open {self.name}", study)))

    def change(self, kind: str, table: Table) -> None:
        """Begins the run of a changed study, which becomes the version that is looked at once it has ended. Raises
        StudyRefused where the program refuses it, and Busy where another run goes on."""
        if kind not in CHANGES:
            raise BadRequest(f"a change is one of {', '.join(CHANGES)}, not {kind!r}")
        with self.lock:
            self._idle()
            label, study = CHANGES[kind](self.history[self.place][1], table)
            self.engine.check(study)
            self._begin(study, label, lambda study: self._append(label, study))

    def step(self, by: int) -> None:
        """Goes to an older (-1) or newer (1) version."""
        with self.lock:
            self._idle()
            if not 0 <= self.place + by < len(self.history):
                raise BadRequest("there is nothing to undo" if by < 0 else "there is nothing to redo")
            label = ("undo: " if by < 0 else "redo: ") + self.history[self.place + max(by, 0)][0]
            self._begin(self.history[self.place + by][1], label, lambda study: self._move(by))

    def _append(self, label: str, study: Study) -> None:
        self.history[self.place + 1:] = [(label, study)]
        self.place += 1

    def _move(self, by: int) -> None:
        self.place += by

    def _idle(self) -> None:
        if self.worker is not None and self.worker.is_alive():
            raise Busy(f"a run goes on ({self.job.get('label')}): stop it, or wait until it has ended")

    def _begin(self, study: Study, label: str, done: Callable[[Study], None]) -> None:
        """Shows a version whose run is at hand, or begins its run."""
        self.failure = None
        kept = self.runs.get(study.to_text())
        if kept is not None:
            self._show(kept, done)
        else:
            self._start(label, lambda: study, done)

    def _start(self, label: str, source: Callable[[], Study], done: Callable[[Study], None]) -> None:
        self.job = {"label": label, "began": time.monotonic(), "bytes": 0, "expected": 0, "events": 0}
        self.worker = threading.Thread(target=self._work, args=(source, done), daemon=True)
        self.worker.start()

    def _work(self, source: Callable[[], Study], done: Callable[[Study], None]) -> None:
        """Reads, checks and runs a study; what is wrong becomes the failure that the page tells."""
        began = time.monotonic()
        try:
            study = source()
            self.engine.check(study)
            self._expect(study)
            bundle = self.engine.run(study, self._progress)
            self._show(Run(study, bundle, time.monotonic() - began, self.engine), done)
        except (InputError, OSError) as error:
            self._fail(str(error), isinstance(error, Stopped))
        except Exception as error:      # the page is to say so, and the next run is to be possible
            self._fail(f"the explorer failed: {type(error).__name__}: {error}", False)

    def _fail(self, text: str, stopped: bool) -> None:
        self.failure = {"error": text, "stopped": stopped}
        if self.run is None and not self.engine.closed:
            print(f"biqsolur: {text}", file=sys.stderr, flush=True)

    def _expect(self, study: Study) -> None:
        """Guesses how many events a run will have, at most, and how many bytes its bundle."""
        per_event = EVENT_BYTES
        if self.run is not None:
            events = sum(view.count for view in self.run.views.values())
            per_event = max(1, self.run.bundle.frames.end // max(1, events))
        self.job["events"] = study.to_dict()["events"] * len(study.branches)
        self.job["expected"] = self.job["events"] * per_event

    def _progress(self, size: int) -> None:
        self.job["bytes"] = size

    def _show(self, run: Run, done: Callable[[Study], None]) -> None:
        with self.lock:
            done(run.study)
            self.run = run
            self.tag += 1
            self.runs.pop(run.study.to_text(), None)
            self.runs[run.study.to_text()] = run
            while len(self.runs) > KEPT_RUNS:
                del self.runs[next(iter(self.runs))]
            self.tagged[self.tag] = run
            self.tagged.pop(self.tag - KEPT_RUNS, None)

    def stop(self) -> None:
        """Stops the run that goes on."""
        self.engine.stop()

    # ------------------------------------------------------------ what is looked at

    def looked_at(self, tag: int | None = None) -> Run:
        """The run that is looked at. Raises Stale where the page knows another one."""
        with self.lock:
            if self.run is None:
                raise Stale("nothing has run yet")
            if tag is not None and tag != self.tag:
                raise Stale("the study was changed meanwhile, perhaps in another tab")
            return self.run

    def run_of(self, tag: int) -> Run:
        """The run of a version that is looked at, or was a few changes ago. Raises Stale where it is not at hand."""
        with self.lock:
            return self.tagged.get(tag) or self.looked_at(tag)

    def status(self) -> Table:
        """Whether a run goes on, and how far it is; why the last one failed; which version is looked at."""
        with self.lock:
            running = self.worker is not None and self.worker.is_alive()
            out: Table = {"tag": self.tag, "ready": self.run is not None, "running": running, "failure": self.failure}
            if running:
                seconds = time.monotonic() - self.job["began"]
                guess = self.job["events"] / EVENTS_A_SECOND / self.engine.workers
                out |= {"label": self.job["label"], "seconds": seconds, "events": self.job["events"], "guess": guess,
                        "share": self.share(seconds, guess)}
            return out

    def share(self, seconds: float, guess: float) -> float:
        """How far the run is, from 0 to 1. Most of a bundle is written at the end of its simulation: until then it is
        told by the clock, and half at most."""
        written = min(0.99, self.job["bytes"] / max(1, self.job["expected"]))
        return max(written, 0.5 * seconds / (seconds + max(0.1, guess)))

    def close(self) -> None:
        """Ends what goes on."""
        self.engine.close()
        if self.worker is not None:
            self.worker.join(10)
