"""The program as the explorer runs it: several questions at once, each stopped when that is asked for."""

from __future__ import annotations

import shutil
import subprocess
import tempfile
import threading
from pathlib import Path
from typing import Callable

from biqsolur import running
from biqsolur.bundle import Bundle
from biqsolur.errors import InputError
from biqsolur.report import write_report
from biqsolur.rewinds import Rewind, read_rewind
from biqsolur.study import Study

Progress = Callable[[int], None]


class Stopped(InputError):
    """A run that was stopped because somebody asked for it."""


class Engine:
    """Runs the program for several threads at once.

    `stop` ends all that runs, whose callers get Stopped; after `end` nothing is run any more. `folder` has what is made
    for downloads, and goes with `close`.
    """

    def __init__(self, program: Path | None, workers: int) -> None:
        self.program = program
        self.workers = workers
        self.lock = threading.Lock()
        self.stops = 0
        self.closed = False
        self.reports = threading.Lock()
        self.folder = Path(tempfile.mkdtemp(prefix="biqsolur-explore-"))

    def check(self, study: Study) -> None:
        """Asks the program whether it accepts a study. Raises StudyRefused where it does not."""
        with running.command("check", study, self.program) as (call, _):
            call.end(subprocess.PIPE, self._stopper())

    def run(self, study: Study, progress: Progress = lambda size: None) -> Bundle:
        """The bundle of a study; `progress` is told now and then how many bytes of it are written."""
        stopper = self._stopper()

        def told(size: int) -> None:
            stopper()
            progress(size)
        return running.run(study, self.workers, program=self.program, progress=told)

    def rewind(self, study: Study, targets: list[tuple[str, int]]) -> Rewind:
        """The states of these branches after these events, 64 at most."""
        return read_rewind(self.rewind_bytes(study, targets), study)

    def rewind_bytes(self, study: Study, targets: list[tuple[str, int]]) -> bytes:
        """The same as the program writes it."""
        with running.command("rewind", study, self.program) as (call, words):
            words.words += [running.target_word(branch, event) for branch, event in targets]
            return call.end(subprocess.PIPE, self._stopper()).stdout

    def _stopper(self) -> Callable[[], None]:
        """What raises Stopped from the next `stop` on, which ends the program behind it."""
        began = self.stops

        def stopper() -> None:
            if self.closed or self.stops != began:
                raise Stopped("the run was stopped")
        stopper()
        return stopper

    def bundle_file(self, bundle: Bundle, name: str) -> Path:
        """A file of a bundle under a name of its own: the cache may give up its own file at any time."""
        path = self.folder / f"{id(bundle)}" / f"{name}.bundle"
        with self.lock:
            if not path.exists():
                path.parent.mkdir(exist_ok=True)
                part = path.with_suffix(".part")
                part.write_bytes(bundle.frames.raw.data)
                part.rename(path)
        return path

    def report(self, bundle: Bundle, name: str) -> Path:
        """The report of a bundle, a file that is made once."""
        source = self.bundle_file(bundle, name)
        path = source.with_suffix(".html")
        with self.reports:
            if not path.exists():
                write_report(source, path)
        return path

    def stop(self) -> None:
        """Ends all that runs."""
        with self.lock:
            self.stops += 1

    def end(self) -> None:
        """Ends all that runs, and lets nothing else begin."""
        self.closed = True
        self.stop()

    def close(self) -> None:
        """Ends all, and takes the folder away."""
        self.end()
        shutil.rmtree(self.folder, ignore_errors=True)
