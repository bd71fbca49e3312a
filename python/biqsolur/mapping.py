"""A study under many keys on one machine: `biqsolur.map`.

    frame = biqsolur.map("examples/tick_size.toml", 30, lambda bundle: bundle.branches["wide"].trades.shares.sum())

Each key is run and answered in a process of its own; a sweep (docs/SWEEPS.md) does the same for many machines, with
changed values, and goes on after an interrupt.
"""

from __future__ import annotations

import contextlib
import multiprocessing
import multiprocessing.connection
import os
import signal
import subprocess
import tempfile
import threading
import traceback
from collections.abc import Callable, Iterator, Mapping, Sequence
from concurrent.futures import ProcessPoolExecutor, as_completed
from concurrent.futures.process import BrokenProcessPool
from pathlib import Path
from typing import Any

import pandas

from biqsolur.bundle import Bundle, read
from biqsolur.errors import MapError
from biqsolur.keys import KeyedText, keys_of
from biqsolur.program import environment
from biqsolur.study import Study


def map_keys(study: Study | str | os.PathLike[str] | Mapping[str, Any], keys: int | Sequence[int | str],
             function: Callable[[Bundle], Any], processes: int | None = None, *,
             program: str | os.PathLike[str] | None = None, progress: bool | None = None) -> pandas.DataFrame:
    """Runs the study under each key, and gives what `function` says of each bundle, as a frame by key.

    keys: how many (1, 2, 3 and so on), or a list of numbers and of texts of 64 hexadecimal digits. function: of a
    Bundle, in a process that was forked off this one, so it may be a lambda; the bundle is gone when it returns. What
    it answers is a row: a number or text is the column `value`, a dict or Series its own columns; a DataFrame is
    several rows, which keep their labels behind the key's. Rows stand in the order of the keys, and are called as the
    keys were given. processes: how many side by side, as many as there are processors where it is not said. progress:
    whether a bar is shown on standard error; where that is a terminal if not said.

    A study that the program refuses is StudyRefused before anything runs. Where the function raises, or a run fails,
    it is MapError with the key, and nothing goes on. An interrupt ends all processes.
    """
    names = keys_of(keys)
    known = study if isinstance(study, Study) else Study(study)
    if processes is not None and (isinstance(processes, bool) or not isinstance(processes, int) or processes < 1):
        raise MapError(f"processes = {processes!r}: take a number from 1 on, or leave it out")
    found = program_path(program)
    known.check(program=found)
    with tempfile.TemporaryDirectory(prefix="biqsolur-map-") as folder:
        task = Task(known, found, Path(folder), function)
        answers = all_answers(task, names, min(processes or os.cpu_count() or 1, len(names)), progress)
    labels: Sequence[int | str] = range(1, len(names) + 1) if isinstance(keys, int) else list(keys)
    return frame_of(labels, answers)


map = map_keys      # as the package calls it


def program_path(program: str | os.PathLike[str] | None) -> str:
    """The program, as an absolute path."""
    if program is not None:
        return os.path.abspath(program)
    from biqsolur.program import find_program
    return str(find_program())


class Task:
    """What is done for each key."""

    def __init__(self, study: Study, program: str, folder: Path, function: Callable[[Bundle], Any]) -> None:
        self.text, self.program, self.folder, self.function = KeyedText(study), program, folder, function
        self.working = study.folder or Path.cwd()

    def answer(self, key: str) -> Any:
        """Runs the study under a key and asks the function. MapError says what went wrong."""
        study, bundle = self.folder / f"{key}.toml", self.folder / f"{key}.bundle"
        try:
            study.write_text(self.text.of(key), encoding="utf-8", newline="")
            with open(bundle, "wb") as file:
                run = subprocess.run([self.program, "run", "--", str(study)], stdout=file, stderr=subprocess.PIPE,
                                     cwd=self.working, env=environment())
            if run.returncode:
                line = run.stderr.decode("utf-8", "replace").strip()
                raise MapError(f"key {key}: the program ended with status {run.returncode}: {line}")
            try:
                return self.function(read(bundle))
            except Exception as error:
                raise MapError(f"key {key}: the function raised {error!r}\n{traceback.format_exc()}") from error
        finally:
            study.unlink(missing_ok=True)
            bundle.unlink(missing_ok=True)


TASK: Task | None = None        # of this process, which was forked off the one that maps


def begin(task: Task) -> None:
    """Readies a process: it and the programs that it starts are a group, which is ended as a whole, and which ends
    itself where the one that maps is no more. An interrupt from the terminal reaches that one alone."""
    global TASK
    TASK = task
    os.setpgid(0, 0)
    threading.Thread(target=end_with_parent, daemon=True).start()


def end_with_parent() -> None:
    """Waits until the process that maps has ended, and ends this one's group."""
    parent = multiprocessing.parent_process()
    assert parent is not None
    multiprocessing.connection.wait([parent.sentinel])
    os.killpg(0, signal.SIGKILL)


def answer_of(key: str) -> Any:
    """What this process's task says of a key."""
    assert TASK is not None
    return TASK.answer(key)


def all_answers(task: Task, keys: list[str], processes: int, progress: bool | None) -> list[Any]:
    """The answers in the order of the keys."""
    before = set(multiprocessing.active_children())
    pool = ProcessPoolExecutor(processes, multiprocessing.get_context("fork"), begin, (task,))
    try:
        futures = [pool.submit(answer_of, key) for key in keys]
        for future in bar(as_completed(futures), len(keys), progress):
            future.result()
        return [future.result() for future in futures]
    except BrokenProcessPool:
        raise MapError("a process ended before its answer was there: out of memory, or it was killed") from None
    finally:
        end_groups(set(multiprocessing.active_children()) - before)
        pool.shutdown(cancel_futures=True)


def end_groups(processes: set[Any]) -> None:
    """Ends processes, and the programs that they wait for."""
    for process in processes:
        with contextlib.suppress(OSError):      # it has made its group already
            os.setpgid(process.pid, process.pid)
        with contextlib.suppress(ProcessLookupError):
            os.killpg(process.pid, signal.SIGKILL)


def bar(items: Iterator[Any], count: int, progress: bool | None) -> Iterator[Any]:
    """The items, with a bar of how many are done."""
    from tqdm import tqdm
    return iter(tqdm(items, total=count, unit="key", disable=None if progress is None else not progress))


def frame_of(keys: Sequence[int | str], answers: list[Any]) -> pandas.DataFrame:
    """The answers as a frame whose labels begin with the key."""
    kinds = {kind_of(answer) for answer in answers}
    if len(kinds) > 1:
        raise MapError(f"the function answered {' and '.join(sorted(kinds))}: it has to answer the same for each key")
    if kinds == {"a frame"}:
        return pandas.concat(dict(zip(keys, answers)), names=["key"])
    index = pandas.Index(keys, name="key")
    if kinds == {"numbers by name"}:
        return pandas.DataFrame([dict(answer) for answer in answers], index)
    return pandas.DataFrame({"value": answers}, index)


def kind_of(answer: Any) -> str:
    """In words what an answer is."""
    if isinstance(answer, pandas.DataFrame):
        return "a frame"
    return "numbers by name" if isinstance(answer, (Mapping, pandas.Series)) else "a value"
