"""Runs pytest over all tests, what failed once more and alone, and says how many passed, failed and were skipped.

    python3 python/tests/tally.py --program PATH [--browser] [--long] [--skip-missing] [--missing NAME ...]
        [--root FOLDER] [-- WORDS OF PYTEST]

A test that fails beside others is run again by itself, at most twice: a machine under load may starve it. What passes
then counts as passed, and is named. Where there is no pytest, the stored runs alone are run, by stored.py.
"""

from __future__ import annotations

import argparse
import importlib.util
import math
import os
import shutil
import signal
import subprocess
import sys
import tempfile
from collections import defaultdict
from pathlib import Path
from typing import Any

TESTS = Path(__file__).resolve().parent
PACKAGE = TESTS.parent
AGAIN = 2
WORKER_MEMORY = 700_000_000     # bytes that one worker of pytest may touch
LEVELS = {"browser": "the tests of pages in a real browser (--browser)", "proofs": "the proofs (--proofs)",
          "long": "tests that take minutes of a processor (--long)"}


class Tally:
    """A plugin of pytest that notes how each test ended: passed, failed, or skipped and why."""

    def __init__(self) -> None:
        """Nothing has ended yet."""
        self.ended: dict[str, tuple[str, str]] = {}

    def pytest_runtest_logreport(self, report: Any) -> None:
        """One of the three parts of a test. What failed in one part has failed."""
        before = self.ended.get(report.nodeid, ("", ""))[0]
        if report.failed:
            self.ended[report.nodeid] = ("failed", report.when)
        elif report.skipped and before != "failed":
            self.ended[report.nodeid] = ("skipped", reason_of(report))
        elif report.when == "call":
            self.ended[report.nodeid] = ("passed", "")

    def pytest_collectreport(self, report: Any) -> None:
        """A file that can't be read as tests, or that asks to be left out."""
        if report.failed:
            self.ended[report.nodeid] = ("failed", "collect")
        elif report.skipped:
            self.ended[report.nodeid] = ("skipped", reason_of(report))

    def of(self, outcome: str) -> list[str]:
        """The names of the tests that ended so."""
        return [name for name, (how, _) in self.ended.items() if how == outcome]


def reason_of(report: Any) -> str:
    """Why a test was left out, as it says itself."""
    said = report.longrepr[2] if isinstance(report.longrepr, tuple) else str(report.longrepr)
    return said.removeprefix("Skipped: ")


def quota() -> float:
    """How many processors the system's group of this process may use."""
    try:
        most, period = Path("/sys/fs/cgroup/cpu.max").read_text().split()
        return math.inf if most == "max" else int(most) / int(period)
    except (OSError, ValueError):
        return math.inf


def free_memory() -> float:
    """The bytes that are free, as far as the system tells."""
    try:
        lines = Path("/proc/meminfo").read_text().splitlines()
        return next(int(line.split()[1]) * 1024 for line in lines if line.startswith("MemAvailable:"))
    except (OSError, ValueError, StopIteration, IndexError):
        return math.inf


def workers() -> int:
    """How many workers suit the machine: its processors, as far as memory is there for them, and 16 at most."""
    try:
        processors = len(os.sched_getaffinity(0))
    except (OSError, AttributeError):
        processors = os.cpu_count() or 1
    return max(1, math.ceil(min(processors, quota(), free_memory() // WORKER_MEMORY, 16)))


def has_xdist() -> bool:
    """Whether pytest can have helpers. Where it can it has to know the plugin: others ask for its hooks."""
    return importlib.util.find_spec("xdist") is not None


def run_pytest(words: list[str], folder: Path) -> tuple[int, Tally]:
    """One call of pytest in this process and folder; its status and how each test ended."""
    import pytest

    tally = Tally()
    fixed = ["-q", "-p", "no:cacheprovider", f"--rootdir={os.getcwd()}", f"--basetemp={folder}", "--no-header",
             "--continue-on-collection-errors"]
    return int(pytest.main([*fixed, *words], plugins=[tally])), tally


def level_words(asked: argparse.Namespace) -> list[str]:
    """What tells pytest to leave out the levels that were not asked for."""
    left = [f"not {name}" for name in ("browser", "long") if not getattr(asked, name)]
    return ["-m", " and ".join(left)] if left else []


def run_again(names: list[str], folder: Path) -> Tally:
    """Runs tests once more in a process of pytest without helpers."""
    print(f"\ntest: once more, alone: {len(names)} that failed", flush=True)
    return run_pytest([*(["-n", "0"] if has_xdist() else []), *names], folder)[1]


def merge(tally: Tally, again: Tally, names: list[str]) -> list[str]:
    """Takes over how tests ended when they were run again; the names of those that passed now."""
    better = [name for name in names if again.ended.get(name, ("passed",))[0] != "failed"
              and any(other == name or other.startswith(f"{name}::") for other in again.ended)]
    for name in better:
        del tally.ended[name]
    tally.ended.update(again.ended)
    return better


def run_all(asked: argparse.Namespace, folder: Path) -> tuple[Tally, list[str]]:
    """Runs all tests and the failed ones again; how each ended, and which needed more than one run."""
    count = workers() if has_xdist() else 1
    beside = ["-n", str(count)] if count > 1 and "-n" not in asked.words else []
    words = asked.words or ["tests"]
    status, tally = run_pytest([*level_words(asked), *beside, *words], folder / "first")
    needed: list[str] = []
    for turn in range(AGAIN):
        failed = tally.of("failed")
        if not failed or status > 1:
            break
        needed += merge(tally, run_again(failed, folder / f"again{turn}"), failed)
    if status > 1 and status != 5:
        tally.ended[f"pytest itself ended with {status}"] = ("failed", "")
    return tally, needed


def tell(tally: Tally, needed: list[str], asked: argparse.Namespace) -> int:
    """Prints what failed, was skipped and left out, and the closing line; the status."""
    print()
    for name in tally.of("failed"):
        print(f"failed: {name}")
    for name in needed:
        print(f"passed only when it was run once more, alone: {name}")
    reasons = defaultdict(int)
    for how, why in tally.ended.values():
        reasons[why] += how == "skipped"
    for why, count in sorted(reasons.items()):
        if count:
            print(f"skipped, {count}: {why}")
    for name in asked.missing:
        print(f"not there, and could not be had: {name}")
    for level, what in LEVELS.items():
        if not getattr(asked, level):
            print(f"not asked for: {what}")
    passed, failed, skipped = (len(tally.of(how)) for how in ("passed", "failed", "skipped"))
    without = f" for want of {', '.join(asked.missing)}" if asked.missing else ""
    print(f"{passed} passed, {failed} failed, {skipped} skipped{without}", flush=True)
    return int(bool(failed or not passed or ((skipped or asked.missing) and not asked.skip_missing)))


def stored_alone(program: str) -> Tally:
    """The stored runs without pytest."""
    tally = Tally()
    status = subprocess.run([sys.executable, str(TESTS / "stored.py"), program]).returncode
    tally.ended["the stored runs"] = ("failed" if status else "passed", "")
    tally.ended["the Python package's tests"] = ("skipped", "there is no pytest")
    return tally


def options(words: list[str]) -> argparse.Namespace:
    """The options of this script."""
    parser = argparse.ArgumentParser(description=__doc__)
    parser.add_argument("--program", required=True)
    parser.add_argument("--root", default=str(PACKAGE), help="where pytest runs: the folder above the tests")
    for name in ("--browser", "--long", "--proofs", "--skip-missing"):
        parser.add_argument(name, action="store_true")
    parser.add_argument("--missing", action="append", default=[])
    parser.add_argument("words", nargs="*")
    return parser.parse_args(words)


def end(number: int, frame: object) -> None:
    """Ends as by an interrupt, so that folders and workers are taken away."""
    raise KeyboardInterrupt


def main(words: list[str]) -> int:
    """Runs everything; the status is 0 where all passed and nothing was left out that should not be."""
    asked = options(words)
    asked.words = [os.path.abspath(word) if os.path.exists(word.split("::")[0]) else word for word in asked.words]
    os.chdir(asked.root)
    signal.signal(signal.SIGTERM, end)
    folder = Path(tempfile.mkdtemp(prefix="biqsolur-test-"))
    try:
        if importlib.util.find_spec("pytest"):
            tally, needed = run_all(asked, folder)
        else:
            tally, needed = stored_alone(asked.program), []
        return tell(tally, needed, asked)
    finally:
        shutil.rmtree(folder, ignore_errors=True)


if __name__ == "__main__":
    sys.exit(main(sys.argv[1:]))
