"""What all tests share: the program, random studies that it ran, and a cache of their own.

The markers `browser` (a page in a real browser) and `long` (minutes of a processor) name what `./test` leaves out unless
it is asked. No test may hang: after LONGEST seconds it fails.
"""

from __future__ import annotations

import os
import shutil
import signal
import subprocess
import sys
import tempfile
from collections.abc import Iterator
from dataclasses import dataclass
from pathlib import Path

import pytest

PACKAGE = Path(__file__).resolve().parent.parent
ROOT = PACKAGE.parent
TESTS_FOLDER = PACKAGE / "tests"
sys.path[:0] = [str(PACKAGE), str(Path(__file__).resolve().parent)]

import studies  # noqa: E402

SEEDS = range(60)
MARKERS = ("browser: a page in a real browser (./test --browser)", "long: minutes of a processor (./test --long)")
LONGEST = 900


def pytest_configure(config: pytest.Config) -> None:
    """Registers the markers; the first process makes the cache, and its workers use it."""
    heed_signals()
    for marker in MARKERS:
        config.addinivalue_line("markers", marker)
    if "PYTEST_XDIST_WORKER" not in os.environ:
        config._own_cache = tempfile.mkdtemp(prefix="biqsolur-tests-")
        os.environ["XDG_CACHE_HOME"] = config._own_cache


def heed_signals() -> None:
    """Heeds what ends a command of a terminal: what a job in the background ignores, its children would ignore too."""
    for number in (signal.SIGINT, signal.SIGQUIT, signal.SIGHUP):
        if signal.getsignal(number) == signal.SIG_IGN:
            signal.signal(number, signal.default_int_handler if number == signal.SIGINT else signal.SIG_DFL)


def pytest_unconfigure(config: pytest.Config) -> None:
    """Takes the cache of the tests away."""
    shutil.rmtree(getattr(config, "_own_cache", "/nonexistent"), ignore_errors=True)


def too_long(number: int, frame: object) -> None:
    """Ends a test that hangs."""
    raise TimeoutError(f"the test took longer than {LONGEST} s")


@pytest.hookimpl(hookwrapper=True)
def pytest_runtest_protocol(item: pytest.Item) -> Iterator[None]:
    """Bounds the time of one test with its fixtures, generously: only a hang comes near it."""
    before = signal.signal(signal.SIGALRM, too_long)
    signal.alarm(LONGEST)
    yield
    signal.alarm(0)
    signal.signal(signal.SIGALRM, before)


@pytest.fixture
def tmp_path(tmp_path: Path) -> Iterator[Path]:
    """pytest's own folder for a test, taken away behind it, so that a small disk suffices."""
    yield tmp_path
    shutil.rmtree(tmp_path, ignore_errors=True)


def program_path() -> str:
    """The program that the package would run, which is what `./abides` would run. Nothing is built from here."""
    try:
        from biqsolur.program import find_program
    except ImportError:
        return subprocess.run([ROOT / "abides", "--program"], check=True, capture_output=True, text=True).stdout.strip()
    return str(find_program())


@pytest.fixture(scope="session")
def program() -> str:
    """The path of the program."""
    return program_path()


@dataclass
class Market:
    """A random study and what the program wrote of it."""

    study: dict
    folder: Path
    program: str

    def run(self, command: str, *more: str) -> bytes:
        """What the program writes of this study."""
        answer = subprocess.run([self.program, command, "study.toml", *more], cwd=self.folder, capture_output=True)
        assert (answer.returncode, answer.stderr) == (0, b"")
        return answer.stdout

    @property
    def bundle(self) -> Path:
        """The file of its bundle."""
        return self.folder / "study.bundle"

    @property
    def traders(self) -> list[dict | None]:
        """The entry of each trader, by its number; of the exchange None."""
        return [None] + [entry for entry in self.study["agent"] for _ in range(entry.get("count", 1))]


@pytest.fixture(scope="session", params=SEEDS)
def market(request: pytest.FixtureRequest, program: str, tmp_path_factory: pytest.TempPathFactory) -> Market:
    """The market of each seed, run once."""
    study, series = studies.make_study(request.param)
    folder = tmp_path_factory.mktemp(f"market{request.param}")
    (folder / "study.toml").write_text(studies.toml(study))
    if series is not None:
        (folder / study["series"]).write_text(series)
    market = Market(study, folder, program)
    market.bundle.write_bytes(market.run("run"))
    return market
