"""Limits of address space (`ulimit -v`): where too little is left the program ends with status 10, and by no signal.

The stack of the first thread grows while it is used, and where the limit is used up by then the system ends the program by
SIGSEGV. So each command line is tried in steps of 4 kB from below the least limit that suffices to above it: as `./abides`
starts the program, and as it starts without the script's words to the C library, by which the limits that suffice lie close
together.
"""

from __future__ import annotations

import os
import re
import subprocess
from concurrent.futures import ThreadPoolExecutor
from pathlib import Path

import pytest
from conftest import ROOT

STEP = 4  # kB
BELOW, ABOVE = 120, 14  # limits of each line below the least that suffices, and from it on
LEAST, MOST = 3_500, 64_000_000  # kB: the system's loader itself fails under fewer, and no line needs as many
UNDER_LIMIT = 'ulimit -c 0; ulimit -v "$0" && exec "$@"'
OK, MEMORY = 0, 10
TICK_SIZE = str(ROOT / "examples" / "tick_size.toml")
# The name, the words, further words behind those by which the least limit is found, and whether the C library is told how to
# get memory.
LINES = [
    ("64 workers", ["run", TICK_SIZE], ["--workers", "64"], True),
    ("chain", ["rewind", "chain.toml", "c255:0"], [], False),
    ("session", ["session", TICK_SIZE, str(ROOT / "examples" / "session.toml")], [], False),
]


def chain(text: str) -> str:
    """The study of an example with 255 branches in place of its own, each of which leaves the one before it."""
    study = text[: text.index("[[branch]]")]
    study = re.sub(r"(?m)^version = 1\b", "version = 2", re.sub(r"(?m)^events = \d+", "events = 300", study))
    parents = ["root"] + [f"c{number}" for number in range(1, 255)]
    edit = '[{ kind = "tick", stock = "ABM", bands = [[0, 500]] }]'
    return study + "".join(
        f'[[branch]]\nname = "c{place}"\nparent = "{parent}"\nat = {place}\nedit = {edit}\n'
        for place, parent in enumerate(parents, 1)
    )


@pytest.fixture(scope="module")
def folder(tmp_path_factory: pytest.TempPathFactory) -> Path:
    """A folder with the chain of branches."""
    folder = tmp_path_factory.mktemp("limits")
    (folder / "chain.toml").write_text(chain(Path(TICK_SIZE).read_text()))
    return folder


def surroundings(tuned: bool) -> dict[str, str]:
    """The environment, with the words by which `./abides` has the C library get memory, or with none."""
    plain = {key: value for key, value in os.environ.items() if key != "GLIBC_TUNABLES"}
    script = (ROOT / "release" / "common.sh").read_text()
    return {**plain, "GLIBC_TUNABLES": re.search(r"(?m)^tunables=(\S+)", script)[1]} if tuned else plain


def ending(line: list[str], tuned: bool, folder: Path, limit: int) -> int:
    """The status under a limit of so many kB; below zero the number of the signal."""
    words = ["/bin/sh", "-c", UNDER_LIMIT, str(limit), *line]
    streams = {"stdout": subprocess.DEVNULL, "stderr": subprocess.PIPE}
    answer = subprocess.run(words, cwd=folder, env=surroundings(tuned), **streams)
    if answer.returncode == MEMORY:
        assert answer.stderr == b"out of memory\n"
    return answer.returncode


def least(line: list[str], tuned: bool, folder: Path) -> int:
    """A limit that suffices, above one that doesn't. It differs from run to run where addresses are random."""
    low, high = LEAST, MOST
    while high - low > STEP:
        middle = (low + high) // 2
        if ending(line, tuned, folder, middle) == OK:
            high = middle
        else:
            low = middle
    return high


@pytest.mark.parametrize(("words", "more", "tuned"), [line[1:] for line in LINES], ids=[line[0] for line in LINES])
def test_limits_around_the_least_that_suffices(program, folder, words, more, tuned):
    first = least([program, *words], tuned, folder) - BELOW * STEP
    limits = [first + STEP * step for step in range(BELOW + ABOVE)]
    with ThreadPoolExecutor(os.cpu_count()) as pool:
        endings = list(pool.map(lambda limit: ending([program, *words, *more], tuned, folder, limit), limits))
    others = {limit: status for limit, status in zip(limits, endings, strict=True) if status not in (OK, MEMORY)}
    assert others == {}
    assert MEMORY in endings


def test_small_limits_of_all_lines(program, folder):
    line = [program, "check", TICK_SIZE]
    endings = {limit: ending(line, True, folder, limit) for limit in range(LEAST, 12_000, 50)}
    assert {limit for limit, status in endings.items() if status not in (OK, MEMORY)} == set()


def test_a_small_limit_of_stack_is_raised_by_the_script(program):
    under = ["/bin/sh", "-c", 'ulimit -S -s 512 && exec "$@"', "sh", str(ROOT / "abides"), "check", TICK_SIZE]
    answer = subprocess.run(under, env={**os.environ, "BIQSOLUR_PROGRAM": program}, capture_output=True, text=True)
    assert (answer.returncode, answer.stdout[:9]) == (OK, "accepted:")
