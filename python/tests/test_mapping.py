"""`biqsolur.map` against runs by hand; its errors; an interrupt."""

import os
import re
import signal
import subprocess
import sys
import time
from pathlib import Path

import pandas
import pytest

import biqsolur
from biqsolur import errors, keys, mapping

HOME = Path(__file__).resolve().parents[2]
STUDY = HOME / "examples" / "two_watchers.toml"
MARKET = HOME / "examples" / "tick_size.toml"
PATIENCE = 120          # seconds, at most, for what is waited for


def small_study():
    """A market of some hundred events."""
    return biqsolur.Study(MARKET).with_("events", 600).with_("branch.wide.at", 300).without_branch("same")


def by_hand(program, folder, study, key):
    """The bundle of a study under a key, by the program itself."""
    text, count = re.subn(r'(?m)^key = "[0-9a-f]{64}"', f'key = "{keys.key_of(key)}"', study.to_text())
    assert count == 1
    (folder / "byhand.toml").write_text(text)
    (folder / "byhand.bundle").write_bytes(subprocess.run([program, "run", "byhand.toml"], cwd=folder, check=True,
                                                          stdout=subprocess.PIPE).stdout)
    return biqsolur.read(folder / "byhand.bundle")


def shares(bundle):
    """The shares that the wide branch trades, and those of the root."""
    return {name: int(branch.trades.shares.sum()) for name, branch in bundle.branches.items()}


def test_rows_are_those_of_runs_by_hand(program, tmp_path):
    study, given = small_study(), [3, "f" * 64, 0]
    frame = biqsolur.map(study, given, shares, 2, program=program)
    expected = pandas.DataFrame([shares(by_hand(program, tmp_path, study, key)) for key in given],
                                pandas.Index(given, name="key"))
    pandas.testing.assert_frame_equal(frame, expected)
    assert expected.nunique().min() > 1, "the keys differ, or nothing is compared"


def test_a_lambda_and_a_frame(program, tmp_path):
    study = small_study()
    frame = biqsolur.map(study, 2, lambda bundle: bundle.branches["root"].trades[["event", "price"]].head(3), 1,
                         program=program)
    parts = {key: by_hand(program, tmp_path, study, key).branches["root"].trades[["event", "price"]].head(3)
             for key in (1, 2)}
    pandas.testing.assert_frame_equal(frame, pandas.concat(parts, names=["key"]))
    value = biqsolur.map(study.to_text(), [2], lambda bundle: len(bundle.branches["wide"].events), program=program)
    assert value.to_dict() == {"value": {2: len(by_hand(program, tmp_path, study, 2).branches["wide"].events)}}


def test_a_refused_study_is_an_error_before_anything_runs(program, tmp_path):
    refused = small_study().with_("agent.noise.size", 0)
    with pytest.raises(biqsolur.StudyRefused) as fault:
        biqsolur.map(refused, 2, lambda bundle: (tmp_path / "ran").touch(), 1, program=program)
    assert fault.value.rule == 29 and not (tmp_path / "ran").exists()


def test_a_function_that_raises_is_told_with_its_key(program):
    with pytest.raises(errors.MapError, match=r"key 0{63}7: the function raised ZeroDivisionError.*\n(.*\n)*.*1 / 0"):
        biqsolur.map(STUDY, [7], lambda bundle: 1 / 0, 1, program=program)


def test_a_run_that_fails_is_told_with_its_key(program, tmp_path):
    failing = tmp_path / "program"
    failing.write_text(f'#!/bin/sh\n[ "$1" = run ] && echo "write failed" >&2 && exit 7\nexec {program} "$@"\n')
    failing.chmod(0o755)
    with pytest.raises(errors.MapError, match="key 0{63}1: the program ended with status 7: write failed"):
        biqsolur.map(STUDY, 1, lambda bundle: 1, program=failing)


def test_a_process_that_dies_is_told(program):
    with pytest.raises(errors.MapError, match="a process ended before its answer was there"):
        biqsolur.map(STUDY, 2, lambda bundle: os.kill(os.getpid(), signal.SIGKILL), 2, program=program)


def test_answers_of_two_kinds_are_refused(program):
    with pytest.raises(errors.MapError, match="a value and numbers by name"):
        mapping.frame_of([1, 2], [3, {"a": 4}])


@pytest.mark.parametrize("given, said", [
    (0, "a number from 1 on"), ([], "a number from 1 on"), ("f" * 64, "a list of keys"), ([True], "True is neither"),
    ([-1], "-1 is neither"), ([1 << 256], "is neither"), (["F" * 64], "lower-case"), ([1, "0" * 63 + "1"], "twice")])
def test_keys_that_are_none(given, said):
    with pytest.raises(errors.KeysError, match=re.escape(said)):
        biqsolur.map(STUDY, given, len)


def test_processes_that_are_none():
    with pytest.raises(errors.MapError, match="processes = 0"):
        biqsolur.map(STUDY, 1, len, 0)


def test_the_text_of_a_key():
    """The study says the same but for its key; also where its comments have the digits that mark the key's place."""
    study = small_study()
    for text in (study.to_text(), f"# {keys.MARK}\n{study.to_text()}"):
        keyed = keys.KeyedText(biqsolur.Study(text))
        assert biqsolur.Study(keyed.of("e" * 64)).to_dict() == {**study.to_dict(), "key": "e" * 64}


INTERRUPTED = """
import os, pathlib, signal, sys, time
import biqsolur
signal.signal(signal.SIGINT, signal.default_int_handler)    # which a shell's job in the background has not
def wait(bundle):
    pathlib.Path(sys.argv[1], f"{os.getpid()}.here").touch()
    time.sleep(10_000)
biqsolur.map(sys.argv[2], 4, wait, 2, program=sys.argv[3])
"""


def wait_until(condition):
    """Waits for a condition, for two minutes at most."""
    end = time.monotonic() + PATIENCE
    while not condition():
        assert time.monotonic() < end, "this never came"
        time.sleep(0.05)


def is_there(process):
    """Whether a process is there, and no mere entry of one that ended."""
    try:
        return Path(f"/proc/{process}/stat").read_text().rsplit(")", 1)[1].split()[0] != "Z"
    except (FileNotFoundError, ProcessLookupError):
        return False


@pytest.mark.parametrize("number", [signal.SIGINT, signal.SIGKILL])
def test_an_interrupt_leaves_no_process(program, tmp_path, number):
    """Also where the one that maps is killed outright."""
    going = subprocess.Popen([sys.executable, "-c", INTERRUPTED, str(tmp_path), str(STUDY), program],
                             env={**os.environ, "PYTHONPATH": str(HOME / "python")}, stderr=subprocess.DEVNULL)
    try:
        wait_until(lambda: len(list(tmp_path.glob("*.here"))) == 2 or going.poll() is not None)
        workers = [int(path.stem) for path in tmp_path.glob("*.here")]
        assert len(workers) == 2
        going.send_signal(number)
        going.wait(PATIENCE)
        wait_until(lambda: not any(map(is_there, workers)))
    finally:
        going.kill()
        going.wait()
