"""The command line."""

import subprocess
import sys

import pytest
from conftest import PACKAGE, ROOT

import biqsolur


@pytest.fixture(scope="module")
def folder(program, tmp_path_factory):
    """A folder with the bundle of an example."""
    folder = tmp_path_factory.mktemp("commands")
    study = str(ROOT / "examples" / "tick_size.toml")
    (folder / "tick.bundle").write_bytes(subprocess.run([program, "run", study], capture_output=True, check=True).stdout)
    return folder


def run(folder, *words):
    answer = subprocess.run([sys.executable, "-m", "biqsolur", *words], cwd=folder, capture_output=True, text=True,
                            env={"PYTHONPATH": str(PACKAGE)})
    return answer.returncode, answer.stdout, answer.stderr


def test_files_are_written(folder):
    assert run(folder, "csv", "tick.bundle", "-o", "frames") == (0, "", "")
    assert run(folder, "itch", "tick.bundle", "wide", "-o", "wide.itch") == (0, "", "")
    assert run(folder, "lobster", "tick.bundle", "wide", "-o", "wide", "--levels", "2") == (0, "", "")
    bundle = biqsolur.read(folder / "tick.bundle")
    assert sorted(path.name for path in (folder / "frames").iterdir()) == ["root", "same", "wide"]
    biqsolur.to_itch(folder / "again.itch", bundle.branches["wide"])
    assert (folder / "again.itch").read_bytes() == (folder / "wide.itch").read_bytes()
    assert sorted(path.name for path in (folder / "wide").iterdir()) == ["ABM_message_2.csv", "ABM_orderbook_2.csv"]


@pytest.mark.parametrize("words, said", [
    (["csv", "nothing", "-o", "out"], "nothing"),
    (["csv", "tick.bundle", "-o", "."], "is there already"),
    (["itch", "tick.bundle", "wider", "-o", "x"], "no branch 'wider'; there are root, wide, same"),
    (["itch", "tick.bundle", "wide", "-o", "tick.bundle"], "is there already"),
    (["lobster", "tick.bundle", "wide", "-o", "x", "--levels", "0"], "at least one level"),
    (["csv", "text", "-o", "out"], "text: at byte 0: cut"),
])
def test_what_is_wrong_is_one_line(folder, words, said):
    (folder / "text").write_text("this is no bundle")
    status, out, error = run(folder, *words)
    assert (status, out) == (1, "") and error.startswith("biqsolur: ") and error.count("\n") == 1 and said in error


def test_wrong_words(folder):
    for words in ([], ["nothing"], ["csv", "tick.bundle"], ["lobster", "tick.bundle", "wide", "-o", "x", "--levels", "many"]):
        status, out, error = run(folder, *words)
        assert (status, out) == (2, "") and "usage: python3 -m biqsolur" in error
