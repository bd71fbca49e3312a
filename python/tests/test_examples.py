"""The examples in Python: each runs from any folder, and prints what it printed when it was written.

What an example prints hangs on the program and the package alone, so another line is a change to be looked at. Add an
example by its name and its lines.
"""

import runpy
import sys

import pytest

from conftest import ROOT

EXAMPLES = ROOT / "examples"
MOST_LINES = 25
PRINTED = {
    "twap_against_block.py": [
        "block: 1000 shares, 2.81 cents a share above the middle of 9:30:30",
        "TWAP: 1000 shares, 4.01 cents a share above the middle of 9:30:30",
    ],
    "buy_with_limits.py": [
        "limit orders: 10000 shares at 50.1396 dollars",
        "schedule: 10000 shares at 50.1222 dollars",
    ],
}


def printed(name, capsys, monkeypatch, folder):
    """What an example prints, run from another folder."""
    monkeypatch.chdir(folder)
    monkeypatch.setattr(sys, "argv", [name])
    runpy.run_path(str(EXAMPLES / name), run_name="__main__")
    return capsys.readouterr().out.splitlines()


@pytest.mark.parametrize("name", PRINTED)
def test_an_example_prints_what_it_printed(name, capsys, monkeypatch, tmp_path):
    """Line by line, and nothing is left in the folder."""
    assert printed(name, capsys, monkeypatch, tmp_path) == PRINTED[name]
    assert list(tmp_path.iterdir()) == []


@pytest.mark.parametrize("name", PRINTED)
def test_an_example_is_short(name):
    """At most so many lines, and a sentence at the top that says what it asks."""
    text = (EXAMPLES / name).read_text()
    assert len(text.splitlines()) <= MOST_LINES and text.startswith('"""')
