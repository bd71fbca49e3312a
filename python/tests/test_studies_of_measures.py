"""The three studies of docs/MEASURES.md write what stands there."""

import runpy

import pytest
from conftest import ROOT

PAGE = (ROOT / "docs" / "MEASURES.md").read_text()


@pytest.mark.parametrize("name", ["half_a_tick", "halt_after_shock", "latency_of_makers"])
def test_a_study_writes_what_stands_on_the_page(program, monkeypatch, capsys, name):
    pytest.importorskip("scipy")
    monkeypatch.setenv("BIQSOLUR_PROGRAM", str(program))
    path = ROOT / "examples" / f"{name}.py"
    assert len(path.read_text().splitlines()) <= 25
    runpy.run_path(str(path))
    written = "".join(f"    {line}\n" for line in capsys.readouterr().out.splitlines())
    assert f"    $ PYTHONPATH=python python3 examples/{name}.py\n{written}\n" in PAGE
