"""The notebook runs from its first cell to its last, and says what stands in it."""

import json
import os
import sys
import tempfile
from pathlib import Path

import pytest

nbformat = pytest.importorskip("nbformat", reason="no nbformat: Debian's jupyter-nbconvert")
preprocessors = pytest.importorskip("nbconvert.preprocessors", reason="no nbconvert: Debian's jupyter-nbconvert")
pytest.importorskip("ipykernel", reason="no ipykernel: Debian's python3-ipykernel")
from traitlets.config import Config  # noqa: E402

HOME = Path(__file__).resolve().parents[2]
NOTEBOOK = HOME / "examples" / "wider_ticks.ipynb"


def said(cell):
    """The words that a cell has written and answered, however they are set."""
    if cell.cell_type != "code":
        return []
    texts = [output.get("text") or output.get("data", {}).get("text/plain", "") for output in cell.outputs
             if output.get("name") != "stderr"]
    return " ".join(texts).split()


@pytest.fixture
def kernel(program, tmp_path, monkeypatch):
    """A kernel that is this Python, spoken to by sockets in a short-named folder: no port has to be free."""
    specification = tmp_path / "jupyter" / "kernels" / "python3"
    specification.mkdir(parents=True)
    command = [sys.executable, "-m", "ipykernel_launcher", "-f", "{connection_file}"]
    said = {"argv": command, "display_name": "Python 3", "language": "python"}
    (specification / "kernel.json").write_text(json.dumps(said))
    monkeypatch.setenv("JUPYTER_PATH", str(tmp_path / "jupyter"))
    for name in ("IPYTHONDIR", "MPLCONFIGDIR", "JUPYTER_CONFIG_DIR"):
        monkeypatch.setenv(name, str(tmp_path / name))
    monkeypatch.setenv("BIQSOLUR_PROGRAM", os.environ.get("BIQSOLUR_PROGRAM", program))
    monkeypatch.setenv("PYTHONDONTWRITEBYTECODE", "1")
    with tempfile.TemporaryDirectory(prefix="nb-", dir="/tmp") as sockets:
        monkeypatch.setenv("JUPYTER_RUNTIME_DIR", sockets)
        yield Config({"KernelManager": {"transport": "ipc", "ip": f"{sockets}/kernel"}})


def test_the_notebook_says_what_stands_in_it(kernel):
    """Executed by nbconvert as it lies there, in its own folder. What it writes goes elsewhere."""
    kept = nbformat.read(NOTEBOOK, 4)
    made = nbformat.read(NOTEBOOK, 4)
    for cell in made.cells:
        if cell.cell_type == "code":
            cell.outputs = []
    execute = preprocessors.ExecutePreprocessor(timeout=600, startup_timeout=600, kernel_name="python3", config=kernel)
    execute.preprocess(made, {"metadata": {"path": str(NOTEBOOK.parent)}})
    assert [said(cell) for cell in made.cells] == [said(cell) for cell in kept.cells]
    words = " ".join(said(kept.cells[-2]))
    assert "effective_spread: 5.62 cents dearer, 95 % interval 4.83 to 6.41, over 15 keys" in words
    outputs = [output for cell in made.cells if cell.cell_type == "code" for output in cell.outputs]
    assert sum("image/png" in output.get("data", {}) for output in outputs) == 1
