"""docs/ANALYSIS.md: each of its blocks is run, section by section, and prints what the page says that it prints."""

import contextlib
import io
import math
import os
import re
import shlex
import shutil
import subprocess

import pytest
from conftest import PACKAGE, ROOT

from biqsolur.__main__ import main

pytest.importorskip("matplotlib", reason="matplotlib is not installed (Debian: python3-matplotlib)")
pytest.importorskip("scipy", reason="scipy is not installed (Debian: python3-scipy)")
pytest.importorskip("cryptography", reason="cryptography is not installed (Debian: python3-cryptography)")
pytest.importorskip("dpkt", reason="dpkt is not installed (Debian: python3-dpkt)")
pytest.importorskip("tqdm", reason="tqdm is not installed (Debian: python3-tqdm)")
pytest.importorskip("plotly", reason="plotly is not installed (Debian: python3-plotly)")
PAGE = (ROOT / "docs/ANALYSIS.md").read_text()
SWEEPS = "Many keys and many values"
BLOCK = re.compile(r"^```(\w+)\n(.*?)^```$", re.MULTILINE | re.DOTALL)
# What an indented line is: an installation, or a command for another machine's queue.
NOT_RUN = ("pip install ", "apt-get install ", "export PYTHONPATH=", "snakemake --snakefile sweep/Snakefile "
           "--configfile sweep/ticks.yaml --profile ")


def sections():
    """(title, its blocks as pairs of kind and text) of each section of the page."""
    for section in PAGE.split("\n## ")[1:]:
        yield section.split("\n", 1)[0], BLOCK.findall(section)


def same(said, printed):
    """Whether two outputs are the same, whatever spaces stand between words and whatever digits a number ends with."""
    left, right = said.split(), printed.split()
    return len(left) == len(right) and all(one == other or close(one, other) for one, other in zip(left, right))


def close(one, other):
    try:
        return math.isclose(float(one), float(other), rel_tol=1e-9)
    except ValueError:
        return False


class Reader:
    """Does what a reader of the page does, in one folder and one Python."""

    def __init__(self, folder, program):
        self.folder, self.program, self.names, self.printed = folder, program, {"__name__": "page"}, ""

    def do(self, kind, text):
        {"python": self.python, "text": self.text, "yaml": self.yaml, "sh": self.shell}[kind](text)

    def python(self, text):
        out = io.StringIO()
        with contextlib.redirect_stdout(out):
            exec(compile(text, "docs/ANALYSIS.md", "exec"), self.names)
        self.printed = out.getvalue()

    def text(self, text):
        assert same(text, self.printed), f"the page says\n{text}and it prints\n{self.printed}"

    def yaml(self, text):
        (self.folder / "ticks.yaml").write_text(text)

    def shell(self, text):
        for line in text.splitlines():
            words = shlex.split(line)
            if words[0] == "./abides":
                assert words[-2] == ">"
                with open(words[-1], "xb") as file:
                    subprocess.run([self.program, *words[1:-2]], stdout=file, check=True)
            elif words[:3] == ["python3", "-m", "biqsolur"]:
                assert main(words[3:]) == 0, line
            else:
                assert words[0] == "snakemake"
                subprocess.run(words, check=True, capture_output=True, env={**os.environ, "PYTHONPATH": str(PACKAGE)})


@pytest.fixture
def reader(tmp_path, monkeypatch, program):
    """A folder that has what the checkout has, and is not it."""
    monkeypatch.chdir(tmp_path)
    monkeypatch.setenv("MPLBACKEND", "Agg")
    shutil.copytree(ROOT / "examples", "examples")
    os.symlink(ROOT / "sweep", "sweep")
    return Reader(tmp_path, program)


def test_the_page_does_what_it_says(reader):
    done = [reader.do(kind, text) for title, blocks in sections() if title != SWEEPS for kind, text in blocks]
    assert len(done) > 20
    for name in ("spread.png", "halted.toml", "halted.bundle", "halted.bundle.run.json", "tick_size.html",
                 "mid_and_value.svg", "tick_size_csv/wide/trades.csv", "wide.itch", "wide_lobster/ABM_message_10.csv",
                 "wide.pcap"):
        assert (reader.folder / name).stat().st_size > 0
    figure = (reader.folder / "spread.png").read_bytes()
    assert figure.startswith(b"\x89PNG") and len(figure) > 5_000


@pytest.mark.skipif(shutil.which("snakemake") is None, reason="snakemake is not installed (Debian: snakemake)")
def test_the_sweep_of_the_page(reader):
    blocks = dict(sections())[SWEEPS]
    assert [kind for kind, _ in blocks] == ["yaml", "sh", "python", "text"]
    for kind, text in blocks:
        reader.do(kind, text)


def test_no_command_stands_outside_the_blocks():
    """Lines that are shown and not run are installations."""
    outside = BLOCK.sub("", PAGE)
    shown = [line.strip() for line in outside.splitlines() if line.startswith("    ")]
    assert shown and all(line.startswith(NOT_RUN) for line in shown)
    assert outside.count("```") == 0


def test_the_first_figure_takes_fifteen_lines():
    title, blocks = list(sections())[1]
    assert title == "A figure with an interval"
    assert sum(bool(line.strip()) for line in blocks[0][1].splitlines()) <= 15


def test_names_and_links_are_there():
    """Each name of the package that the page writes is one, and each file that it links to; each error has its name
    there."""
    import biqsolur
    from biqsolur import errors
    for name, found in vars(errors).items():
        if isinstance(found, type) and issubclass(found, errors.InputError):
            assert getattr(biqsolur, name) is found
    for name in set(re.findall(r"\bbiqsolur\.(\w+)", PAGE)):
        assert hasattr(biqsolur, name), name
    for name in re.findall(r"`(\w+Error|\w+Refused)`", PAGE):
        assert issubclass(getattr(biqsolur, name), biqsolur.InputError), name
    for link in re.findall(r"\]\(([^)#]+)(?:#[^)]*)?\)", PAGE):
        assert (ROOT / "docs" / link).exists(), link
