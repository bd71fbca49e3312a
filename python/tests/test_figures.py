"""Pictures for papers: what they draw against the bundle's own frames; the docs' pictures; what is refused."""

import re
import xml.etree.ElementTree as xml
from pathlib import Path

import numpy
import pytest

import biqsolur
from biqsolur import errors, figures
from biqsolur.__main__ import main

HOME = Path(__file__).resolve().parents[2]
NUMBER = re.compile(r"-?\d+(?:\.\d+)?")


@pytest.fixture(scope="module")
def bundle(program):
    """A market of three thousand events whose branch has a wider tick, and a branch of that."""
    study = biqsolur.Study(HOME / "examples" / "tick_size.toml").with_("events", 3000).with_("branch.wide.at", 900)
    study = study.without_branch("same")
    study = study.branch("late", parent="wide", after=2000, edits=[biqsolur.SeriesOffset("ABM", 500)])
    return biqsolur.run(study)


def held(frame, times, column):
    """The value of a column that holds at each time, not-a-number before the first: by going through the rows."""
    values = []
    for time in times:
        before = frame[frame.time <= time]
        values.append(float(before[column].iloc[-1]) if len(before) else float("nan"))
    return numpy.array(values)


def expected(branch, measure, times):
    """What a measure is at these times, from the branch's frames, by another way than the picture's."""
    if measure in ("volume", "fees"):
        column = {"volume": "shares", "fees": "fees"}[measure]
        trades = branch.trades
        unit = 1 if measure == "volume" else 1e6
        return numpy.array([trades[trades.time <= time][column].sum() for time in times]) / unit
    book = branch.book(5)
    if measure == "depth":
        sides = [f"{side}_shares_{level}" for side in ("bid", "ask") for level in range(1, 6)]
        return held(book.assign(all=book[sides].sum(axis=1)), times, "all")
    top = branch.top()
    known = (top.bid > 0) & (top.ask > 0)
    value = (top.bid + top.ask) / 20_000 if measure == "mid" else (top.ask - top.bid) / 100
    return held(top.assign(value=value.where(known)), times, "value")


@pytest.mark.parametrize("measure", figures.PICTURES)
def test_lines_are_the_bundles(bundle, measure):
    """At each point of each line the value is that of the branch, and a branch begins where it leaves a drawn
    parent."""
    made = figures.figure(bundle, measure, begin="9:30:00")
    axes, = made.axes
    origin = 34_200 * 10**9
    lines = {line.get_label(): line for line in axes.lines if line.get_gid() != "fork"}
    assert [name for name in lines if not name.startswith("value")] == ["root", "wide", "late"]
    for name, branch in bundle.branches.items():
        x, y = lines[name].get_data()
        times = numpy.round(numpy.asarray(x, float) * 1e9).astype(numpy.int64) + origin
        inside = times[:-1]                     # the last point only carries the line to the end
        numpy.testing.assert_allclose(numpy.asarray(y, float)[:-1], expected(branch, measure, inside), rtol=1e-9)
        if branch.parent:
            assert abs(times[0] - branch.events.time.iat[branch.fork - 1]) <= 1
    assert len(lines["root"].get_xdata()) > 10 and axes.get_ylabel() == figures.PICTURES[measure].axis


def test_a_branch_without_its_parent_is_drawn_from_the_opening(bundle):
    axes, = figures.figure(bundle, "volume", ["late"]).axes
    line, = axes.lines
    x, y = line.get_data()
    assert x[0] == 0 and y[0] == 0 and y[-1] == bundle.branches["late"].trades.shares.sum()


def test_a_branch_whose_parent_is_not_drawn_leaves_its_parents_parent(bundle):
    axes, = figures.figure(bundle, "volume", ["root", "late"]).axes
    line = next(line for line in axes.lines if line.get_label() == "late")
    leaving = bundle.branches["wide"].events.time.iat[bundle.branches["wide"].fork - 1] / 1e9 - 34_200
    assert line.get_xdata()[0] == pytest.approx(leaving, abs=1e-8)


def test_the_value_is_in_the_picture_of_the_mid(bundle):
    """Once where branches share it, and again where an edit moves it."""
    axes, = figures.figure(bundle, "mid").axes
    names = [line.get_label() for line in axes.lines if line.get_gid() != "fork"]
    assert names == ["root", "wide", "late", "value", "value in late"]
    values = {line.get_label(): line for line in axes.lines}
    frame = bundle.branches["root"].value("ABM")
    x, y = values["value"].get_data()
    times = numpy.round(numpy.asarray(x, float) * 1e9).astype(numpy.int64) + 34_200 * 10**9
    numpy.testing.assert_allclose(numpy.asarray(y, float), held(frame, times, "value_dollars"), rtol=1e-12)


def test_the_caption_names_study_key_and_version(bundle, tmp_path):
    def words(source, **more):
        return figures.figure(source, **more).texts[0].get_text()

    version = (HOME / "python" / "biqsolur" / "VERSION").read_text().strip()
    assert words(bundle, measure="spread").endswith(f", key a5; Biqsolur {version}.")
    alone = tmp_path / "alone.bundle"
    alone.write_bytes(Path(bundle.path).read_bytes())
    assert words(alone).endswith(f"Bundle alone.bundle, without a record of its study; drawn by Biqsolur {version}.")
    bundle.study.write(tmp_path / "mine.toml")
    assert "Study mine.toml, key a5" in words(alone, study=tmp_path / "mine.toml")
    assert figures.short_key("0" * 64) == "0" and figures.short_key("f" * 64) == "ffffff…ffffff"


def test_a_stretch_of_time(bundle):
    """Only what is between begin and end is drawn; the value that holds at the begin stands there."""
    axes, = figures.figure(bundle, "volume", ["root"], begin="9:30:10", end="9:30:12.5").axes
    x, y = axes.lines[0].get_data()
    trades = bundle.branches["root"].trades
    assert axes.get_xlim() == (0, 2.5) and x[0] == 0 and x[-1] == 2.5
    assert y[0] == trades[trades.time <= 34_210 * 10**9].shares.sum()
    assert y[-1] == trades[trades.time <= 34_212_500_000_000].shares.sum()


@pytest.mark.parametrize("ending", ["svg", "pdf", "png"])
def test_the_same_bytes_each_time(bundle, tmp_path, ending):
    for name in ("one", "two"):
        biqsolur.write_figure(bundle, tmp_path / f"{name}.{ending}", "spread")
    data = (tmp_path / f"one.{ending}").read_bytes()
    assert data == (tmp_path / f"two.{ending}").read_bytes()
    assert data.startswith({"svg": b"<?xml", "pdf": b"%PDF", "png": b"\x89PNG"}[ending])


def test_what_is_refused(bundle, tmp_path, capsys):
    for settings, error, said in (
            ({"measure": "med"}, errors.FigureError, "no picture of 'med'; there are mid, spread, depth, volume, fees"),
            ({"stock": "XYZ"}, errors.FigureError, "no stock 'XYZ'; there are ABM"),
            ({"branches": ["nowhere"]}, errors.UnknownBranchError, "no branch 'nowhere'"),
            ({"begin": "9:31", "end": "9:30"}, errors.FigureError, "choose a begin before the end"),
            ({"begin": "soon"}, errors.TimeError, "soon")):
        with pytest.raises(error, match=re.escape(said)):
            biqsolur.write_figure(bundle, tmp_path / "none.svg", **settings)
    with pytest.raises(errors.FigureError, match="a picture's file ends in .svg, .pdf, .png"):
        biqsolur.write_figure(bundle, tmp_path / "none.gif")
    assert list(tmp_path.iterdir()) == []
    (tmp_path / "there.svg").write_text("mine")
    assert main(["figure", str(bundle.path), "-o", str(tmp_path / "there.svg")]) == 1
    assert "is there already" in capsys.readouterr().err and (tmp_path / "there.svg").read_text() == "mine"


def drawn(path):
    """What a picture draws, whatever its fonts: of each line and mark its numbers, and all texts without the
    version."""
    root = xml.parse(path).getroot()
    own = "{http://www.w3.org/2000/svg}"
    paths = {group.get("id"): [float(number) for part in group.iter(f"{own}path")
                               for number in NUMBER.findall(part.get("d"))]
             for group in root.iter(f"{own}g") if re.match("line |fork", group.get("id") or "")}
    texts = sorted(re.sub(r"Biqsolur \d+(\.\d+)*", "Biqsolur", text.text) for text in root.iter(f"{own}text"))
    return paths, texts


PAGES = ["README.md", *sorted(str(path.relative_to(HOME)) for path in (HOME / "docs").glob("*.md"))]
PICTURE = re.compile(r"!\[[^\]]+\]\(((?:docs/)?pictures/([^)]+\.svg))\)")


def shown():
    """Of each picture in a page: the page, its link, its name, and the command that stands on the page for it."""
    for page in PAGES:
        text = (HOME / page).read_text()
        for link, name in PICTURE.findall(text):
            commands = re.findall(rf"^ *python3 -m biqsolur (figure .* -o {re.escape(name)})$", text, re.M)
            yield page, link, name, commands[0] if commands else ""


SHOWN = list(shown())


@pytest.mark.parametrize("page, link, name, words", SHOWN, ids=[f"{one[0]}-{one[2]}" for one in SHOWN])
def test_a_picture_of_the_docs_is_what_its_command_draws(page, link, name, words, tmp_path, monkeypatch, program):
    monkeypatch.chdir(HOME)
    there = (HOME / page).parent / link
    *command, flag, output = words.split()
    assert flag == "-o" and output == name
    assert main([*command, "-o", str(tmp_path / name)]) == 0
    paths, texts = drawn(tmp_path / name)
    kept_paths, kept_texts = drawn(there)
    assert texts == kept_texts and list(paths) == list(kept_paths) and sum(map(len, paths.values())) > 20
    for part, numbers in paths.items():
        assert numbers == pytest.approx(kept_paths[part], abs=0.1)


def test_each_picture_of_the_docs_is_shown_with_its_command():
    names = {name for _, _, name, words in SHOWN if words}
    assert names == {path.name for path in (HOME / "docs" / "pictures").glob("*.svg")} and len(names) >= 3
    for page in PAGES:
        assert len(re.findall(r"pictures/[^)]+\.svg\)", (HOME / page).read_text())) == sum(page == one[0] for one in SHOWN), page
