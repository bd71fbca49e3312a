"""Pictures for a paper: `python3 -m biqsolur figure BUNDLE --measure mid --branches root,wide -o mid.pdf`.

Drawn by matplotlib as SVG, PDF or PNG: axes in units, the branches as lines, and below them what study, key and
version the picture is of. The same bundle makes the same bytes with the same matplotlib. Texts of an SVG stay texts.
"""

from __future__ import annotations

import io
import os
from collections.abc import Container, Sequence
from dataclasses import dataclass
from pathlib import Path
from typing import Any

import numpy

from biqsolur.bundle import Branch, Bundle, read
from biqsolur.errors import FigureError, StudyError
from biqsolur.output import refuse_existing, write_new
from biqsolur.report_series import LEVELS, StockSeries, stock_series, thin
from biqsolur.study import Study
from biqsolur.times import nanoseconds

SECOND = 1_000_000_000
FORMATS = (".svg", ".pdf", ".png")
CELLS = 200             # of time, that a long series is thinned to: each keeps its extremes
WIDTH, HEIGHT = 7.0, 3.4        # inches
ROOT_STYLE = {"color": "#8b949e", "linewidth": 2.6}
COLOURS = ["#0072b2", "#d55e00", "#009e73", "#cc79a7", "#e69f00", "#56b4e9", "#7a5195"]
DASHES = ["solid", "dashed", "dotted", "dashdot"]
# Seconds between two ticks.
STEPS = [1, 2, 5, 10, 15, 20, 30, 60, 120, 300, 600, 900, 1200, 1800, 3600, 7200, 14400]
SETTINGS = {"svg.hashsalt": "biqsolur", "svg.fonttype": "none", "pdf.fonttype": 42, "font.family": "sans-serif",
            "font.sans-serif": ["DejaVu Sans"], "font.size": 9,
            "axes.spines.top": False, "axes.spines.right": False, "axes.edgecolor": "#8b949e", "axes.grid": True,
            "grid.color": "#e6e9ed", "path.simplify": False}


@dataclass(frozen=True)
class Picture:
    """What a measure looks like: the axis with its unit, what the caption calls it, whether the axis begins at 0, and
    whether its numbers are whole ones."""

    axis: str
    words: str
    from_zero: bool
    whole: bool = False


PICTURES = {
    "mid": Picture("Mid price, dollars", "Mid price", False),
    "spread": Picture("Spread, cents", "Best ask less best bid", True),
    "depth": Picture("Shares displayed", f"Shares displayed at the best {LEVELS} prices of both sides", True, True),
    "volume": Picture("Shares traded", "Shares traded up to a time", True, True),
    "fees": Picture("Fees, dollars", "Fees of both sides of all trades up to a time", False),
}


@dataclass(frozen=True)
class Line:
    """A step of a picture: times (ns past midnight) and values (in the axis' unit), each shape (n,)."""

    name: str
    times: numpy.ndarray
    values: numpy.ndarray


def figure(source: Bundle | str | os.PathLike[str], measure: str = "mid", branches: Sequence[str] | None = None, *,
           stock: str | None = None, begin: object = None, end: object = None,
           study: Study | str | os.PathLike[str] | None = None) -> Any:
    """A matplotlib Figure of one measure of a bundle's branches over time.

    source: a Bundle, or a path: of a bundle, or of a study (TOML), which is then run. measure: one of PICTURES.
    branches: names, all where nothing is said; each is drawn from where it leaves the nearest branch in the picture
    that it comes from, else from the opening. stock: a symbol, the first where nothing is said. begin, end: times of
    day. study: what the bundle is of, where no record stands beside it; then the caption names it, and a picture of
    the mid price has the fundamental value.

    FigureError where there is no such measure or stock, or nothing is between begin and end; UnknownBranchError.
    """
    made, known, name = opened(source, study)
    if measure not in PICTURES:
        raise FigureError(f"no picture of {measure!r}; there are {', '.join(PICTURES)}")
    symbol = made.symbols[0] if stock is None else stock
    if symbol not in made.symbols:
        raise FigureError(f"no stock {symbol!r}; there are {', '.join(made.symbols)}")
    chosen = [made.branches[name] for name in (branches or list(made.branches))]
    series = {branch.name: series_of(branch, made.symbols.index(symbol)) for branch in chosen}
    span = span_of(series, begin, end)
    lines = [line_of(branch, series[branch.name], measure, series, span) for branch in chosen]
    if measure == "mid" and known is not None:
        lines += value_lines(chosen, symbol, known, span)
    words = caption(made, known, name, PICTURES[measure], symbol)
    return drawn(lines, PICTURES[measure], words, span, list(made.branches), forks_of(chosen, series))


def opened(source: Bundle | str | os.PathLike[str],
           study: Study | str | os.PathLike[str] | None) -> tuple[Bundle, Study | None, str]:
    """The bundle, its study where that is known, and what a caption calls it."""
    name, known = "", None
    if isinstance(study, Study):
        known = study
    elif study is not None:
        name, known = f"Study {Path(study).name}", Study.read(study)
    if not isinstance(source, Bundle) and Path(source).suffix == ".toml":
        from biqsolur.running import run
        made = Study.read(source)
        return run(made), made, f"Study {Path(source).name}"
    bundle = source if isinstance(source, Bundle) else read(Path(source))
    return bundle, known or bundle.study, name or f"Bundle {Path(str(bundle.path)).name}"


def series_of(branch: Branch, stock: int) -> StockSeries:
    """The series of one stock in a branch; the data frames are given up again."""
    feed = branch.feed
    closing = int(branch.counts["time"])
    begin = int(feed.time.iat[0]) if len(feed) else closing
    made = stock_series(branch.book(LEVELS), branch.trades, stock, begin, closing)
    branch.forget()
    return made


def span_of(series: dict[str, StockSeries], begin: object, end: object) -> tuple[int, int]:
    """From when to when the picture is, in nanoseconds past midnight."""
    span = (min(one.begin for one in series.values()) if begin is None else nanoseconds(begin),
            max(one.end for one in series.values()) if end is None else nanoseconds(end))
    if span[0] >= span[1]:
        raise FigureError(f"the picture would end at {clock(span[1])} and begin at {clock(span[0])}: choose a begin "
                          "before the end")
    return span


def line_of(branch: Branch, own: StockSeries, measure: str, drawn_too: Container[str],
            span: tuple[int, int]) -> Line:
    """The line of a branch."""
    times, values = column(own, measure)
    leaving = leaving_time(branch, own, drawn_too)
    begin = span[0] if leaving is None else max(span[0], leaving)
    return cut(branch.name, times, values, (begin, min(span[1], own.end)))


def column(own: StockSeries, measure: str) -> tuple[numpy.ndarray, numpy.ndarray]:
    """The times and values of a measure, in the unit of its axis."""
    if measure in ("volume", "fees"):
        values = own.volume if measure == "volume" else own.trade_fees / 1e6
        return numpy.append(own.begin, own.trade_times), numpy.append(0, values).astype(float)
    values = {"mid": own.mid_twice / 20_000, "spread": own.spread / 100,
              "depth": (own.bid_shares.sum(axis=1) + own.ask_shares.sum(axis=1)).astype(float)}[measure]
    return own.times, values


def cut(name: str, times: numpy.ndarray, values: numpy.ndarray, span: tuple[int, int]) -> Line:
    """A step between two times, thinned: the value that holds at the first of them stands there."""
    first = max(0, int(numpy.searchsorted(times, span[0], side="right")) - 1)
    last = int(numpy.searchsorted(times, span[1], side="right"))
    times, values = numpy.maximum(times[first:last], span[0]), values[first:last]
    rows = thin(times, values, [values], CELLS, span)
    times, values = times[rows], values[rows]
    if len(times):
        times, values = numpy.append(times, span[1]), numpy.append(values, values[-1])
    return Line(name, times, values)


def leaving_time(branch: Branch, own: StockSeries, drawn_too: Container[str]) -> int | None:
    """When a branch leaves the nearest drawn one of those that it comes from: the time (ns) of the last event that they
    share. None where none of them is drawn."""
    shared = len(branch.events)
    while branch.parent is not None:
        shared = min(shared, branch.fork)
        branch, events = branch.bundle.branches[branch.parent], branch.events
        if branch.name in drawn_too:
            return int(events.time.iat[shared - 1]) if shared else own.begin
    return None


def forks_of(branches: list[Branch], series: dict[str, StockSeries]) -> list[int]:
    """The times at which drawn branches leave drawn ones."""
    found = {leaving_time(branch, series[branch.name], series) for branch in branches}
    return sorted(time for time in found if time is not None)


def value_lines(branches: list[Branch], symbol: str, study: Study, span: tuple[int, int]) -> list[Line]:
    """The fundamental value, of each branch in which it is another one than in those before."""
    lines: list[Line] = []
    for branch in branches:
        try:
            frame = branch.value(symbol, study)
        except StudyError:
            return []
        name = f"value in {branch.name}" if lines else "value"
        made = cut(name, frame.time.to_numpy(), frame.value_dollars.to_numpy(), span)
        if all(len(made.times) != len(line.times) or not numpy.array_equal(made.values, line.values) for line in lines):
            lines.append(made)
    return lines


# ------------------------------------------------------------ drawing


def caption(bundle: Bundle, study: Study | None, name: str, picture: Picture, symbol: str) -> str:
    """What the picture is of: stock, study, key and version."""
    words = f"{picture.words}, {symbol}. {name}, "
    version = (Path(__file__).parent / "VERSION").read_text().strip()
    if study is None:
        return words + f"without a record of its study; drawn by Biqsolur {version}."
    record = bundle.provenance
    return words + f"key {short_key(str(study.to_dict()['key']))}; Biqsolur {record.version if record else version}."


def short_key(key: str) -> str:
    """A key without its leading zeros; the middle of a long one is left out."""
    digits = key.lstrip("0") or "0"
    return digits if len(digits) <= 16 else f"{digits[:6]}…{digits[-6:]}"


def clock(time: int) -> str:
    """A time of day, as short as it is exact."""
    seconds, part = divmod(int(time), SECOND)
    text = f"{seconds // 3600}:{seconds // 60 % 60:02d}:{seconds % 60:02d}"
    return text + (f".{part:09d}".rstrip("0") if part else "")


def drawn(lines: list[Line], picture: Picture, words: str, span: tuple[int, int], order: list[str],
          forks: list[int]) -> Any:
    """The Figure."""
    import matplotlib
    from matplotlib.figure import Figure
    with matplotlib.rc_context(SETTINGS):
        made = Figure(figsize=(WIDTH, HEIGHT))
        axes = made.add_axes((0.12, 0.2, 0.83, 0.7))
        for fork in forks:
            axes.axvline((fork - span[0]) / SECOND, color="#8b949e", linewidth=0.8, linestyle="dotted", gid="fork")
        for line in lines:
            axes.step((line.times - span[0]) / SECOND, line.values, where="post", label=line.name,
                      gid=f"line {line.name}", **style_of(line.name, order))
        finished(axes, picture, span)
        made.text(0.12, 0.02, words, fontsize=7.5, color="#57606a", gid="caption")
    return made


def style_of(name: str, order: list[str]) -> dict[str, Any]:
    """The colour and width of a line, the same in all pictures of a bundle."""
    if name not in order:
        return {"color": "#1b1f24", "linewidth": 0.9, "linestyle": "dashed"}
    place = order.index(name)
    if place == 0:
        return ROOT_STYLE
    return {"color": COLOURS[(place - 1) % len(COLOURS)], "linewidth": 1.4,
            "linestyle": DASHES[(place - 1) // len(COLOURS) % len(DASHES)]}


def finished(axes: Any, picture: Picture, span: tuple[int, int]) -> None:
    """Axes with units, ticks at whole times of day, and a legend above."""
    from matplotlib.ticker import FixedLocator, FuncFormatter, MaxNLocator, StrMethodFormatter
    length = (span[1] - span[0]) / SECOND
    axes.set_xlim(0, length)
    if length >= 8:
        step = next((one for one in STEPS if length / one <= 8), STEPS[-1])
        first = -(-span[0] // (step * SECOND)) * step * SECOND
        ticks = numpy.arange(first, span[1] + 1, step * SECOND)
        axes.xaxis.set_major_locator(FixedLocator((ticks - span[0]) / SECOND))
        axes.xaxis.set_major_formatter(FuncFormatter(lambda value, place: clock(span[0] + round(value * SECOND))))
        axes.set_xlabel("Time of day")
    else:
        axes.xaxis.set_major_locator(MaxNLocator(8))
        axes.set_xlabel(f"Seconds after {clock(span[0])}")
    axes.set_ylabel(picture.axis)
    axes.yaxis.set_major_locator(MaxNLocator(6))
    if picture.whole:
        axes.yaxis.set_major_formatter(StrMethodFormatter("{x:,.0f}"))
    else:
        axes.yaxis.get_major_formatter().set_useOffset(False)
    if picture.from_zero:
        axes.set_ylim(bottom=0)
    axes.legend(loc="lower left", bbox_to_anchor=(0, 1), ncols=6, frameon=False, borderaxespad=0.2)


def write_figure(source: Bundle | str | os.PathLike[str], output: str | os.PathLike[str], measure: str = "mid",
                 branches: Sequence[str] | None = None, **settings: Any) -> None:
    """Draws `figure(source, measure, branches, ...)` and writes it to a file that is not there yet, whole or not at
    all. The format is the ending's: .svg, .pdf or .png."""
    import matplotlib
    path = Path(output)
    if path.suffix.lower() not in FORMATS:
        raise FigureError(f"{path}: a picture's file ends in {', '.join(FORMATS)}")
    refuse_existing(path)
    made = figure(source, measure, branches, **settings)
    without_date = {".svg": {"Date": None}, ".pdf": {"CreationDate": None}, ".png": {}}[path.suffix.lower()]
    data = io.BytesIO()
    with matplotlib.rc_context(SETTINGS):
        made.savefig(data, format=path.suffix.lower()[1:], metadata=without_date, dpi=200)
    write_new(path, data.getvalue())
