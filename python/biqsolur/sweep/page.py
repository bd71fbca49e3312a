"""The page of a sweep: each measure of each point and branch with its interval, over all keys. One file, no network."""

from __future__ import annotations

import html
from pathlib import Path
from typing import Any

import numpy
import pandas

from biqsolur.report_page import packed, plotly_script
from biqsolur.sweep.plan import Plan, cell, write_whole
from biqsolur.sweep.summary import LEVEL, origin

MOST_ROWS = 5_000       # of the table; all are in summary.csv
STYLE = ("body { font: 16px/1.45 system-ui, sans-serif; margin: 2em auto; max-width: 75em; padding: 0 1em } "
         "table { border-collapse: collapse; font-size: 85% } td, th { padding: .15em .7em; text-align: right } "
         "th { border-bottom: 1px solid #888 } div.scroll { overflow-x: auto }")
START = """async function start() {
    const packed = atob(document.getElementById("plotly").textContent);
    const bytes = Uint8Array.from(packed, (letter) => letter.charCodeAt(0));
    const stream = new Blob([bytes]).stream().pipeThrough(new DecompressionStream("gzip"));
    const script = document.createElement("script");
    script.textContent = await new Response(stream).text();
    document.head.append(script);
    await Plotly.newPlot("sweep", drawn.data, drawn.layout, { displaylogo: false, responsive: true });
    document.documentElement.dataset.ready = "yes";
}
start().catch((fault) => {
    document.getElementById("sweep").textContent =
        `The pictures can't be drawn in this browser (${fault}). The table is complete.`;
});
"""
COLOURS = ["#0072b2", "#d55e00", "#009e73", "#cc79a7", "#e69f00", "#56b4e9", "#000000"]      # Okabe and Ito's


def write_summary_page(plan: Plan, frame: pandas.DataFrame, path: Path) -> None:
    """Writes the page of a summary. InputError where plotly is missing."""
    write_whole(path, page_text(plan, frame))


def page_text(plan: Plan, frame: pandas.DataFrame) -> str:
    """The whole page."""
    script, _ = plotly_script()
    title = f"Sweep of {Path(plan.study).name}: {len(plan.points):,} points, {len(plan.keys):,} keys"
    said = ("Points of the grid from left to right, branches by colour. Above is the mean over the keys, below the "
            "mean of the differences from the parent under the same key, both with their "
            f"{LEVEL:.0%} interval (Student's t).")
    drawn = figure(plan, frame).to_json().replace("<", "\\u003c")
    picture = (f'<div id="sweep"></div><script type="text/plain" id="plotly">{packed(script)}</script>'
               f'<script>const drawn = {drawn};\n{START}</script>')
    shown = frame.head(MOST_ROWS).astype({name: float for name in frame if frame[name].dtype == "Int64"})
    more = ""
    if len(shown) < len(frame):
        more = f"<p>The first {MOST_ROWS:,} of {len(frame):,} rows; summary.csv has all.</p>"
    table = shown.to_html(index=False, na_rep="–", border=0, float_format=lambda value: f"{value:,.6g}")
    title, said = html.escape(title), html.escape(said)
    from_where = html.escape("; ".join(f"{name}: {value}" for name, value in origin(plan).items()))
    return (f'<!doctype html><html lang="en"><meta charset="utf-8"><title>{title}</title><style>{STYLE}</style>'
            f'<h1>{title}</h1><p>{said}</p>{picture}<div class="scroll">{table}</div>{more}<p>{from_where}</p></html>\n')


def labels(plan: Plan) -> list[str]:
    """What each point is called under the pictures: its number, and its values."""
    return [f"{number}: " + ", ".join(map(cell, point.values.values())) if point.values else "base study"
            for number, point in enumerate(plan.points)]


def figure(plan: Plan, frame: pandas.DataFrame) -> Any:
    """The two pictures, with a menu of the measures."""
    from plotly.subplots import make_subplots
    measures = list(dict.fromkeys(frame.measure.dropna()))
    branches = list(dict.fromkeys(frame.branch.dropna()))
    made = make_subplots(2, 1, shared_xaxes=True, vertical_spacing=0.08,
                         subplot_titles=("Mean", "Difference from the parent"))
    owner = []
    for measure in measures:
        for place, branch in enumerate(branches):
            own = frame[(frame.measure == measure) & (frame.branch == branch)]
            shift = (place - (len(branches) - 1) / 2) * min(0.15, 0.6 / len(branches))
            for row, trace in traces(own, branch, shift, COLOURS[place % len(COLOURS)], measure == measures[0]):
                made.add_trace(trace, row, 1)
                owner.append(measure)
    buttons = [{"label": measure, "method": "update", "args": [{"visible": [one == measure for one in owner]}]}
               for measure in measures]
    made.update_layout(updatemenus=[{"buttons": buttons, "x": 0, "xanchor": "left", "y": 1.16, "yanchor": "top"}],
                       template="plotly_white", height=720, margin={"t": 110}, legend_title_text="Branch")
    made.update_xaxes(tickvals=list(range(len(plan.points))), ticktext=labels(plan))
    made.update_xaxes(title_text=f"Point: {', '.join(plan.paths)}" if plan.paths else "Point", row=2, col=1)
    return made


def traces(own: pandas.DataFrame, branch: str, shift: float, colour: str, shown: bool) -> list[tuple[int, Any]]:
    """The marks of one branch and measure: the means (row 1), and where it has a parent the differences (row 2).
    `shift` keeps them from those of other branches."""
    import plotly.graph_objects
    from scipy.special import stdtrit
    x = own.point.astype(int) + shift
    keys = own["keys"].to_numpy(float)
    half = stdtrit(numpy.maximum(keys - 1, 1), (1 + LEVEL) / 2) * own.standard_error.to_numpy(float)
    rows = [(1, own["mean"].to_numpy(float), half)]
    if own.difference.notna().any():
        rows.append((2, own.difference.to_numpy(float), (own.high - own.difference).to_numpy(float)))
    return [(row, plotly.graph_objects.Scatter(
        x=x, y=value, error_y={"type": "data", "array": numpy.nan_to_num(error)}, mode="markers", name=branch,
        legendgroup=branch, showlegend=row == 1, visible=shown, marker={"color": colour, "size": 9}))
        for row, value, error in rows]
