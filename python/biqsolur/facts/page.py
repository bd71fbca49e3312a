"""The facts as one HTML page of pictures, which refers to nothing outside itself."""

from __future__ import annotations

import html
from pathlib import Path
from typing import Any

import numpy

from biqsolur.facts.catalogue import FACTS
from biqsolur.facts.curves import HORIZONS, PARTS, SPREADS, TIMES
from biqsolur.facts.judgement import Facts, short
from biqsolur.output import write_new

POLICY = "default-src 'none'; script-src 'unsafe-inline'; style-src 'unsafe-inline'; img-src data: blob:"
STYLE = """body { font: 16px/1.5 sans-serif; max-width: 72rem; margin: 1rem auto; padding: 0 1rem; color: #222 }
table { border-collapse: collapse; width: 100% }
th, td { text-align: left; padding: .25rem .6rem; border-bottom: 1px solid #ccc }
td.number { text-align: right; font-variant-numeric: tabular-nums }
tr.fact td { background: #f3f3f3; font-weight: bold }
.pictures { display: grid; grid-template-columns: repeat(auto-fit, minmax(22rem, 1fr)); gap: 1rem }
figure { margin: 0 } figure div { height: 20rem } figcaption { font-size: 90% }"""
# Name of the curve, title, abscissae, names of both axes, whether each is logarithmic, what it shows.
PICTURES: tuple[tuple[str, str, Any, str, str, bool, bool, str], ...] = (
    ("kurtosis", "Tails and horizon", HORIZONS, "seconds", "excess kurtosis", True, False,
     "Excess kurtosis of mid-price returns by horizon."),
    ("tail", "The tail of one-second returns", PARTS, "part of the returns beyond", "standard deviations", True, True,
     "The absolute return that this part of all exceeds."),
    ("returns", "Memory of returns", range(1, 31), "lag, seconds", "autocorrelation", False, False,
     "Autocorrelation of one-second returns."),
    ("clusters", "Memory of absolute returns", range(10, 310, 10), "lag, seconds", "autocorrelation", False, False,
     "Autocorrelation of absolute ten-second returns."),
    ("signs", "Memory of order signs", range(1, 51), "lag, orders", "autocorrelation", True, False,
     "Autocorrelation of the signs of the orders that take."),
    ("impact", "Impact by size", (), "shares executed", "basis points", True, True,
     "Mean change of the mid price, in the order's direction, of ten groups of orders by size."),
    ("spread", "Spread", SPREADS, "basis points", "part of the time", False, False,
     "The part of the time in which the spread is at least this."),
    ("durations", "Times between trades", TIMES, "seconds", "part that is longer", True, True,
     "Times between orders that take."),
    ("lives", "Lives of orders", TIMES, "seconds", "part that is longer", True, True,
     "From coming to rest to the end, of the orders that ended."),
)


def write_page(path: str | Path, facts: Facts) -> None:
    """Writes the page to a file that is not there yet. InputError where plotly is missing."""
    write_new(path, page_text(facts).encode())


def page_text(facts: Facts) -> str:
    """The whole page."""
    from biqsolur.report_page import data_script, plotly_script
    script, version = plotly_script()
    met = sum(facts.met.values())
    title = html.escape(f"{met} of {len(FACTS)} facts met: {facts.of}")
    places = "".join(f'<figure><h2>{html.escape(words[1])}</h2><div id="{words[0]}" role="img" '
                     f'aria-label="{html.escape(words[7], quote=True)}"></div>'
                     f"<figcaption>{html.escape(words[7])}</figcaption></figure>" for words in PICTURES)
    drawn = data_script({words[0]: picture(facts, words) for words in PICTURES})
    return f"""<!doctype html><html lang="en"><meta charset="utf-8">
<meta http-equiv="Content-Security-Policy" content="{html.escape(POLICY, quote=True)}"><title>{title}</title>
<meta name="viewport" content="width=device-width"><style>{STYLE}</style><h1>{title}</h1>
<p>Each number is the median over {len(facts.tapes)} tape{'' if len(facts.tapes) == 1 else 's'} with its interval of
95 per cent; a fact is met where the whole interval of each of its numbers lies in the range. In the pictures each tape
is a thin line and their median a thick one. Pictures by plotly.js {html.escape(version)}.</p>
{table(facts)}<div class="pictures">{places}</div>
<script>{script}</script><script>const figures = {drawn};
for (const name in figures) Plotly.newPlot(name, figures[name].data, figures[name].layout, {{responsive: true}});
</script></html>
"""


def table(facts: Facts) -> str:
    """The table of all numbers with their ranges and sources."""
    rows = []
    for fact in FACTS:
        met = "met" if facts.is_met(fact) else "not met"
        rows.append(f'<tr class="fact"><td colspan="4">{html.escape(fact.title)}<td>{met}')
        for number in fact.numbers:
            made = facts.estimate(number.name)
            interval = "none" if made.interval is None else f"{short(made.interval[0])} to {short(made.interval[1])}"
            unit = f", {number.unit}" if number.unit else ""
            rows.append(f'<tr><td>{html.escape(number.words + unit)}<td class="number">{short(made.median)}'
                        f'<td class="number">{interval}'
                        f'<td class="number">{short(made.range[0])} to {short(made.range[1])}'
                        f'<td>{"yes" if made.met else "no"}')
        rows.append(f'<tr><td colspan="5"><small>{html.escape(fact.source)}</small>')
    return ("<table><thead><tr><th>Number<th>Median<th>Interval<th>Range reported<th>In it<tbody>" + "\n".join(rows)
            + "</table>")


def picture(facts: Facts, words: tuple[Any, ...]) -> dict[str, Any]:
    """Data and layout of one picture, as plotly.js takes them."""
    name, _, abscissae, across_name, up_name, across_log, up_log, _ = words
    curves = [numpy.array(curve[name], float) for curve in facts.curves]
    halves = [(curve[:10], curve[10:]) if name == "impact" else (numpy.array(abscissae, float), curve)
              for curve in curves]
    lines = [line(x, y, "#9db8d2", 1) for x, y in halves]
    if len(halves) > 1:
        with numpy.errstate(all="ignore"):
            across, up = (numpy.median(part, axis=0) for part in zip(*halves))
        lines.append(line(across, up, "#0b3c6f", 3))
    axes = {"xaxis": axis(across_name, across_log), "yaxis": axis(up_name, up_log)}
    return {"data": lines, "layout": {**axes, "showlegend": False, "margin": {"l": 60, "r": 10, "t": 10, "b": 45}}}


def line(x: numpy.ndarray, y: numpy.ndarray, color: str, width: int) -> dict[str, Any]:
    """A line; a number that is not there is a gap."""
    plain = [[float(f"{value:.6g}") if numpy.isfinite(value) else None for value in values.tolist()]
             for values in (x, y)]
    return {"x": plain[0], "y": plain[1], "mode": "lines", "line": {"color": color, "width": width}, "hoverinfo": "x+y"}


def axis(name: str, logarithmic: bool) -> dict[str, Any]:
    """An axis with its name."""
    return {"title": {"text": name}, "type": "log" if logarithmic else "linear"}
