"""The page of a report: one HTML file that refers to nothing outside itself."""

from __future__ import annotations

import base64
import gzip
import html
import json
from importlib import resources
from pathlib import PurePath

from biqsolur import report_tables as tables
from biqsolur.bundle import Bundle
from biqsolur.errors import InputError
from biqsolur.report_data import BranchData, bundle_data, page_data, time_text
from biqsolur.report_study import study_of_bundle
from biqsolur.study import Study
from biqsolur.wording import agent_names

POLICY = ("default-src 'none'; script-src 'unsafe-inline'; style-src 'unsafe-inline'; img-src data: blob:; "
          "base-uri 'none'; form-action 'none'")

FIGURES = [
    ("mid", "Mid price", "Half of best bid and best ask of the displayed book. No hidden order is in this picture, nor "
     "in the next two. A line breaks off where a side of the book is empty. A branch is drawn from where it leaves its "
     "parent. ▲ is the first event that differs from the parent. A branch none of whose events differs is dotted, so "
     "that its parent is seen. Dashed in black is the fundamental value, where the study is known. Where at most 400 "
     "trades are in sight they are marked: a triangle up where the order that came bought."),
    ("spread", "Spread", "Best ask less best bid."),
    ("depth", "Depth by level", "Shares displayed at the best five prices of each side, the best one nearest to zero: "
     "asks above, bids below. The first branch is filled; of the second one level 1 and all five together are lines."),
    ("volume", "Traded volume", "Shares of all trades up to that time, those with hidden orders too."),
    ("fees", "Fees", "Fees of both sides of all these trades. Below zero the venue has paid."),
]


def plotly_script() -> tuple[str, str]:
    """Plotly's script and its version, as the installed package has it."""
    try:
        from plotly.offline import get_plotlyjs, get_plotlyjs_version
    except ImportError:
        raise InputError("a report needs plotly (Debian: python3-plotly; else: pip install plotly)") from None
    return get_plotlyjs(), get_plotlyjs_version()


def packed(text: str) -> str:
    """A text as base64 of its gzip, the same for the same text."""
    return base64.b64encode(gzip.compress(text.encode(), 9, mtime=0)).decode()


def data_script(data: dict) -> str:
    """Data as JSON that cannot end its script element."""
    return json.dumps(data, separators=(",", ":")).replace("<", "\\u003c")


def own_file(name: str) -> str:
    """A file of the page that lies beside this module."""
    return resources.files("biqsolur").joinpath("report_files", name).read_text("utf-8")


def figure(name: str, title: str, said: str) -> str:
    """A place for a picture with what it shows."""
    return (f'<figure id="figure-{name}"><h3>{html.escape(title)}</h3><div class="plot" id="plot-{name}" role="img" '
            f'aria-label="{html.escape(title, quote=True)}: the numbers are in the tables below"></div>'
            f"<figcaption>{html.escape(said)}</figcaption></figure>")


def stock_section(branches: list[BranchData], stock: int, symbol: str) -> str:
    """The tables of one stock."""
    instants = tables.instants_of(branches)
    depths = "".join(tables.depth_table(data, number, stock, instants) for number, data in enumerate(branches))
    return (f'<section class="stock" data-stock="{stock}"><h3>{html.escape(symbol)}</h3>'
            + tables.against_parent_table(branches, stock) + tables.spreads_table(branches, stock)
            + tables.over_time_table(branches, stock, symbol)
            + f"<details><summary>{html.escape(symbol)}: depth by level over time</summary>{depths}</details>"
            + "</section>")


def origin_text(bundle: Bundle, study: Study | None) -> str:
    """Where the bundle comes from: the record of its run, or that there is none."""
    record = bundle.provenance
    key = "" if study is None else f"Key {study.to_dict()['key']}. "
    if record is not None:
        return key + "; ".join(f"{name}: {text}" for name, text in record.lines()) + "."
    if study is not None:
        return key + "No record of its run stands beside the bundle."
    return ("No record of its run stands beside the bundle, so agents are numbers and edits are kinds: give the study "
            "by --study.")


def page_text(bundle: Bundle, study: Study | None = None) -> str:
    """The whole page. `study`: of the bundle, where no record of it stands beside it."""
    known = study_of_bundle(bundle, study)
    branches = bundle_data(bundle, known)
    if not branches:
        raise InputError(f"{bundle.path}: there is no branch, so nothing to report")
    names = agent_names(known) if known is not None else None
    data = page_data(bundle, branches, names)
    script, version = plotly_script()
    name = PurePath(bundle.path).name
    stocks = ", ".join(bundle.symbols)
    said = (f"{len(branches)} branch{'es' if len(branches) > 1 else ''} of a market in {stocks} with "
            f"{bundle.agents - 1:,} agents, from {time_text(data['begin'], 0)} to {time_text(data['end'], 0)}.")
    figures = "".join(figure(*words) for words in FIGURES)
    figures += figure("cash", "Cash at the end", "Settled cash of each agent, fees included.")
    figures += figure("position", "Position at the end", "Settled shares of each agent.")
    sections = "".join(stock_section(branches, stock, symbol) for stock, symbol in enumerate(bundle.symbols))
    body = own_file("page.html")
    parts = {
        "POLICY": html.escape(POLICY, quote=True), "TITLE": html.escape(name), "STYLE": own_file("page.css"),
        "SAID": html.escape(said), "ORIGIN": html.escape(origin_text(bundle, known)), "FIGURES": figures,
        "BRANCHES": tables.branches_table(branches), "DIFFERENCES": tables.differences_table(branches),
        "EDITS": tables.edits_table(branches), "KINDS": tables.kinds_table(branches),
        "STOCKS": sections, "AGENTS": tables.agents_table(branches, bundle.symbols, names), "DATA": data_script(data),
        "VERSION": html.escape(version), "PLOTLY": packed(script), "SCRIPT": own_file("page.js"),
    }
    pieces = body.split("@@")
    return "".join(parts[piece] if place % 2 else piece for place, piece in enumerate(pieces))
