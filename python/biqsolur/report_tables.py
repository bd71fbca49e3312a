"""The tables of a report, as HTML. What is of branch number N has the class `of-N`, so that it can be hidden."""

from __future__ import annotations

import html
from collections.abc import Iterable

import numpy

from biqsolur.report_data import BranchData, money_text, price_text, time_text
from biqsolur.report_series import LEVELS, StockSeries
from biqsolur.report_study import HORIZON

INSTANTS = 13       # rows of a table over time
AGENTS = 1000       # rows of the table of agents at most

ENDS = {"Closed": "closed at its time", "Quiet": "no message waited any more", "EventLimit": "limit of events",
        "QueueFull": "too many messages waited"}


def cell(text: object, classes: str = "", tag: str = "td", more: str = "") -> str:
    """One cell."""
    marked = f' class="{classes}"' if classes else ""
    return f"<{tag}{marked}{more}>{html.escape(str(text))}</{tag}>"


def table(caption: str, heads: Iterable[str], rows: Iterable[str], note: str = "") -> str:
    """A table from its rows of heads and its rows of cells; it scrolls sideways where it is too wide."""
    head = "".join(f"<tr>{row}</tr>" for row in heads)
    body = "".join(row if row.startswith("<tr") else f"<tr>{row}</tr>" for row in rows)
    below = f'<p class="note">{html.escape(note)}</p>' if note else ""
    return (f'<div class="scroll" tabindex="0" role="region" aria-label="{html.escape(caption, quote=True)}"><table>'
            f"<caption>{html.escape(caption)}</caption><thead>{head}</thead><tbody>{body}</tbody></table></div>{below}")


def head_cells(names: Iterable[str], numbers: Iterable[int] = ()) -> str:
    """A row of heads; `numbers` are the places of those over numbers."""
    right = set(numbers)
    return "".join(cell(name, "number" if place in right else "", "th", ' scope="col"')
                   for place, name in enumerate(names))


def row_head(text: object) -> str:
    """The first cell of a row."""
    return cell(text, tag="th", more=' scope="row"')


def tall_head(text: str) -> str:
    """A head over two rows."""
    return cell(text, tag="th", more=' rowspan="2" scope="col"')


def branch_heads(branches: list[BranchData], names: list[str]) -> tuple[str, str]:
    """Two rows of heads: each branch over its own columns."""
    first = second = ""
    for number, data in enumerate(branches):
        first += cell(data.name, f"of-{number} group", "th", f' colspan="{len(names)}" scope="colgroup"')
        second += "".join(cell(name, f"number of-{number}" + ("" if place else " group"), "th", ' scope="col"')
                          for place, name in enumerate(names))
    return first, second


def branches_table(branches: list[BranchData]) -> str:
    """What each branch is and how it ended."""
    rows = []
    for number, data in enumerate(branches):
        difference = data.difference
        cells = [row_head(data.name), cell(data.parent or "–"),
                 cell(f"{data.shared:,}" if data.parent else "–", "number"),
                 cell("; ".join(data.edits.words) or "–", "words" if data.told else ""),
                 cell(f"{data.counts['events']:,}", "number"), cell(time_text(data.end), "number"),
                 cell(ENDS.get(data.counts["end"], data.counts["end"]), "short"),
                 cell(f"{difference.event:,}" if difference else "none" if data.parent else "–", "number"),
                 cell(f"{data.counts['matches']:,}", "number"),
                 cell(f"{sum(int(shares) for shares in data.closing_stocks.matched):,}", "number"),
                 cell(money_text(data.fees), "number")]
        rows.append(f'<tr class="of-{number}">{"".join(cells)}</tr>')
    heads = ["Branch", "Parent", "Leaves after event", "Edits", "Events", "Last time", "How it ended",
             "First event that differs", "Trades", "Shares traded", "Fees, dollars"]
    note = ("Counts are from the opening on, so what a branch shares with its parent is in them. Fees are those of "
            "both sides together.")
    return table("The branches", [head_cells(heads, (2, 4, 5, 7, 8, 9, 10))], rows, note)


def differences_table(branches: list[BranchData]) -> str:
    """The first event of each branch that differs from its parent's, in words."""
    rows = []
    for number, data in enumerate(branches):
        if data.parent is None:
            continue
        found = data.difference
        texts = ([f"{found.event:,}", time_text(found.time), found.own, found.parents] if found
                 else ["none", "–", "all events are its parent's", "–"])
        rows.append(f'<tr class="of-{number}">{row_head(data.name)}{cell(data.parent)}'
                    f'{cell(time_text(data.fork), "number")}'
                    + "".join(cell(text, "number" if place < 2 else "words") for place, text in enumerate(texts))
                    + "</tr>")
    if not rows:
        return ""
    heads = ["Branch", "Parent", "Leaves it at", "First event that differs", "Time", "In the branch", "In its parent"]
    return table("Where branches part from their parents", [head_cells(heads, (2, 3, 4))], rows)


def edits_table(branches: list[BranchData]) -> str:
    """The edits of all branches."""
    rows = [f'<tr class="of-{number}">{row_head(data.name)}{cell(edit.words)}'
            f'{cell(f"{edit.event:,}", "number")}{cell(time_text(edit.time), "number")}</tr>'
            for number, data in enumerate(branches) for edit in data.edits.itertuples()]
    heads = ["Branch", "Edit", "Made after event", "At"]
    return table("Edits", [head_cells(heads, (2, 3))], rows) if rows else ""


def mean_text(spread: float) -> str:
    """A mean spread in cents."""
    return f"{spread / 100:.3f}" if spread == spread else "–"


def against_parent_table(branches: list[BranchData], stock: int) -> str:
    """Each branch beside its parent, in the time after it left it."""
    by_name = {data.name: data for data in branches}
    rows = []
    for number, data in enumerate(branches):
        own = data.stocks[stock]
        begin = own.begin if data.parent is None else data.fork
        columns = [own] if data.parent is None else [own, by_name[data.parent].stocks[stock]]
        spreads = [mean_text(series.mean_spread(begin)) for series in columns]
        traded = [series.traded(begin) for series in columns]
        texts = [time_text(begin)]
        for values in (spreads, [f"{shares:,}" for shares, _ in traded], [money_text(fees) for _, fees in traded]):
            texts += values if len(values) == 2 else [*values, "–"]
        rows.append(f'<tr class="of-{number}">{row_head(data.name)}{cell(data.parent or "–")}'
                    + "".join(cell(text, "number") for text in texts) + "</tr>")
    groups = ("Mean spread over time, cents", "Shares traded", "Fees, dollars")
    first = (tall_head("Branch") + tall_head("Parent") + tall_head("From")
             + "".join(cell(name, tag="th", more=' colspan="2" scope="colgroup"') for name in groups))
    return table("Each branch beside its parent, from where it left it to the end",
                 [first, head_cells(["branch", "parent"] * 3, range(6))], rows,
                 "The mean is over the time in which both sides of the displayed book have an order.")


def spreads_table(branches: list[BranchData], stock: int) -> str:
    """What trading at once cost behind the fork, and what was left of it to whoever stood in the book."""
    rows = []
    for number, data in enumerate(branches):
        own = data.spreads[stock]
        texts = []
        for column in ("effective", "realised"):
            texts.append(mean_text(getattr(own, column)))
            texts.append(mean_text(getattr(data.parents_spreads[stock], column)) if data.parents_spreads else "–")
        rows.append(f'<tr class="of-{number}">{row_head(data.name)}{cell(data.parent or "–")}'
                    + "".join(cell(text, "number") for text in texts) + "</tr>")
    groups = ("Effective spread, cents", f"Realised spread after {HORIZON}, cents")
    first = (tall_head("Branch") + tall_head("Parent")
             + "".join(cell(name, tag="th", more=' colspan="2" scope="colgroup"') for name in groups))
    note = ("Means over the trades behind the event after which the branch left its parent, of both. The effective "
            "spread is twice the distance of a trade's price from the mid before it, the realised one from the mid "
            "five seconds later: what is left to whoever stood in the book.")
    return table("Effective and realised spreads", [first, head_cells(["branch", "parent"] * 2, range(4))], rows, note)


def kinds_table(branches: list[BranchData]) -> str:
    """What traders of each kind have earned since the opening, in each branch; nothing where the study isn't known."""
    told = [data.told for data in branches if data.told is not None]
    if len(told) < len(branches):
        return ""
    names = ["cash from trades", "fees paid", "profit at the mid", "profit at the value"]
    first, second = branch_heads(branches, names)
    rows = []
    for kind in dict.fromkeys(row.kind for one in told for row in one.earned):
        found = [next((row for row in one.earned if row.kind == kind), None) for one in told]
        row = row_head(kind) + cell(next(one.count for one in found if one), "number")
        for number, one in enumerate(found):
            amounts = (one.cash, one.fees, one.at_mid, one.at_value) if one else ()
            texts = [money_text(amount) for amount in amounts] or ["–"] * len(names)
            row += "".join(cell(text, f"number of-{number}" + ("" if place else " group"))
                           for place, text in enumerate(texts))
        rows.append(row)
    note = ("Dollars since the opening. A profit is the cash from trades less the fees, with all positions marked at "
            "the end to the last mid that was there, or to the fundamental value. What the venue took in fees is what "
            "all profits at one mark add up to, below zero.")
    return table("Profit by kind of trader", [tall_head("Kind") + tall_head("Agents") + first, second], rows, note)


def instants_of(branches: list[BranchData]) -> numpy.ndarray:
    """Times from the first to the last, evenly."""
    begins = [series.begin for data in branches for series in data.stocks]
    return numpy.unique(numpy.linspace(min(begins), max(data.end for data in branches), INSTANTS).astype(numpy.int64))


def last_before(times: numpy.ndarray, values: numpy.ndarray, instants: numpy.ndarray) -> list[int]:
    """The value of a step at each instant, 0 before the first."""
    places = numpy.searchsorted(times, instants, side="right")
    return [int(values[place - 1]) if place else 0 for place in places.tolist()]


def mid_text(bid: int, ask: int) -> str:
    """Half of bid and ask in dollars, exactly."""
    return f"{(bid + ask) // 20_000}.{(bid + ask) % 20_000 * 5:05d}" if bid and ask else "–"


def quote_texts(series: StockSeries, instants: numpy.ndarray) -> list[list[str]]:
    """Of each instant bid, ask, mid, spread in cents, and the shares at all drawn levels of each side."""
    texts = []
    for state in series.at(instants).tolist():
        if state < 0:
            texts.append(["–", "–", "–", "–", "0", "0"])
            continue
        bid, ask = int(series.bid[state]), int(series.ask[state])
        spread = f"{(ask - bid) / 100:.2f}" if bid and ask else "–"
        texts.append([price_text(bid), price_text(ask), mid_text(bid, ask), spread,
                      f"{series.bid_shares[state].sum():,}", f"{series.ask_shares[state].sum():,}"])
    return texts


def over_time_table(branches: list[BranchData], stock: int, symbol: str) -> str:
    """The numbers of the pictures over time, of all branches, at some instants."""
    instants = instants_of(branches)
    heads = ["Time", "Branch", "Bid", "Ask", "Mid", "Spread, cents", "Shares bid", "Shares asked", "Traded, shares",
             "Fees, dollars"]
    columns = []
    for data in branches:
        series = data.stocks[stock]
        volume = last_before(series.trade_times, series.volume, instants)
        fees = last_before(series.trade_times, series.trade_fees, instants)
        columns.append([[*quotes, f"{shares:,}", money_text(amount)] for quotes, shares, amount
                        in zip(quote_texts(series, instants), volume, fees)])
    rows = []
    for place, instant in enumerate(instants.tolist()):
        for number, column in enumerate(columns):
            texts = "".join(cell(text, "number") for text in column[place])
            start = row_head(instant_text(instant, instants)) + cell(branches[number].name)
            rows.append(f'<tr class="of-{number}{"" if number else " block"}">{start}{texts}</tr>')
    return table(f"{symbol} over time: best prices in dollars, and what was displayed at the best {LEVELS} levels",
                 [head_cells(heads, range(2, len(heads)))], rows)


def instant_text(instant: int, instants: numpy.ndarray) -> str:
    """A time of day, to the millisecond where the whole run is longer than a second."""
    return time_text(instant, 3 if instants[-1] - instants[0] > 1_000_000_000 else 9)


def depth_table(data: BranchData, number: int, stock: int, instants: numpy.ndarray) -> str:
    """The depth of one branch by level, at some instants."""
    series = data.stocks[stock]
    rows = []
    for instant, state in zip(instants.tolist(), series.at(instants).tolist()):
        shares = ([0] * (2 * LEVELS) if state < 0 else
                  series.bid_shares[state, ::-1].tolist() + series.ask_shares[state].tolist())
        rows.append(row_head(instant_text(instant, instants))
                    + "".join(cell(f"{value:,}", "number" + (" group" if place == LEVELS else ""))
                              for place, value in enumerate(shares)))
    levels = range(1, LEVELS + 1)
    heads = head_cells(["Time", *[f"bid {level}" for level in reversed(levels)], *[f"ask {level}" for level in levels]],
                       range(1, 2 * LEVELS + 1))
    made = table(f"{data.name}: shares displayed at each level, 1 is the best", [heads], rows)
    return f'<div class="of-{number}">{made}</div>'


def agents_table(branches: list[BranchData], symbols: list[str], names_of: list[str] | None = None) -> str:
    """Each agent's cash and positions at the end of each branch. `names_of`: what agents are called, by number."""
    names = ["cash, dollars", *[f"{symbol}, shares" for symbol in symbols]]
    first, second = branch_heads(branches, names)
    agents = branches[0].agents
    rows = []
    for place, agent in enumerate(agents[:AGENTS]):
        row = row_head(names_of[agent] if names_of else agent)
        for number, data in enumerate(branches):
            row += cell(money_text(data.cash[place]), f"number of-{number} group")
            row += "".join(cell(f"{held[place]:,}".replace("-", "−"), f"number of-{number}")
                           for held in data.positions)
        rows.append(row)
    note = (f"The first {AGENTS:,} of {len(agents):,} agents; closing.agents of the package has all."
            if len(agents) > AGENTS else "")
    return table("Each agent at the end: settled cash and positions", [tall_head("Agent") + first, second], rows, note)
