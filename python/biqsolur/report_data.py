"""What a report is made of: of each branch its series, its accounts and where it leaves its parent."""

from __future__ import annotations

from dataclasses import dataclass

import numpy
import pandas

from biqsolur.bundle import Branch, Bundle
from biqsolur.report_series import LEVELS, StockSeries, from_fork, stock_series, thin
from biqsolur.report_study import Spreads, Told, spreads_of, told_of
from biqsolur.study import Study

NUMBERS = 1_500_000  # about so many numbers at most are in the pictures of a page
OF_CELL = 200        # about so many numbers one cell of one stock and branch has at most, in all series together
MARKS = 60_000       # trades at most that a page has as marks, of all branches and stocks together
CELLS = (40, 400)    # the fewest and the most cells of time that a series is thinned to


@dataclass
class Difference:
    """The first event that differs from the parent: its number, its time (ns), and what it is in either."""

    event: int
    time: int
    own: str
    parents: str


@dataclass
class BranchData:
    """One branch of a report.

    shared: how many events it shares with its parent. fork: the time (ns) of the last of them. end: the time of its
    end. stocks: the series of each. difference: None where nothing differs, and for the root. cash: of each agent,
    settled, millionths of a dollar. positions: of each stock, of each agent, settled, shares. edits: its own, with
    event, time, kind and words. trades: of each stock. spreads, parents_spreads: of each stock, of the trades behind
    the fork, here and in the parent (none for the root). told: what the study tells, None where it isn't known.
    """

    name: str
    parent: str | None
    shared: int
    fork: int
    end: int
    counts: dict
    stocks: list[StockSeries]
    closing_stocks: pandas.DataFrame
    difference: Difference | None
    agents: list[int]
    cash: list[int]
    positions: list[list[int]]
    edits: pandas.DataFrame
    fees: int
    trades: list[pandas.DataFrame]
    spreads: list[Spreads]
    parents_spreads: list[Spreads]
    told: Told | None


def event_row(branch: Branch, number: int):
    """The row of an event, None where the branch has none of this number. Events are numbered from 1 without a gap."""
    events = branch.events
    place = int(numpy.searchsorted(events.number.to_numpy(), number))
    return events.iloc[place] if place < len(events) and events.number.iat[place] == number else None


def details(branch: Branch, number: int, kind: str) -> str:
    """What the message of an event says, where it is an order, a reply or a quote that was delivered."""
    frame = {"order": branch.orders, "reply": branch.replies, "quote": branch.quotes}.get(kind)
    rows = frame[frame.event == number] if frame is not None else ()
    if not len(rows):
        return ""
    row = rows.iloc[0]
    if kind == "quote":
        state = "halted" if row.state == "H" else "trading"
        return (f"{state}, bid {price_text(row.bid)} with {row.bid_shares} shares, ask {price_text(row.ask)} with "
                f"{row.ask_shares}")
    parts = [str(row.kind)]
    if row.side:
        parts.append({"B": "buy", "S": "sell"}[row.side])
    if row.shares or row.kind == "cancel":
        parts.append(f"{row.shares} shares")
    if row.price:
        parts.append(f"at {price_text(row.price)}")
    return " ".join(parts)


def event_text(branch: Branch, number: int) -> str:
    """An event in words."""
    row = event_row(branch, number)
    if row is None:
        return "no such event"
    who = [("the exchange" if agent == 0 else f"agent {agent}") for agent in (row.sender, row.receiver)]
    said = "" if row.put_back else details(branch, number, row.kind)
    back = ", put back: the receiver was busy" if row.put_back else ""
    fee = f", fees of {money_text(int(row.fee))} dollars" if row.fee else ""
    path = f"{who[0]} wakes" if row.kind == "wakeup" else f"{who[0]} to {who[1]}: {row.kind}"
    return f"{path}{', ' + said if said else ''}{fee}{back}"


def price_text(price: int) -> str:
    """A price with four implied decimals in dollars; a dash where there is none."""
    return f"{price // 10_000}.{price % 10_000:04d}" if price else "–"


def money_text(amount: int) -> str:
    """Millionths of a dollar in dollars, exactly: at least three decimals, and as many as there are."""
    whole, part = divmod(abs(amount), 1_000_000)
    decimals = f"{part:06d}".rstrip("0").ljust(3, "0")
    return f"{'−' if amount < 0 else ''}{whole:,}.{decimals}"


def time_text(time: int, decimals: int = 9) -> str:
    """A time of day; decimals of a second are cut off, not rounded."""
    seconds, part = divmod(int(time), 1_000_000_000)
    text = f"{seconds // 3600:02d}:{seconds // 60 % 60:02d}:{seconds % 60:02d}"
    return text + (f".{part:09d}"[:decimals + 1] if decimals else "")


def find_difference(bundle: Bundle, branch: Branch) -> Difference | None:
    """The first difference from the parent."""
    number = branch.first_difference
    if not number or branch.parent is None:
        return None
    parent = bundle.branches[branch.parent]
    rows = [row for row in (event_row(branch, number), event_row(parent, number)) if row is not None]
    time = min(int(row.time) for row in rows)
    return Difference(number, time, event_text(branch, number), event_text(parent, number))


def fork_time(branch: Branch, begin: int) -> int:
    """The time of the last event that the branch shares with its parent."""
    events = branch.events
    place = min(branch.fork, len(events)) - 1
    return int(events.time.iat[place]) if place >= 0 else begin


def branch_data(bundle: Bundle, branch: Branch, study: Study | None = None) -> BranchData:
    """Everything that the report says of a branch. The data frames are given up again."""
    closing, feed = branch.closing, branch.feed
    end = int(closing.counts["time"])
    begin = int(feed.time.iat[0]) if len(feed) else end
    book, trades = branch.book(LEVELS), branch.trades
    agents = closing.agents[closing.agents.agent > 0]
    fees = branch.events.fee
    told = told_of(branch, study)
    parent = None if branch.parent is None else bundle.branches[branch.parent]
    return BranchData(
        name=branch.name, parent=branch.parent, shared=branch.fork, fork=fork_time(branch, begin), end=end,
        counts=closing.counts,
        stocks=[stock_series(book, trades, stock, begin, end) for stock in range(len(bundle.symbols))],
        closing_stocks=closing.stocks, difference=find_difference(bundle, branch),
        agents=[int(agent) for agent in agents.agent], cash=[int(cash) for cash in agents.cash],
        positions=[[int(shares) for shares in agents[f"position_{symbol}"]] for symbol in bundle.symbols],
        edits=own_edits(branch, told), fees=sum(int(fee) for fee in fees[fees != 0]),
        trades=[marks(trades[trades.stock == stock], branch.fork) for stock in range(len(bundle.symbols))],
        spreads=spreads_of(branch, branch.fork),
        parents_spreads=[] if parent is None else spreads_of(parent, branch.fork),
        told=told)


def own_edits(branch: Branch, told: Told | None) -> pandas.DataFrame:
    """The edits of the branch itself, with what they are in words, or their kinds where the study isn't known."""
    edits = branch.edits
    words = list(edits.kind) if told is None else told.edits
    return edits.assign(words=words)[edits.branch == branch.name]


def marks(trades: pandas.DataFrame, fork: int) -> pandas.DataFrame:
    """The trades of one stock behind a fork: time (ns), price, shares, side."""
    return trades.loc[trades.event > fork, ["time", "price", "shares", "side"]].reset_index(drop=True)


def bundle_data(bundle: Bundle, study: Study | None = None) -> list[BranchData]:
    """The data of all branches, in the study's order."""
    result = []
    for branch in bundle.branches.values():
        result.append(branch_data(bundle, branch, study))
        parents = {other.parent for other in bundle.branches.values()}
        if branch.name not in parents:
            branch.forget()
    return result


def steps(times: numpy.ndarray) -> list[int]:
    """Times as the first one and then the steps from each to the next."""
    return numpy.diff(times, prepend=0).tolist()


def gaps(values: numpy.ndarray) -> list:
    """Whole numbers, None where one is missing."""
    return [None if value != value else int(value) for value in values.tolist()]


def picture(series: StockSeries, fork: int, cells: int) -> dict:
    """The thinned series of one branch and stock, from its fork on, as the page's script reads them."""
    span = (series.begin, series.end)
    book, trade = from_fork(series.times, fork), from_fork(series.trade_times, fork)
    times = numpy.maximum(series.times[book], fork)
    bids, asks = series.bid_shares[book], series.ask_shares[book]
    result = {}
    for name, values in (("mid", series.mid_twice[book]), ("spread", series.spread[book])):
        rows = thin(times, values, [values], cells, span)
        result[name] = [steps(times[rows]), gaps(values[rows])]
    sums = [bids.sum(axis=1), asks.sum(axis=1), bids[:, 0], asks[:, 0]]
    rows = thin(times, numpy.hstack([bids, asks]), sums, cells, span)
    result["depth"] = [steps(times[rows]), bids[rows].T.tolist(), asks[rows].T.tolist()]
    times = numpy.maximum(series.trade_times[trade], fork)
    for name, values in (("volume", series.volume[trade]), ("fees", series.trade_fees[trade])):
        rows = thin(times, values, [values], cells, span)
        result[name] = [steps(times[rows]), values[rows].tolist()]
    return result


def value_step(data: BranchData, parent: BranchData | None, stock: int, begin: int, cells: int) -> list | None:
    """The fundamental value of one stock in a branch from a time on, thinned; an empty list where it is that of the
    parent, and None where the study isn't known."""
    if data.told is None:
        return None
    times, values = data.told.values[stock]
    if parent is not None and parent.told is not None and all(
            map(numpy.array_equal, parent.told.values[stock], (times, values))):
        return []
    kept = from_fork(times, begin)
    times, values = numpy.maximum(times[kept], begin), values[kept]
    shown = times <= max(data.end, begin)
    times, values = times[shown], values[shown]
    rows = thin(times, values.astype(float), [values], cells, (begin, max(data.end, begin)))
    return [steps(times[rows]), values[rows].tolist()]


def trade_marks(trades: pandas.DataFrame, most: int) -> list | None:
    """Trades as the page's script reads them: times, prices, shares and sides; None where they are too many for the
    page."""
    if len(trades) > most:
        return None
    return [steps(trades.time.to_numpy()), trades.price.tolist(), trades.shares.tolist(), "".join(trades.side)]


def begin_of(data: BranchData, series: StockSeries) -> int:
    """From when on a branch's series are in the page."""
    return series.begin if data.parent is None else data.fork


def page_data(bundle: Bundle, branches: list[BranchData], names: list[str] | None = None) -> dict:
    """The data of the page's pictures: whole numbers alone, but for the agents' names."""
    pairs = max(1, len(branches) * len(bundle.symbols))
    cells = min(CELLS[1], max(CELLS[0], NUMBERS // (pairs * OF_CELL)))
    begin = min((series.begin for data in branches for series in data.stocks), default=0)
    by_name: dict[str | None, BranchData] = {data.name: data for data in branches}
    return {
        "symbols": bundle.symbols, "levels": LEVELS, "begin": begin, "end": max(data.end for data in branches),
        "branches": [{
            "name": data.name, "parent": data.parent, "fork": data.fork, "end": data.end,
            "difference": data.difference and {"event": data.difference.event, "time": data.difference.time},
            "cash": [round(cash / 10_000) / 100 for cash in data.cash], "positions": data.positions,
            "stocks": [{**picture(series, begin_of(data, series), cells),
                        "value": value_step(data, by_name.get(data.parent), stock, begin_of(data, series), cells),
                        "trades": trade_marks(data.trades[stock], MARKS // pairs)}
                       for stock, series in enumerate(data.stocks)],
        } for data in branches],
        "agents": branches[0].agents if branches else [],
        "names": bundle.agent_names if names is None else names,
    }
