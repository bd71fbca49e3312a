"""What agents hold and earn: positions and cash over time, marked profit, and what makers earn and lose on the
spread.

Money is in millionths of a dollar: n shares at the price p (0.0001 dollars) are 100 p n. Positions and cash are the
settled ones, which change when the exchange matches; what an agent has heard of them comes later. A bundle has
neither the fees of each side nor the kinds of agents: where they are asked for, the study is given too.
"""

from __future__ import annotations

from collections.abc import Mapping
from dataclasses import dataclass
from typing import TYPE_CHECKING

import numpy
import pandas

from biqsolur.columns import exact
from biqsolur.errors import MeasureError, StudyNeededError
from biqsolur.measures.spreads import HORIZON, trade_spreads
from biqsolur.measures.tape import event_number, tape_of

if TYPE_CHECKING:
    from biqsolur.bundle import Branch
    from biqsolur.study import Study

MARKS = ("mid", "last", "value")
UNKNOWN = "unknown"             # the kind of an agent that no reply has told


def study_of(branch: Branch, study: object, wanted: str) -> Study:
    """The study of the branch: the one that is given, or the one that its bundle knows. StudyNeededError where there
    is none, or where it is another one's."""
    from biqsolur.study import Study

    bundle = branch.bundle
    known = study if study is not None else getattr(bundle, "study", None)
    if known is None:
        raise StudyNeededError(f"{wanted} needs the study, which {bundle.path} alone does not have: give study=, a "
                               "path or a Study, or make the bundle by biqsolur.run, which keeps the study")
    made = known if isinstance(known, Study) else Study(known)
    ours = (bundle.symbols, list(bundle.branches), bundle.agents)
    if (made.symbols, made.branches, len(made.traders) + 1) != ours:
        raise StudyNeededError(f"{made!r} is not the study of {bundle.path}, which has the stocks "
                               f"{', '.join(bundle.symbols)}, {bundle.agents - 1} traders and the branches "
                               f"{', '.join(bundle.branches)}")
    return made


def kinds_of(study: Study) -> dict[int, str]:
    """The kind of each agent by its number."""
    return {number: kind for number, kind, _ in study.traders} | {-1: UNKNOWN}


@dataclass
class Rates:
    """The fees of one stock over a run: from each event on the fees a share of adding and of taking (millionths)."""

    event: numpy.ndarray
    add: numpy.ndarray
    take: numpy.ndarray


def fee_rates(branch: Branch, study: Study) -> list[Rates]:
    """Of each stock its fees over the branch's run: the study's own, with the dated changes, which hold from the
    first event at or behind their time on, and the edits, which hold behind the event at which they are made, and
    before changes that come with the next one."""
    table, times = study.to_dict(), tape_of(branch).event_times
    found = {stock["symbol"]: [(0, 0, stock["add"], stock["take"])] for stock in table["stock"]}
    edits = {entry["name"]: entry.get("edit", []) for entry in table.get("branch", [])}
    made = branch.edits[branch.edits.kind == "fee"]
    for event, name, index in zip(made.event.tolist(), made.branch.tolist(), made["index"].tolist()):
        edit = edits[name][index]
        found[edit["stock"]].append((event + 1, 0, edit["add"], edit["take"]))
    for change in table.get("change", []):
        if change["kind"] == "fee":
            event = int(numpy.searchsorted(times, change["time"])) + 1
            found[change["stock"]].append((event, 1, change["add"], change["take"]))
    rates = []
    for symbol in branch.symbols:
        points = numpy.array(sorted(found[symbol], key=lambda point: point[:2]), numpy.int64)
        rates.append(Rates(points[:, 0], points[:, 2], points[:, 3]))
    return rates


def fees_of(branch: Branch, study: Study) -> tuple[numpy.ndarray, numpy.ndarray]:
    """The fees of who rested and of who came, of each trade in the order of `branch.trades` (millionths of a
    dollar)."""
    trades, rates = branch.trades, fee_rates(branch, study)
    stocks, shares, events = trades.stock.to_numpy(), trades.shares.to_numpy(), trades.event.to_numpy()
    added, taken = numpy.zeros(len(trades), numpy.int64), numpy.zeros(len(trades), numpy.int64)
    for stock, rate in enumerate(rates):
        own = numpy.flatnonzero(stocks == stock)
        place = numpy.searchsorted(rate.event, events[own], side="right") - 1
        added[own], taken[own] = rate.add[place] * shares[own], rate.take[place] * shares[own]
    return added, taken


def accounts(branch: Branch, study: object = None) -> pandas.DataFrame:
    """Each agent's side of each trade: two rows a trade, first of who came, then of who rested. Columns: event, time
    (ns), agent (-1: one whose hidden order traded, and who had not heard of it at the end), stock, shares (bought;
    below 0 where sold), price, cash (what the trade adds to the cash, without fees), position and balance (of the agent
    after the whole trade: what it holds of the stock, and what all its trades until then added to its cash; Python's
    whole numbers where 64 bits are not enough).

    With a study, also fee (what the agent pays; below 0 where it is paid).
    """
    trades = branch.trades
    sign = numpy.where((trades.side == "B").to_numpy(), 1, -1)
    columns = {name: numpy.repeat(trades[name].to_numpy(), 2) for name in ("event", "time", "stock", "price", "shares")}
    agent = numpy.column_stack([trades.aggressor.to_numpy(), trades.resting.to_numpy()]).ravel()
    shares = columns["shares"] * numpy.column_stack([sign, -sign]).ravel()
    frame = pandas.DataFrame({
        "event": columns["event"], "time": columns["time"], "agent": agent, "stock": columns["stock"], "shares": shares,
        "price": columns["price"], "cash": -100 * columns["price"] * shares})
    frame["position"] = frame.groupby(["agent", "stock"]).shares.cumsum()
    frame["balance"] = running_sums(frame.agent, frame.cash)
    # Who trades with itself holds between the two rows what it holds behind them.
    itself = 2 * numpy.flatnonzero(agent[::2] == agent[1::2])
    for name in ("position", "balance"):
        values = frame[name].to_numpy().copy()
        values[itself] = values[itself + 1]
        frame[name] = values
    if study is not None:
        added, taken = fees_of(branch, study_of(branch, study, "fee"))
        frame["fee"] = numpy.column_stack([taken, added]).ravel()
    return frame


def doubled_mark(branch: Branch, stock: int, event: int, mark: str, study: Study) -> int:
    """Twice the price at which positions of a stock are marked after an event (0.0001 dollars)."""
    steps, trades = tape_of(branch).steps[stock], tape_of(branch).trades[stock]
    if mark == "value":
        return 2 * int(branch.value_at(branch.symbols[stock], [event], study)[0])
    if mark == "mid":
        known = numpy.flatnonzero(~numpy.isnan(steps.mid[:-1]) & (steps.event <= event))
        if len(known):
            return int(steps.bid[known[-1]] + steps.ask[known[-1]])
    last = int(numpy.searchsorted(trades.event, event, side="right")) - 1
    return 2 * int(trades.price[last]) if last >= 0 else 0


def profits(branch: Branch, study: object = None, *, mark: str = "mid",
            after: int = 0) -> pandas.DataFrame:
    """What each agent has earned behind the event `after`: a row an agent, with agent, kind, cash (what its trades
    added, without fees), fees (paid), marked (what its positions are worth at the end, less what they were at the
    start) and profit = cash - fees + marked, in millionths of a dollar, Python's whole numbers.

    A position is marked at `mark`: "mid", the last mid that was there (the last trade's price where none was);
    "last", the last trade's price; or "value", the stock's fundamental value. The exchange has the fees, so all
    profits and all fees add up to 0. What no cash tells: a maker that has bought is down by what it paid until its
    shares are marked.
    """
    if mark not in MARKS:
        raise MeasureError(f"mark = {mark!r}: take one of {', '.join(MARKS)}")
    known = study_of(branch, study, "profit")
    frame, kinds = accounts(branch, known), kinds_of(known)
    agents = [*range(1, branch.bundle.agents), *([-1] if (frame.agent == -1).any() else [])]
    late = frame[frame.event > event_number(after)]
    cash, fees = exact_sums(late.agent, late.cash), exact_sums(late.agent, late.fee)
    marked = dict.fromkeys(agents, 0)
    end = len(tape_of(branch).event_times)
    for sign, event in ((-1, min(after, end)), (1, end)):
        for stock, own in frame[frame.event <= event].groupby("stock"):
            doubled = doubled_mark(branch, stock, event, mark, known)
            for agent, position in exact_sums(own.agent, own.shares).items():
                marked[agent] += sign * 50 * doubled * position
    columns = {"cash": [cash.get(agent, 0) for agent in agents], "fees": [fees.get(agent, 0) for agent in agents],
               "marked": [marked[agent] for agent in agents]}
    columns["profit"] = [flow - fee + worth for flow, fee, worth in zip(*columns.values())]
    return pandas.DataFrame({"agent": agents, "kind": [kinds[agent] for agent in agents],
                             **{name: exact(values) for name, values in columns.items()}})


def running_sums(groups: pandas.Series, values: pandas.Series) -> numpy.ndarray:
    """The sum of each group's values until each row, exact: as Python's whole numbers where one leaves 64 bits."""
    numbers = values.to_numpy()
    halves = pandas.DataFrame({"upper": numbers >> 31, "lower": numbers & 0x7FFFFFFF})
    sums = halves.groupby(groups.to_numpy()).cumsum()
    upper, lower = sums.upper.to_numpy() + (sums.lower.to_numpy() >> 31), sums.lower.to_numpy() & 0x7FFFFFFF
    if len(upper) and numpy.abs(upper).max() >= 1 << 31:
        return exact([(high << 31) + low for high, low in zip(upper.tolist(), lower.tolist())])
    return (upper << 31) + lower


def exact_sums(groups: pandas.Series, values: pandas.Series) -> dict[int, int]:
    """The sum of the values of each group, as Python's whole numbers: halves of the numbers are summed apart, so that
    no sum leaves 64 bits."""
    numbers = values.to_numpy()
    sums = pandas.DataFrame({"group": groups.to_numpy(), "upper": numbers >> 31, "lower": numbers & 0x7FFFFFFF})
    sums = sums.groupby("group").sum()
    return {int(group): (int(upper) << 31) + int(lower) for group, upper, lower in
            zip(sums.index, sums.upper, sums.lower)}


def by_kind(frame: pandas.DataFrame, kinds: Mapping[int, str], name: str, column: str) -> dict[str, float]:
    """The sums of a column over the agents of each kind that the study has."""
    numbers = {f"{name}_{kind}": 0.0 for kind in dict.fromkeys(kinds.values()) if kind != UNKNOWN}
    for kind, value in frame.groupby("kind", observed=True)[column].sum().items():
        numbers[f"{name}_{kind}"] = float(value)
    return numbers


def profit(branch: Branch, *, study: object = None, mark: str = "mid",
           after: int = 0) -> dict[str, float]:
    """The marked profit of all agents of each kind, after fees (see `profits`), as profit_KIND; profit_exchange has
    the fees of all. They add up to 0, so that profit_exchange is what the agents together have lost.

        profit = cash - fees + sum over the stocks of 100 (position m - position' m')

    with the positions and mids at the end and, with ', at the event `after`. In millionths of a dollar. Source:
    Hasbrouck and Sofianos (1993), who mark what specialists hold to the mid.
    """
    frame = profits(branch, study, mark=mark, after=after)
    kinds = kinds_of(study_of(branch, study, "profit"))
    return by_kind(frame, kinds, "profit", "profit") | {"profit_exchange": float(sum(frame.fees))}


def maker_income(branch: Branch, *, study: object = None,
                 horizon: int | str = HORIZON, after: int = 0) -> dict[str, float]:
    """What resting orders earn on the spread, and what of it they lose to those who know more, by the kind of their
    agent.

        earned_KIND = sum(50 n_i effective_i)    lost_KIND = sum(50 n_i impact_i)    kept_KIND = sum(50 n_i realised_i)

    over the trades in which an agent of the kind rested, with the spreads of `trade_spreads` at the horizon; so
    earned = lost + kept. A trade of which the later mid is not known is left out of all three. In millionths of a
    dollar, without fees. Source: Huang and Stoll (1996).
    """
    kinds = kinds_of(study_of(branch, study, "maker_income"))
    frame = trade_spreads(branch, horizon)
    frame["kind"] = branch.trades.resting.map(kinds)
    frame = frame[(frame.event > event_number(after)) & frame.realised.notna() & frame.impact.notna()]
    numbers: dict[str, float] = {}
    for name, column in (("earned", "effective"), ("lost", "impact"), ("kept", "realised")):
        numbers |= by_kind(frame.assign(money=50 * frame.shares * frame[column]), kinds, name, "money")
    return numbers


def inventory(branch: Branch, *, study: object = None,
              after: int = 0, stock: int | str | None = None) -> dict[str, float]:
    """How much agents hold: for each kind the mean over its agents of the time-weighted mean of the absolute position
    in the stock, as inventory_KIND, and the greatest absolute position of any of them, as inventory_most_KIND. In
    shares.

        inventory = mean over the agents of (1 / T) * integral of |position(t)| dt

    over the times behind the event `after`. Source: Hasbrouck and Sofianos (1993).
    """
    tape = tape_of(branch)
    kinds, window, frame = kinds_of(study_of(branch, study, "inventory")), tape.window(after), accounts(branch)
    numbers: dict[str, float] = {}
    for number in tape.stocks(stock):
        held = {kind: [] for kind in dict.fromkeys(kinds.values()) if kind != UNKNOWN}
        own = frame[frame.stock == number]
        groups = dict(tuple(own.groupby("agent")))
        for agent, kind in kinds.items():
            if kind != UNKNOWN:
                held[kind].append(held_position(groups.get(agent), window.start, window.end, after))
        for kind, pairs in held.items():
            suffix = "" if len(branch.symbols) == 1 else f".{branch.symbols[number]}"
            numbers[f"inventory_{kind}{suffix}"] = float(numpy.mean([average for average, _ in pairs]))
            numbers[f"inventory_most_{kind}{suffix}"] = float(max(most for _, most in pairs))
    return numbers


def held_position(rows: pandas.DataFrame | None, start: int, end: int, after: int) -> tuple[float, float]:
    """Of one agent in one stock the time-weighted mean and the greatest absolute position from `start` to `end`
    (ns)."""
    if rows is None:
        return 0.0, 0.0
    times = numpy.append(rows.time.to_numpy(), end)
    positions = numpy.abs(numpy.append(0, rows.position.to_numpy())).astype(float)
    bounds = numpy.clip(numpy.append(start, times), start, end)
    held = numpy.diff(bounds)
    late = int((rows.event <= after).sum())
    average = float((held * positions).sum() / (end - start)) if end > start else float(positions[-1])
    return average, float(positions[late:].max())
