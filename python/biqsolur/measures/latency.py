"""How long things take: from a quote to the order that answers it, and from the order to its fill."""

from __future__ import annotations

from typing import TYPE_CHECKING

import numpy
import pandas

from biqsolur import layouts
from biqsolur.measures.orders import entered, lives, median, pair_of
from biqsolur.measures.tape import event_number, named, tape_of

if TYPE_CHECKING:
    from biqsolur.bundle import Branch


def reaction_times(branch: Branch) -> pandas.DataFrame:
    """Of each order that came to the exchange, in the order of `orders.lives`, the way from quote to fill: event,
    agent, stock, quote (the event with which the agent heard the quote that the order answers; 0 where it had heard
    none, as of an order that an edit injects), quoted (when that was), arrived (at the exchange), filled (first
    executed), told (when the agent heard of that); times in ns, -1 where there is none.

    Messages are numbered in the order in which they are sent. So the quote is the last one that the agent heard while
    no message had been delivered whose number is above the order's.
    """
    return tape_of(branch).keep("reactions", make_reactions)


def make_reactions(branch: Branch) -> pandas.DataFrame:
    """The same, made."""
    frame, orders = lives(branch), entered(branch)
    quote, quoted = answered_quotes(branch, orders.agent, orders.message)
    return pandas.DataFrame({
        "event": orders.event, "agent": orders.agent, "stock": orders.stock, "quote": quote, "quoted": quoted,
        "arrived": orders.time, "filled": frame.first_fill.to_numpy(), "told": first_told(branch, frame)})


def answered_quotes(branch: Branch, agents: numpy.ndarray,
                    numbers: numpy.ndarray) -> tuple[numpy.ndarray, numpy.ndarray]:
    """For orders, by agent and number of the message, the event and the time of the quote. Behind an order's own coming
    no quote has a lower number, so it can't be one that was heard later."""
    frames, part = branch.bundle.frames, branch.part
    index = part.entries + numpy.flatnonzero(frames.kinds[part.entries:part.entries_end] == ord("e"))
    head = frames.records(index, layouts.EVENT)
    delivered = head["delivery"] != ord("P")
    sent_by = numpy.maximum.accumulate(numpy.where(delivered, head["message"], 0).astype(numpy.int64))
    heard = numpy.flatnonzero((head["body"] == ord("q")) & delivered)
    receivers = head["receiver"][heard]
    quote, quoted = numpy.zeros(len(agents), numpy.int64), numpy.full(len(agents), -1, numpy.int64)
    for agent in numpy.unique(agents):
        own, places = heard[receivers == agent], numpy.flatnonzero(agents == agent)
        last = numpy.searchsorted(sent_by[own], numbers[places], side="left") - 1
        there = last >= 0
        quote[places[there]] = head["number"][own[last[there]]]
        quoted[places[there]] = head["time"][own[last[there]]]
    return quote, quoted


def first_told(branch: Branch, frame: pandas.DataFrame) -> numpy.ndarray:
    """When the agent of each order heard of its first execution (ns), -1 where it did not."""
    executed = branch.replies[branch.replies.kind == "executed"]
    pairs = pair_of(executed.agent.to_numpy(), executed.token.to_numpy())
    told = pandas.Series(executed.time.to_numpy(), pairs).groupby(level=0).min()
    of_orders = pandas.Series(pair_of(frame.agent.to_numpy(), frame.token.to_numpy()))
    times = of_orders.map(told).fillna(-1).to_numpy(numpy.int64)
    return numpy.where((frame.fate == "ignored").to_numpy() | (frame.first_fill < 0).to_numpy(), -1, times)


def reaction_latency(branch: Branch, *, after: int = 0, stock: int | str | None = None) -> dict[str, float]:
    """How long quote, order and fill are apart: medians, in ns, over the orders that came behind the event `after`.

        quote_to_order = median(arrived_i - quoted_i)   from when the agent heard the quote that it answers to when the
                                                        order came to the exchange
        order_to_fill = median(filled_i - arrived_i)    from then to its first execution, over the executed orders (0 of
                                                        one that came and traded)
        fill_to_report = median(told_i - filled_i)      from the first execution to when the agent heard of it

    Source: after Hasbrouck and Saar (2013), who see no agents and take the time from a quote to what follows it.
    """
    numbers: dict[str, float] = {}
    frame = reaction_times(branch)
    frame = frame[frame.event > event_number(after)]
    for number in tape_of(branch).stocks(stock):
        own = frame[frame.stock == number]
        answers, filled = own[own.quote > 0], own[own.filled >= 0]
        told = filled[filled.told >= 0]
        numbers |= named(branch, number, {
            "quote_to_order": median(answers.arrived - answers.quoted),
            "order_to_fill": median(filled.filled - filled.arrived), "fill_to_report": median(told.told - told.filled)})
    return numbers
