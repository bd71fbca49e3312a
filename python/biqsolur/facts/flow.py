"""What orders are like: signs, impact, spreads, times between trades, cancellations and lives."""

from __future__ import annotations

from dataclasses import dataclass

import numpy

from biqsolur.facts.tape import ADDED, DELETED, EXECUTED, HIDDEN, REDUCED, SECOND, Tape
from biqsolur.feed import find_references


@dataclass(frozen=True)
class Takes:
    """The orders that took from the book, in order: executions on one side at one nanosecond are one order.

    Attributes, an item an order: time (ns), sign (1 it bought, -1 it sold), shares, before and after (the mid price
    before its first execution and after its last, four implied decimals).
    """

    time: numpy.ndarray
    sign: numpy.ndarray
    shares: numpy.ndarray
    before: numpy.ndarray
    after: numpy.ndarray


def takes(tape: Tape) -> Takes:
    """The orders that took from the book. Their sign is known: it is opposite to that of the order that rested."""
    rows = numpy.flatnonzero((tape.kind == EXECUTED) | (tape.kind == HIDDEN))
    if not len(rows):
        return Takes(*(numpy.zeros(0) for _ in range(5)))
    time, sign = tape.time[rows], -tape.direction[rows].astype(numpy.int64)
    first = numpy.flatnonzero(numpy.append(True, (numpy.diff(time) != 0) | (numpy.diff(sign) != 0)))
    last = numpy.append(first[1:], len(rows)) - 1
    mid = numpy.append(numpy.nan, tape.mid)
    return Takes(time[first], sign[first], numpy.add.reduceat(tape.shares[rows], first), mid[rows[first]],
                 mid[rows[last] + 1])


def impact_by_size(orders: Takes, groups: int = 10) -> tuple[numpy.ndarray, numpy.ndarray]:
    """Mean size (shares) and mean immediate impact (the signed change of the logarithm of the mid) of the orders in
    `groups` groups of rising size, as many in each. Shape (groups,) each; empty where there are too few orders."""
    impact = orders.sign * numpy.log(orders.after / orders.before) if len(orders.time) else numpy.zeros(0)
    known = numpy.isfinite(impact)
    if known.sum() < 10 * groups:
        return numpy.zeros(0), numpy.zeros(0)
    order = numpy.argsort(orders.shares[known], kind="stable")
    parts = numpy.array_split(order, groups)
    return (numpy.array([orders.shares[known][part].mean() for part in parts]),
            numpy.array([impact[known][part].mean() for part in parts]))


def impact_exponent(orders: Takes) -> float:
    """The slope of log mean impact on log mean size over ten groups of orders by size: below 1 the impact is concave.
    Not-a-number where a group's mean impact is not positive in more than half of the groups."""
    size, impact = impact_by_size(orders)
    good = impact > 0
    if good.sum() < 6 or size[good].std() == 0:
        return float("nan")
    return float(numpy.polyfit(numpy.log(size[good]), numpy.log(impact[good]), 1)[0])


def durations(orders: Takes) -> numpy.ndarray:
    """Seconds between orders that took, of those at different nanoseconds."""
    gaps = numpy.diff(orders.time) / SECOND
    return gaps[gaps > 0]


def dispersion(values: numpy.ndarray) -> float:
    """Standard deviation over mean: 1 for an exponential law. Not-a-number where there are fewer than two."""
    return float(values.std() / values.mean()) if len(values) > 1 and values.mean() > 0 else float("nan")


@dataclass(frozen=True)
class Lives:
    """Orders that came to rest: life (seconds to the end, of those that ended), canceled (bool: by a cancel)."""

    added: int
    life: numpy.ndarray
    canceled: numpy.ndarray


def lives(tape: Tape) -> Lives:
    """How each order that came to rest ended, of those that did: its last message is a cancel or its last execution."""
    adds = numpy.flatnonzero(tape.kind == ADDED)
    changes = numpy.flatnonzero((tape.kind == DELETED) | (tape.kind == EXECUTED) | (tape.kind == REDUCED))
    place = find_references(tape.reference[changes], tape.reference[adds])
    changes, place = changes[place >= 0], place[place >= 0]
    open_shares = tape.shares[adds].astype(numpy.int64)
    numpy.subtract.at(open_shares, place, tape.shares[changes])
    last = numpy.full(len(adds), -1)
    last[place] = changes                       # the last one of each stays
    ended = (last >= 0) & (open_shares <= 0)
    life = (tape.time[last[ended]] - tape.time[adds[ended]]) / SECOND
    return Lives(len(adds), life, tape.kind[last[ended]] != EXECUTED)


def held(tape: Tape) -> tuple[numpy.ndarray, numpy.ndarray]:
    """The places of the states in which both sides have an order, and how long each held (ns), in the span."""
    begin, end = tape.span
    edges = numpy.clip(numpy.append(tape.time, end), begin, end)
    lengths = numpy.diff(edges)
    rows = numpy.flatnonzero((lengths > 0) & tape.two_sided)
    return rows, lengths[rows]
