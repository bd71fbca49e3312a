"""The moments that a calibration may aim at: the numbers of the facts, and plain sizes of a market, all of one tape."""

from __future__ import annotations

from collections.abc import Callable

import numpy

from biqsolur.facts import flow
from biqsolur.facts.catalogue import NUMBERS, Subject, plain
from biqsolur.facts.tape import Tape


def volatility(subject: Subject, seconds: int) -> float:
    """The standard deviation of returns over so many seconds, in basis points."""
    values = subject.returns(seconds)
    return float(values.std() * 10_000) if len(values) else float("nan")


def orders_a_minute(subject: Subject) -> float:
    """How many orders took from the book, on average a minute of the tape's span."""
    begin, end = subject.tape.span
    return len(subject.takes.time) * 60e9 / (end - begin) if end > begin else float("nan")


def shares_an_order(subject: Subject) -> float:
    """The mean number of shares that an order took."""
    return float(subject.takes.shares.mean()) if len(subject.takes.shares) else float("nan")


def depth(subject: Subject) -> float:
    """The mean over time and both sides of the shares at the best price."""
    tape = subject.tape
    rows, lengths = flow.held(tape)
    shares = (tape.bid_shares[rows] + tape.ask_shares[rows]) / 2
    return float((shares * lengths).sum() / lengths.sum()) if len(rows) else float("nan")


MOMENTS: dict[str, Callable[[Subject], float]] = {
    **{name: number.measure for name, number in NUMBERS.items()},
    "volatility_1s": lambda subject: volatility(subject, 1),
    "volatility_10s": lambda subject: volatility(subject, 10),
    "volatility_60s": lambda subject: volatility(subject, 60),
    "orders_a_minute": orders_a_minute,
    "shares_an_order": shares_an_order,
    "depth": depth,
}


def moments_of(tape: Tape, names: tuple[str, ...]) -> list[float]:
    """These moments of a tape, in order; not-a-number where the tape has too little for one."""
    subject = Subject(tape)
    with numpy.errstate(all="ignore"):
        return [plain(MOMENTS[name](subject)) for name in names]
