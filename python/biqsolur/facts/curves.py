"""What the pictures of facts show: for each tape some curves over abscissae that all tapes share."""

from __future__ import annotations

from typing import Any

import numpy

from biqsolur.facts import flow, returns
from biqsolur.facts.catalogue import Subject
from biqsolur.facts.tape import Tape

HORIZONS = (1, 2, 5, 10, 20, 30, 60)            # seconds
PARTS = numpy.array([0.5, 0.25, 0.1, 0.05, 0.025, 0.01, 0.005, 0.0025, 0.001])
SPREADS = numpy.arange(0.0, 10.5, 0.5)          # basis points
TIMES = numpy.logspace(-3, 3, 25)               # seconds


def curves_of(tape: Tape) -> dict[str, list[float]]:
    """The curves of a tape, by name: a list of numbers each, not-a-number where there is none."""
    subject = Subject(tape)
    with numpy.errstate(all="ignore"):
        made: dict[str, Any] = {
            "kurtosis": [returns.excess_kurtosis(subject.returns(seconds)) for seconds in HORIZONS],
            "tail": tail_curve(subject.returns(1)),
            "returns": returns.autocorrelations(subject.returns(1), 30),
            "clusters": subject.clusters,
            "signs": subject.signs,
            "impact": impact_curve(subject),
            "spread": spread_curve(tape),
            "durations": beyond(flow.durations(subject.takes)),
            "lives": beyond(subject.lives.life),
        }
    return {name: [float(value) for value in curve] for name, curve in made.items()}


def tail_curve(values: numpy.ndarray) -> numpy.ndarray:
    """The absolute returns that the parts PARTS of them exceed, in standard deviations. Shape (9,)."""
    if not len(values) or not values.std() > 0:
        return numpy.full(len(PARTS), numpy.nan)
    return numpy.quantile(numpy.abs(values - values.mean()), 1 - PARTS) / values.std()


def impact_curve(subject: Subject) -> numpy.ndarray:
    """Mean size (shares) of ten groups of orders, and then their mean impact (basis points). Shape (20,)."""
    size, impact = flow.impact_by_size(subject.takes)
    return numpy.concatenate([size, impact * 10_000]) if len(size) else numpy.full(20, numpy.nan)


def spread_curve(tape: Tape) -> numpy.ndarray:
    """The part of the time in which the spread is at least so many basis points as SPREADS says. Shape (21,)."""
    rows, lengths = flow.held(tape)
    if not len(rows):
        return numpy.full(len(SPREADS), numpy.nan)
    spread = (tape.ask[rows] - tape.bid[rows]) / tape.mid[rows] * 10_000
    return numpy.array([lengths[spread >= least].sum() for least in SPREADS]) / lengths.sum()


def beyond(seconds: numpy.ndarray) -> numpy.ndarray:
    """The part of these times that are longer than each of TIMES. Shape (25,)."""
    if not len(seconds):
        return numpy.full(len(TIMES), numpy.nan)
    return 1 - numpy.searchsorted(numpy.sort(seconds), TIMES, side="right") / len(seconds)
