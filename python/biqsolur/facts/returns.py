"""What returns of the mid price are like: how their tails, their memory and their signs are measured.

A return is the difference of the logarithms of the mid price at two instants that are a horizon apart, on a grid of
whole seconds from the first two-sided book on.
"""

from __future__ import annotations

import numpy

from biqsolur.facts.tape import EXECUTED, HIDDEN, SECOND, Tape

TAIL = 0.05                 # the part of the returns that counts as their tail


def returns(tape: Tape, seconds: int) -> numpy.ndarray:
    """The returns of the mid price over so many seconds, that do not overlap. Shape (n,), no unit."""
    instants = tape.instants(seconds * SECOND)
    if len(instants) < 2:
        return numpy.zeros(0)
    return numpy.diff(numpy.log(tape.mid[tape.at(instants)]))


def excess_kurtosis(values: numpy.ndarray) -> float:
    """The fourth central moment over the squared variance, less 3; 0 for a normal law. Not-a-number where all are
    equal."""
    centred = values - values.mean() if len(values) else values
    variance = float((centred**2).mean()) if len(values) else 0.0
    return float((centred**4).mean() / variance**2 - 3) if variance > 0 else float("nan")


def skewness(values: numpy.ndarray) -> float:
    """The third central moment over the variance to the power 3/2. Not-a-number where all are equal."""
    centred = values - values.mean() if len(values) else values
    variance = float((centred**2).mean()) if len(values) else 0.0
    return float((centred**3).mean() / variance**1.5) if variance > 0 else float("nan")


def hill_index(values: numpy.ndarray, tail: float = TAIL) -> float:
    """Hill's (1975) estimate of the tail's exponent: k over the sum of log(x_i / x_(k+1)) of the k greatest values,
    where k is the part `tail` of all. Not-a-number where fewer than ten values stand in the tail or it is flat."""
    ordered = numpy.sort(numpy.abs(values))[::-1]
    count = int(len(ordered) * tail)
    if count < 10 or ordered[count] <= 0:
        return float("nan")
    total = float(numpy.log(ordered[:count] / ordered[count]).sum())
    return count / total if total > 0 else float("nan")


def autocorrelations(values: numpy.ndarray, most: int) -> numpy.ndarray:
    """The autocorrelations at the lags 1 to `most`: the sum of the products of values (less their mean) a lag apart,
    over the sum of all squares (Box and Jenkins 1976). Shape (most,); not-a-number where a lag has no pair or all
    values are equal."""
    out = numpy.full(most, numpy.nan)
    if len(values) < 2:
        return out
    centred = values - values.mean()
    square = float((centred**2).sum())
    if square > 0:
        for lag in range(1, min(most, len(values) - 1) + 1):
            out[lag - 1] = float((centred[lag:] * centred[:-lag]).sum()) / square
    return out


def correlation(first: numpy.ndarray, second: numpy.ndarray) -> float:
    """Pearson's correlation; not-a-number where one of both is constant."""
    if len(first) < 2 or not first.std() > 0 or not second.std() > 0:
        return float("nan")
    return float(numpy.corrcoef(first, second)[0, 1])


def volumes(tape: Tape, seconds: int) -> numpy.ndarray:
    """The shares that traded in each interval of `returns`, its end included. Shape (n,)."""
    instants = tape.instants(seconds * SECOND)
    traded = numpy.where((tape.kind == EXECUTED) | (tape.kind == HIDDEN), tape.shares, 0).astype(numpy.int64)
    until = numpy.append(0, numpy.cumsum(traded))[tape.at(instants) + 1] if len(instants) else instants
    return numpy.diff(until)
