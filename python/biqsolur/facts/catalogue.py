"""The twelve facts: what each measures on a tape, the range that the literature reports, and where.

The ranges are of liquid US stocks, where not said otherwise, and are cited as they were recalled: look a number up
before you quote it. Where a paper gives a direction and no number, the range is this package's, and its source says
so.
"""

from __future__ import annotations

from collections.abc import Callable
from dataclasses import dataclass
from functools import cached_property

import numpy

from biqsolur.facts import flow, returns
from biqsolur.facts.flow import Lives, Takes
from biqsolur.facts.tape import Tape

QUICK = 2.0                 # seconds within which a canceled order counts as short-lived


class Subject:
    """A tape with what several numbers are made of, each computed once."""

    def __init__(self, tape: Tape) -> None:
        self.tape = tape
        self._returns: dict[int, numpy.ndarray] = {}

    def returns(self, seconds: int) -> numpy.ndarray:
        """The returns over so many seconds."""
        if seconds not in self._returns:
            self._returns[seconds] = returns.returns(self.tape, seconds)
        return self._returns[seconds]

    @cached_property
    def takes(self) -> Takes:
        """The orders that took from the book."""
        return flow.takes(self.tape)

    @cached_property
    def lives(self) -> Lives:
        """The orders that came to rest."""
        return flow.lives(self.tape)

    @cached_property
    def clusters(self) -> numpy.ndarray:
        """Autocorrelations of absolute ten-second returns at the lags 1 to 30. Shape (30,)."""
        return returns.autocorrelations(numpy.abs(self.returns(10)), 30)

    @cached_property
    def signs(self) -> numpy.ndarray:
        """Autocorrelations of the signs of orders that took, at the lags 1 to 50 orders. Shape (50,)."""
        return returns.autocorrelations(self.takes.sign.astype(float), 50)


@dataclass(frozen=True)
class Number:
    """One number of a fact: its name, what it is in words, its unit (empty where it has none), the range that is
    reported (both ends belong to it), and how it is measured."""

    name: str
    words: str
    unit: str
    low: float
    high: float
    measure: Callable[[Subject], float]


@dataclass(frozen=True)
class Fact:
    """A fact that markets show: its name, a title, its numbers, all of which have to be in their ranges, its source."""

    name: str
    title: str
    numbers: tuple[Number, ...]
    source: str


def decline(subject: Subject) -> float:
    """The excess kurtosis over a minute as a part of that over a second."""
    short = returns.excess_kurtosis(subject.returns(1))
    return returns.excess_kurtosis(subject.returns(60)) / short if short > 0 else float("nan")


def tails_ratio(subject: Subject) -> float:
    """The 95th percentile of ten-second returns over the absolute 5th one."""
    values = subject.returns(10)
    low, high = numpy.quantile(values, [0.05, 0.95]) if len(values) else (0.0, 0.0)
    return float(high / -low) if low < 0 else float("nan")


def volume_and_volatility(subject: Subject) -> float:
    """The correlation of shares traded and absolute return over ten seconds."""
    return returns.correlation(numpy.abs(subject.returns(10)), returns.volumes(subject.tape, 10).astype(float))


def mean_spread(subject: Subject) -> float:
    """The mean over time of ask less bid, as a part of the mid price, in basis points."""
    tape = subject.tape
    rows, lengths = flow.held(tape)
    if not len(rows):
        return float("nan")
    spread = (tape.ask[rows] - tape.bid[rows]) / tape.mid[rows]
    return float((spread * lengths).sum() / lengths.sum() * 10_000)


def depth_dispersion(subject: Subject) -> float:
    """Standard deviation over mean, over time and both sides, of the shares at the best price."""
    tape = subject.tape
    rows, lengths = flow.held(tape)
    if not len(rows):
        return float("nan")
    shares = numpy.concatenate([tape.bid_shares[rows], tape.ask_shares[rows]]).astype(float)
    weights = numpy.concatenate([lengths, lengths]) / (2 * lengths.sum())
    mean = (shares * weights).sum()
    return float(((shares - mean)**2 * weights).sum()**0.5 / mean)


def canceled_part(subject: Subject) -> float:
    """Of the orders that came to rest and ended, the part that a cancel ended."""
    canceled = subject.lives.canceled
    return float(canceled.mean()) if len(canceled) else float("nan")


def quick_cancels(subject: Subject) -> float:
    """Of the orders that a cancel ended, the part that it ended within two seconds."""
    life = subject.lives.life[subject.lives.canceled]
    return float((life < QUICK).mean()) if len(life) else float("nan")


def skewed_lives(subject: Subject) -> float:
    """The mean life of the orders that ended over the median one."""
    life = subject.lives.life
    middle = float(numpy.median(life)) if len(life) else 0.0
    return float(life.mean() / middle) if middle > 0 else float("nan")


def mean_of(values: numpy.ndarray) -> float:
    """The mean; not-a-number where one is missing."""
    return float(values.mean())


FACTS = (
    Fact("heavy_tails", "Heavy tails", (
        Number("kurtosis_1s", "excess kurtosis of one-second returns", "", 3, 100,
               lambda of: returns.excess_kurtosis(of.returns(1))),
        Number("hill_1s", "Hill index of the greatest twentieth of absolute one-second returns", "", 2, 5,
               lambda of: returns.hill_index(of.returns(1)))),
        "Cont 2001: tail index above 2 and below 5, excess kurtosis of five-minute returns from 16 to 74; Gopikrishnan "
        "and others 1998: index near 3. The range of the kurtosis begins at 3 by this package's choice."),
    Fact("tails_decline", "Tails decline with the horizon", (
        Number("kurtosis_60s_part", "excess kurtosis of one-minute returns as a part of that of one-second ones", "",
               -0.5, 0.5, decline),),
        "Cont 2001 (aggregational Gaussianity) gives a direction; that at most half is left is this package's."),
    Fact("no_autocorrelation", "No linear autocorrelation beyond the first lags", (
        Number("returns_5_to_20s",
               "greatest absolute autocorrelation of one-second returns at the lags of 5 to 20 seconds", "", 0, 0.1,
               lambda of: float(numpy.abs(returns.autocorrelations(of.returns(1), 20)[4:]).max())),
        Number("returns_60s", "autocorrelation of one-minute returns at the first lag", "", -0.15, 0.15,
               lambda of: float(returns.autocorrelations(of.returns(60), 1)[0]))),
        "Cont 2001: none beyond some minutes, and small negative ones at the first lags; the numbers are this "
        "package's."),
    Fact("volatility_clusters", "Volatility comes in clusters", (
        Number("absolute_10s", "autocorrelation of absolute ten-second returns at the first lag", "", 0.1, 0.5,
               lambda of: float(of.clusters[0])),
        Number("absolute_60_to_100s", "mean of those at the lags of 60 to 100 seconds", "", 0.02, 0.4,
               lambda of: mean_of(of.clusters[5:10]))),
        "Cont 2001 and Liu and others 1999: positive, decaying slowly, as a power of the lag with an exponent from 0.2 "
        "to 0.4."),
    Fact("symmetry", "Gains and losses alike within the day", (
        Number("skewness_10s", "skewness of ten-second returns", "", -0.5, 0.5,
               lambda of: returns.skewness(of.returns(10))),
        Number("percentiles_10s", "their 95th percentile over the absolute 5th one", "", 0.8, 1.25, tails_ratio)),
        "Plerou and others 1999: the two tails of intraday returns of US stocks have nearly the same exponent; the "
        "asymmetry of Cont 2001 is that of days and of indices. The numbers are this package's."),
    Fact("volume_and_volatility", "Volume and volatility go together", (
        Number("volume_10s", "correlation of shares traded and absolute return over ten seconds", "", 0.1, 0.8,
               volume_and_volatility),),
        "Karpoff 1987 and Cont 2001: positive; the numbers are this package's."),
    Fact("order_flow", "The signs of orders are persistent", (
        Number("signs_1", "autocorrelation of the signs of orders that take, at the first lag", "", 0.1, 0.7,
               lambda of: float(of.signs[0])),
        Number("signs_10", "that at lag 10", "", 0.03, 0.5, lambda of: float(of.signs[9]))),
        "Lillo and Farmer 2004, Bouchaud and others 2004, Toth and others 2015: positive, decaying as a power of the "
        "lag with an exponent near 0.5."),
    Fact("impact", "Impact is concave in the size", (
        Number("impact_exponent", "slope of log mean immediate impact on log size executed", "", 0.1, 0.7,
               lambda of: flow.impact_exponent(of.takes)),),
        "Lillo, Farmer and Mantegna 2003: 0.2 to 0.5; Bouchaud, Farmer and Lillo 2009: 0.1 to 0.3 and more."),
    Fact("spread_and_depth", "Spread and depth", (
        Number("spread", "mean spread over time", "basis points", 1, 5, mean_spread),
        Number("depth_dispersion", "standard deviation over mean of the shares at the best prices", "", 0.7, 2,
               depth_dispersion)),
        "Angel, Harris and Spatt 2015: a few basis points in large stocks; Bouchaud, Mezard and Potters 2002: depth at "
        "the best price follows a gamma law of an exponent near 0.7 to 0.8, that is a dispersion near 1.15."),
    Fact("durations", "Times between trades are overdispersed", (
        Number("duration_dispersion", "standard deviation over mean of the times between orders that take", "", 1.1, 4,
               lambda of: flow.dispersion(flow.durations(of.takes))),),
        "Engle and Russell 1998: above 1, near 1.3 in IBM; Ivanov and others 2004: as a Weibull law of a shape near "
        "0.7, 1.5."),
    Fact("cancellations", "Most orders are canceled", (
        Number("canceled", "part of the orders that ended which a cancel ended", "", 0.8, 0.995, canceled_part),),
        "Hasbrouck and Saar 2009: 93 per cent at INET in 2004; Hautsch and Huang 2012: above 95 per cent at Nasdaq."),
    Fact("lifetimes", "Most orders live briefly, and some for long", (
        Number("canceled_within_2s", "part of the canceled orders that go within two seconds", "", 0.2, 0.8,
               quick_cancels),
        Number("life_mean_over_median", "mean life of the orders that ended over the median one", "", 2, 1000,
               skewed_lives)),
        "Hasbrouck and Saar 2009: 37 per cent of all limit orders; Challet and Stinchcombe 2003: lives follow a power "
        "law. That the mean is twice the median or more is this package's."),
)

NUMBERS = {number.name: number for fact in FACTS for number in fact.numbers}


def numbers_of(tape: Tape) -> dict[str, float]:
    """Each number of each fact, by name; not-a-number where the tape has too little for it."""
    subject = Subject(tape)
    with numpy.errstate(all="ignore"):
        return {name: plain(number.measure(subject)) for name, number in NUMBERS.items()}


def plain(value: float) -> float:
    """A number of Python's, with nine significant digits: all that processors agree on."""
    return float(f"{value:.9g}")
