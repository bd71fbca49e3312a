"""What a report has of a study: names, edits in words, values, and what kinds of traders earn; and the spreads of
trades."""

from __future__ import annotations

from dataclasses import dataclass, field

import numpy
import pandas

from biqsolur.bundle import Branch, Bundle
from biqsolur.measures import effective_spread, realised_spread
from biqsolur.measures.agents import profits, study_of
from biqsolur.study import Study
from biqsolur.wording import words_of_edits

HORIZON = "5s"      # of the realised spread


@dataclass(frozen=True)
class Spreads:
    """The mean effective and realised spread of a stock's trades (0.0001 dollars), equally weighted; not-a-number
    where there is none."""

    effective: float
    realised: float


@dataclass(frozen=True)
class Earned:
    """What all traders of a kind have at a branch's end: how many they are, and their money since the opening in
    millionths of a dollar: cash from trades, fees paid, and the profit with positions marked to the mid and to the
    value."""

    kind: str
    count: int
    cash: int
    fees: int
    at_mid: int
    at_value: int


@dataclass
class Told:
    """What a study tells of a branch. edits: the words of each edit, as `branch.edits` has them. values: of each
    stock its times (ns) and values (four implied decimals). earned: a row a kind."""

    edits: list[str]
    values: list[tuple[numpy.ndarray, numpy.ndarray]] = field(default_factory=list)
    earned: list[Earned] = field(default_factory=list)


def study_of_bundle(bundle: Bundle, study: Study | None) -> Study | None:
    """The study of a bundle: the given one, else the one of its record. StudyNeededError where it is another
    bundle's."""
    known = study if study is not None else bundle.study
    branch = next(iter(bundle.branches.values()), None)
    return None if known is None or branch is None else study_of(branch, known, "a report")


def told_of(branch: Branch, study: Study | None) -> Told | None:
    """What the study tells of a branch; None where it isn't known."""
    if study is None:
        return None
    words, edits = words_of_edits(study), branch.edits
    names = [words.get(place, kind) for place, kind in zip(zip(edits.branch, edits["index"]), edits.kind)]
    frames = [branch.value(symbol, study) for symbol in branch.symbols]
    return Told(names, [(frame.time.to_numpy(), frame.value.to_numpy()) for frame in frames], earned_of(branch, study))


def earned_of(branch: Branch, study: Study) -> list[Earned]:
    """What the traders of each kind have earned, in the order of the study's kinds."""
    at_mid, at_value = profits(branch, study, mark="mid"), profits(branch, study, mark="value")
    rows = []
    for kind in dict.fromkeys(at_mid.kind):
        own = numpy.flatnonzero(at_mid.kind == kind)
        rows.append(Earned(kind, len(own), *(total(column.iloc[own]) for column in (
            at_mid.cash, at_mid.fees, at_mid.profit, at_value.profit))))
    return rows


def total(column: pandas.Series) -> int:
    """The exact sum of whole numbers, however long they are."""
    return sum(int(value) for value in column)


def spreads_of(branch: Branch, after: int) -> list[Spreads]:
    """The spreads of each stock behind an event."""
    result = []
    for stock, symbol in enumerate(branch.symbols):
        numbers = {**effective_spread(branch, after=after, stock=stock),
                   **realised_spread(branch, horizon=HORIZON, after=after, stock=stock)}
        ending = f".{symbol}" if len(branch.symbols) > 1 else ""
        result.append(Spreads(numbers[f"effective_spread{ending}"], numbers[f"realised_spread{ending}"]))
    return result
