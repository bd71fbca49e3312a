"""Facts over many tapes: each number's median, its interval, and whether that lies in the range that is reported."""

from __future__ import annotations

import json
import math
import statistics
from collections.abc import Mapping, Sequence
from dataclasses import dataclass, field
from functools import cached_property
from pathlib import Path
from typing import Any

import pandas

from biqsolur.errors import FactsError
from biqsolur.facts.catalogue import FACTS, NUMBERS, Fact, Number

CONFIDENCE = 0.95
COLUMNS = ["fact", "number", "unit", "estimate", "low", "high", "range_low", "range_high", "tapes", "met"]


def median_interval(values: Sequence[float], confidence: float = CONFIDENCE) -> tuple[float, float] | None:
    """The interval between two order statistics that has the median of the values' law with this confidence at least,
    whatever that law is; None where the values are too few for one (fewer than six at 95 per cent).

    A value that is missing (not-a-number) may be any: it counts as the least for the lower end and as the greatest
    for the upper one. Source: Thompson 1936; each end leaves out at most half of what is not covered, by the binomial
    law.
    """
    count, outside, ends = len(values), (1 - confidence) / 2, 0
    below = 0.0
    while ends < count and below + math.comb(count, ends) / 2**count <= outside:
        below += math.comb(count, ends) / 2**count
        ends += 1
    if ends == 0:
        return None
    lowest = sorted(-math.inf if math.isnan(value) else value for value in values)
    greatest = sorted(math.inf if math.isnan(value) else value for value in values)
    return lowest[ends - 1], greatest[count - ends]


def middle(values: Sequence[float]) -> float:
    """The median of the values that are there; not-a-number where none is."""
    known = [value for value in values if not math.isnan(value)]
    return statistics.median(known) if known else math.nan


@dataclass(frozen=True)
class Estimate:
    """One number over all tapes: what it is, its value on each tape, and the range that it is held against."""

    number: Number
    values: tuple[float, ...]
    range: tuple[float, float]

    @cached_property
    def median(self) -> float:
        """The median over the tapes."""
        return middle(self.values)

    @cached_property
    def interval(self) -> tuple[float, float] | None:
        """The median's interval; None for fewer than six tapes."""
        return median_interval(self.values)

    @property
    def met(self) -> bool:
        """Whether the whole interval lies in the range; where there is none, whether the median does and no tape lacks
        the number."""
        low, high = self.range
        if self.interval is None:
            return low <= self.median <= high and not any(map(math.isnan, self.values))
        return low <= self.interval[0] and self.interval[1] <= high


@dataclass(frozen=True)
class Facts:
    """The twelve facts of some tapes: of one study under many keys, of a branch, or of days of LOBSTER's files.

    Attributes: of (what was measured, in words), tapes (what each is called: a key, or a file), numbers (by name a
    value a tape), curves (a dict a tape, for pictures; may be empty), ranges (by name, those that are not the
    literature's).
    """

    of: str
    tapes: tuple[str, ...]
    numbers: Mapping[str, tuple[float, ...]]
    curves: tuple[Mapping[str, list[float]], ...] = ()
    ranges: Mapping[str, tuple[float, float]] = field(default_factory=dict)

    def estimate(self, name: str) -> Estimate:
        """One number, by its name."""
        number = NUMBERS[name]
        return Estimate(number, tuple(self.numbers[name]), self.ranges.get(name, (number.low, number.high)))

    def is_met(self, fact: Fact) -> bool:
        """Whether all numbers of a fact are in their ranges."""
        return all(self.estimate(number.name).met for number in fact.numbers)

    @property
    def met(self) -> dict[str, bool]:
        """Of each fact, by name, whether it is met."""
        return {fact.name: self.is_met(fact) for fact in FACTS}

    def frame(self) -> pandas.DataFrame:
        """A row a number: fact, number, unit, estimate (the median over the tapes), low and high (its 95 per cent
        interval, not-a-number for fewer than six tapes), range_low and range_high, tapes (on how many it could be
        measured), met."""
        rows = []
        for fact in FACTS:
            for number in fact.numbers:
                made = self.estimate(number.name)
                known = sum(not math.isnan(value) for value in made.values)
                rows.append([fact.name, number.name, number.unit, made.median, *(made.interval or (math.nan, math.nan)),
                             *made.range, known, made.met])
        return pandas.DataFrame(rows, columns=COLUMNS)

    def to_dict(self) -> dict[str, Any]:
        """Plain dicts and lists for JSON, without the curves; a number that is not there is None."""
        return {"of": self.of, "tapes": list(self.tapes), "met": sum(self.met.values()), "facts": [
            {"name": fact.name, "title": fact.title, "source": fact.source, "met": self.is_met(fact),
             "numbers": [self._plain(number) for number in fact.numbers]} for fact in FACTS]}

    def _plain(self, number: Number) -> dict[str, Any]:
        made = self.estimate(number.name)
        return {"name": number.name, "words": number.words, "unit": number.unit, "range": list(made.range),
                "estimate": known(made.median),
                "interval": None if made.interval is None else [*map(known, made.interval)],
                "met": made.met, "values": [*map(known, made.values)]}

    @classmethod
    def from_dict(cls, table: Mapping[str, Any]) -> Facts:
        """The facts that `to_dict` gave, without curves."""
        found = {number["name"]: number for fact in table["facts"] for number in fact["numbers"]}
        numbers = {name: tuple(math.nan if value is None else value for value in found[name]["values"])
                   for name in NUMBERS}
        ranges = {name: (found[name]["range"][0], found[name]["range"][1]) for name in NUMBERS}
        return cls(table["of"], tuple(table["tapes"]), numbers, ranges=ranges)

    def to_json(self) -> str:
        """The same as a text, the same for the same facts."""
        return json.dumps(self.to_dict(), indent=1, allow_nan=False) + "\n"

    def text(self) -> str:
        """A table for a terminal: a line a number, and last how many facts are met."""
        lines = [f"{'fact and number':<48} {'median':>9}  {'interval':<19} {'range':<15} met"]
        for fact in FACTS:
            lines.append(f"{fact.title:<95}{'yes' if self.is_met(fact) else 'NO'}")
            lines += [line_of(self.estimate(number.name)) for number in fact.numbers]
        tapes = f"{len(self.tapes)} tape{'' if len(self.tapes) == 1 else 's'}"
        return "\n".join([*lines, f"{sum(self.met.values())} of {len(FACTS)} facts met: {self.of}, {tapes}"]) + "\n"


def line_of(made: Estimate) -> str:
    """A line of the table, with the number by its name."""
    interval = "none" if made.interval is None else f"{short(made.interval[0])} to {short(made.interval[1])}"
    name = f"  {made.number.name}" + (f" ({made.number.unit})" if made.number.unit else "")
    between = f"{short(made.range[0])} to {short(made.range[1])}"
    return f"{name:<48} {short(made.median):>9}  {interval:<19} {between:<15} {'yes' if made.met else 'no'}"


def short(value: float) -> str:
    """A number with three significant digits."""
    return f"{value:.3g}"


def known(value: float) -> float | None:
    """A number for JSON: None where there is none, or it is without end."""
    return value if math.isfinite(value) else None


def read_facts(path: str | Path) -> dict[str, Any]:
    """What `to_json` wrote. FactsError where it is something else."""
    try:
        table = json.loads(Path(path).read_text("utf-8"))
        missing = set(NUMBERS) - {number["name"] for fact in table["facts"] for number in fact["numbers"]}
    except (ValueError, KeyError, TypeError):
        raise FactsError(f"{path}: no facts as `biqsolur facts ... --json` writes them") from None
    if missing:
        raise FactsError(f"{path}: no number {sorted(missing)[0]!r}: it was written by another version; measure again")
    return table


def ranges_of(path: str | Path) -> dict[str, tuple[float, float]]:
    """The ranges of somebody's own tapes, from the JSON of their facts: the least and the greatest value of each
    number. FactsError where a number was measured on none of them."""
    out = {}
    for fact in read_facts(path)["facts"]:
        for number in fact["numbers"]:
            values = [value for value in number["values"] if value is not None]
            if not values:
                raise FactsError(f"{path}: {number['name']} could be measured on no tape, so there is no range of it")
            out[number["name"]] = (min(values), max(values))
    return out
