"""A branch laid over its parent: the first event that differs in words, and measures of both side by side."""

from __future__ import annotations

import math
from typing import Any

from biqsolur import measures
from biqsolur.bundle import Branch
from biqsolur.errors import InputError
from biqsolur.explore.view import View
from biqsolur.explore.words import sentence
from biqsolur.measures.registry import MONEY, PRICE

Table = dict[str, Any]


def compared(view: View, parent: View) -> Table:
    """The first difference, with both events in words, and each measure of both over the events behind the fork."""
    difference = view.branch.first_difference
    ours, theirs = numbers(view.branch, view.branch.fork), numbers(parent.branch, view.branch.fork)
    names = list(dict.fromkeys([*theirs, *ours]))
    return {
        "difference": difference,
        "time": min((one.time_of(difference) for one in (view, parent) if 0 < difference <= one.count), default=None),
        "ours": words_at(view, difference), "theirs": words_at(parent, difference),
        "measures": [{"name": name, "ours": ours.get(name), "theirs": theirs.get(name)} for name in names],
    }


def words_at(view: View, event: int) -> str | None:
    """What an event was; None where the branch has none of that number."""
    return sentence(view, event) if 0 < event <= view.count else None


def numbers(branch: Branch, after: int) -> dict[str, float | None]:
    """The measures of a branch over the events behind one, by name; None where the run does not give the number."""
    trades = branch.trades[branch.trades["event"] > after]
    out: dict[str, float | None] = {
        "trades": len(trades), "shares traded": int(trades["shares"].sum()),
        "fees of both sides, dollars": int(trades["fees"].sum()) / 10**6,
    }
    for name, measure in measures.NAMES.items():
        try:
            found = measure.compute(branch, after=after)
        except InputError:
            continue
        for number, value in found.items():
            label, scale = labelled(number, measure.unit(number))
            out[label] = value / scale if math.isfinite(value) else None
    return out


def labelled(number: str, unit: str) -> tuple[str, int]:
    """What a measure's number is called on the page, and by what it is divided: prices and money are shown in
    dollars."""
    name = number.replace("_", " ")
    for small, scale in ((PRICE, 10_000), (MONEY, 1_000_000)):
        if unit.startswith(small):
            return f"{name}, {unit.replace(small, 'dollars', 1)}", scale
    return f"{name}, {unit}" if unit not in ("", name) else name, 1
