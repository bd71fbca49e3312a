"""Measures of each branch beside those of its parent, over the events behind the fork alone."""

from __future__ import annotations

from collections.abc import Iterable, Mapping
from typing import TYPE_CHECKING, Any

import numpy
import pandas

from biqsolur.errors import MeasureError
from biqsolur.measures.agents import study_of
from biqsolur.measures.registry import Measure, find, suffixes

if TYPE_CHECKING:
    from biqsolur.bundle import Bundle


def compare(bundle: Bundle, wanted: Any, parent: bool = True, **settings: Any) -> pandas.DataFrame:
    """Each number of each measure of each branch; see `Bundle.compare`."""
    found = [find(each) for each in as_list(wanted)]
    taken_by_none(found, settings)
    if settings.get("study") is not None:
        settings["study"] = study_of(next(iter(bundle.branches.values())), settings["study"], "compare")
    rows = []
    for branch in bundle.branches.values():
        other = bundle.branches[branch.parent] if parent and branch.parent is not None else None
        after = branch.fork if parent else 0
        for measure, suffix in zip(found, suffixes(found)):
            own = {"after": after, **{name: value for name, value in settings.items() if name in measure.takes}}
            numbers = measure.compute(branch, **own)
            others = measure.compute(other, **own) if other is not None else {}
            rows += [(branch.name, name + suffix, numbers.get(name, numpy.nan), others.get(name, numpy.nan),
                      measure.unit(name)) for name in dict.fromkeys([*numbers, *others])]
    frame = pandas.DataFrame(rows, columns=["branch", "measure", "value", "parent", "unit"])
    frame.insert(4, "difference", frame.value - frame.parent)
    return frame if parent else frame.drop(columns=["parent", "difference"])


def as_list(wanted: Any) -> list[Any]:
    """The measures that are asked for: one of them, or several."""
    one = isinstance(wanted, (str, Mapping, Measure)) or callable(wanted) or not isinstance(wanted, Iterable)
    return [wanted] if one else list(wanted)


def taken_by_none(found: list[Measure], settings: Mapping[str, Any]) -> None:
    """MeasureError for a setting that none of the measures takes."""
    for name in settings:
        if not any(name in measure.takes for measure in found):
            names = ", ".join(measure.name for measure in found)
            raise MeasureError(f"none of the measures {names} has a setting {name!r}")
