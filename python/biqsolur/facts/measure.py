"""Facts of a branch, of a study under many keys, and of LOBSTER's files, all by the same code."""

from __future__ import annotations

import os
from collections.abc import Mapping, Sequence
from dataclasses import dataclass
from pathlib import Path
from typing import Any

from biqsolur.bundle import Branch, Bundle
from biqsolur.facts.catalogue import NUMBERS, numbers_of
from biqsolur.facts.curves import curves_of
from biqsolur.facts.judgement import Facts
from biqsolur.facts.tape import Tape, tape_of_branch, tape_of_lobster
from biqsolur.study import Study

Answer = dict[str, Mapping[str, Any]]


def answer_of(tape: Tape) -> Answer:
    """What is measured on one tape: its numbers and its curves."""
    return {"numbers": numbers_of(tape), "curves": curves_of(tape)}


def facts_of(name: str, tapes: Sequence[str], answers: Sequence[Answer],
             ranges: Mapping[str, tuple[float, float]] | None = None) -> Facts:
    """Facts from what was measured on each tape."""
    numbers = {number: tuple(answer["numbers"][number] for answer in answers) for number in NUMBERS}
    return Facts(name, tuple(tapes), numbers, tuple(answer["curves"] for answer in answers), ranges or {})


def of_branch(branch: Branch, symbol: str | None = None,
              ranges: Mapping[str, tuple[float, float]] | None = None) -> Facts:
    """The facts of one branch: there is one tape, so no interval. `symbol`: a stock, the first one where not said."""
    name = Path(branch.bundle.path).name
    return facts_of(f"{name}, branch {branch.name}", [name], [answer_of(tape_of_branch(branch, symbol))], ranges)


def of_lobster(pairs: Sequence[tuple[str | os.PathLike[str], str | os.PathLike[str]]],
               ranges: Mapping[str, tuple[float, float]] | None = None) -> Facts:
    """The facts of LOBSTER's files: for each day its message file and its orderbook file."""
    answers = [answer_of(tape_of_lobster(message, orderbook)) for message, orderbook in pairs]
    return facts_of("LOBSTER's files", [Path(message).name for message, _ in pairs], answers, ranges)


@dataclass(frozen=True)
class OfBundle:
    """Measures a branch of a bundle; what `biqsolur.map` calls in each of its processes."""

    branch: str
    symbol: str | None

    def __call__(self, bundle: Bundle) -> Answer:
        return answer_of(tape_of_branch(bundle.branches[self.branch], self.symbol))


def of_study(study: Study | str | os.PathLike[str], keys: int | Sequence[int | str] = 30, *, branch: str = "root",
             symbol: str | None = None, processes: int | None = None, program: str | os.PathLike[str] | None = None,
             progress: bool | None = None, ranges: Mapping[str, tuple[float, float]] | None = None) -> Facts:
    """The facts of a study under many keys, which run side by side (`biqsolur.map` says how `keys`, `processes` and
    `progress` are meant). Each key's run is a tape."""
    from biqsolur.mapping import map_keys
    answers = map_keys(study, keys, OfBundle(branch, symbol), processes, program=program, progress=progress)
    name = f"{study}" if isinstance(study, (str, os.PathLike)) and "\n" not in str(study) else "a study"
    return facts_of(f"{name}, branch {branch}", [str(key) for key in answers.index], answers.to_dict("records"), ranges)
