"""The journal of a calibration: a line for each point that was evaluated, so that an interrupt loses none."""

from __future__ import annotations

import json
import math
import os
from pathlib import Path

from biqsolur.errors import CalibrationError

Values = tuple[int, ...]
Moments = list[list[float]]         # a list a key, a number a moment; no list where the program refused the point


class Journal:
    """What is known of each point. A line that is cut, as an interrupt leaves it, counts as not there."""

    def __init__(self, path: Path, mark: str) -> None:
        """Opens or begins the journal of a calibration of this mark. CalibrationError where it is another one's."""
        self.path, self.known = path, {}
        if not path.exists():
            self._append({"calibration": mark})
            return
        whole = path.read_bytes()
        kept = whole[:whole.rfind(b"\n") + 1]
        if len(kept) < len(whole):
            os.truncate(path, len(kept))
        try:
            first, *lines = [json.loads(line) for line in kept.splitlines()] or [{"calibration": mark}]
            found = first["calibration"]
            self.known = {tuple(line["values"]): numbers(line["moments"]) for line in lines}
        except (ValueError, KeyError, TypeError):
            raise CalibrationError(f"{path}: no journal of a calibration; choose another `output`, or take it "
                                   "away") from None
        if found != mark:
            raise CalibrationError(f"{path}: the journal of another calibration (another study, keys, moments or "
                                   "parameters); choose another `output`, or take it away")
        if not kept:
            self._append({"calibration": mark})

    def add(self, values: Values, moments: Moments) -> None:
        """Notes a point."""
        self.known[values] = moments
        self._append({"values": list(values), "moments": plain_rows(moments)})

    def _append(self, line: dict[str, object]) -> None:
        with open(self.path, "a", encoding="utf-8") as file:
            file.write(json.dumps(line, separators=(",", ":")) + "\n")


def plain_rows(moments: Moments) -> list[list[float | None]]:
    """Moments for JSON, with None where one is missing."""
    return [[value if math.isfinite(value) else None for value in row] for row in moments]


def numbers(rows: list[list[float | None]]) -> Moments:
    """The moments of a line, with not-a-number where one is missing."""
    return [[math.nan if value is None else float(value) for value in row] for row in rows]


def replace_file(path: Path, text: str) -> None:
    """Writes a file whole: beside its place, and then renamed."""
    beside = path.with_name(f".{path.name}.new")
    beside.write_text(text, encoding="utf-8")
    os.replace(beside, path)
