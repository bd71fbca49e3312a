"""Where a bundle comes from: the record that stands beside one which the package ran, in the file NAME.run.json.

A record has the study's text, the sums of its series file, the program and the bundle (SHA-256), the package's version,
the kit that proved the program, and when the run was. The bundle itself has none of these.
"""

from __future__ import annotations

import hashlib
import json
import os
from dataclasses import asdict, dataclass
from datetime import datetime, timezone
from pathlib import Path
from typing import TYPE_CHECKING, Any

from biqsolur.errors import StudyError
from biqsolur.wording import counted

if TYPE_CHECKING:
    from biqsolur.bundle import Bundle
    from biqsolur.study import Study

FORM = 1
ENDING = ".run.json"
FOUND = {
    "checkout": "the program of the checkout",
    "wheel": "the program that was installed with the package",
    "named": "a program that the caller or BIQSOLUR_PROGRAM named, which nothing ties to the package's sources",
}


@dataclass(frozen=True)
class Provenance:
    """The record of a run.

    study_text: the study as the program read it. folder: from where its series file was looked for (None where it names
    none). series_sum: of that file. version: of the package. kit: the line of the kit that proved the released program,
    None where that is not known. program_sum: of the program. program_found: "checkout", "wheel" or "named". time: when
    the run began (ISO 8601, UTC). seconds: how long it took. workers: how many simulated. bundle_bytes, bundle_sum: of
    the bundle. Sums are SHA-256, in hexadecimal digits.
    """

    study_text: str
    folder: str | None
    series_sum: str | None
    version: str
    kit: str | None
    program_sum: str
    program_found: str
    time: str
    seconds: float
    workers: int
    bundle_bytes: int
    bundle_sum: str

    @property
    def study(self) -> Study | None:
        """The study; None where Python can't read its text, which the program reads as TOML 1.1."""
        from biqsolur.study import Study
        try:
            return Study.from_text(self.study_text, self.folder)
        except StudyError:
            return None

    @property
    def program(self) -> str:
        """In words which program it was."""
        return FOUND.get(self.program_found, self.program_found)

    def lines(self) -> list[tuple[str, str]]:
        """The record but for the study, as pairs of words, for pages and tables."""
        return [
            ("run", f"{self.time}, {self.seconds:.3g} s, {counted(self.workers, 'worker')}"),
            ("version", self.version), ("kit", self.kit or "not known"), ("program", self.program),
            ("sum of the program", self.program_sum), ("sum of the bundle", self.bundle_sum)]

    def to_json(self) -> str:
        """The record as the text of its file."""
        return json.dumps({"form": FORM, **asdict(self)}, indent=1) + "\n"

    @classmethod
    def from_json(cls, text: str) -> Provenance:
        """The record of a text. Raises ValueError where it is none."""
        values: Any = json.loads(text)
        if not isinstance(values, dict) or values.pop("form", None) != FORM:
            raise ValueError("this is no record of a run")
        try:
            record = cls(**values)
        except TypeError as error:
            raise ValueError(f"this is no record of a run: {error}") from None
        for name, kind in KINDS.items():
            if not isinstance(getattr(record, name), kind):
                raise ValueError(f"this is no record of a run: {name} is {getattr(record, name)!r}")
        return record


KINDS: dict[str, Any] = {
    **dict.fromkeys(("study_text", "version", "program_sum", "program_found", "time", "bundle_sum"), str),
    **dict.fromkeys(("folder", "series_sum", "kit"), (str, type(None))),
    "seconds": (int, float), "workers": int, "bundle_bytes": int}


def record_path(bundle: str | Path) -> Path:
    """Where the record of a bundle's run stands: NAME.run.json beside NAME."""
    path = Path(bundle)
    return path.with_name(path.name + ENDING)


def moment_text(moment: float) -> str:
    """A time (seconds since 1970) as ISO 8601 in UTC."""
    return datetime.fromtimestamp(moment, timezone.utc).isoformat(timespec="seconds").replace("+00:00", "Z")


def sum_of_bundle(bundle: Bundle) -> str:
    """SHA-256 of a bundle's bytes, as they are mapped."""
    return hashlib.sha256(bundle.frames.raw.data).hexdigest()


def record_of(bundle: Bundle) -> Provenance | str | None:
    """The record that stands beside a bundle; None where there is none, and where one isn't this bundle's, why."""
    path = record_path(bundle.path)
    if not os.path.exists(path):
        return None
    try:
        record = Provenance.from_json(path.read_text(encoding="utf-8"))
    except (OSError, ValueError, RecursionError) as error:
        return f"{path}: {error}"
    if record.bundle_bytes != len(bundle.frames.raw) or record.bundle_sum != sum_of_bundle(bundle):
        return f"{path} is the record of another bundle than {bundle.path}"
    return record


def record_fault(bundle: Bundle) -> str | None:
    """Why a bundle has no record of its run, or None where it has; such a record is then known to the bundle."""
    record = record_of(bundle)
    if isinstance(record, Provenance):
        bundle.ran_as(record)
        return None
    return record or f"there is no {record_path(bundle.path)}"
