"""`python3 -m biqsolur report BUNDLE [--study STUDY] -o FILE`: a bundle as one page with pictures and tables."""

from __future__ import annotations

import argparse
from pathlib import Path

from biqsolur.bundle import read
from biqsolur.output import new_file, refuse_existing
from biqsolur.report_page import page_text
from biqsolur.study import Study


def write_report(bundle_path: str | Path, output: str | Path = "report.html",
                 study: Study | str | Path | None = None) -> None:
    """Writes the report of a bundle. The file must not be there yet; where something is wrong it is not written.

    study: of the bundle, a Study or a path, where no record of the run stands beside it. StudyNeededError where it is
    another bundle's.
    """
    refuse_existing(output)
    known = study if study is None or isinstance(study, Study) else Study.read(study)
    text = page_text(read(bundle_path), known)
    with new_file(output) as file:
        file.write(text.encode("utf-8"))


def main(args: argparse.Namespace) -> int:
    """The command: `args.bundle`, `args.study` and `args.output` are paths."""
    write_report(args.bundle, args.output or "report.html", args.study)
    return 0
