"""python3 -m biqsolur.calibrate point PLAN NUMBER -o FILE: one job of Snakemake, which `biqsolur.calibrate.jobs`
started. The answer is JSON: a list a key, of a number a moment; an empty list where the program refuses the point."""

from __future__ import annotations

import argparse
import json
import signal
import sys
import tempfile
from pathlib import Path

from biqsolur.calibrate.evaluate import Runs
from biqsolur.calibrate.jobs import read_plan
from biqsolur.calibrate.journal import Moments, plain_rows, replace_file
from biqsolur.errors import InputError


def parser() -> argparse.ArgumentParser:
    """The words."""
    out = argparse.ArgumentParser(prog="python3 -m biqsolur.calibrate", description="A part of a calibration's work.")
    words = out.add_subparsers(required=True, metavar="WORD")
    point = words.add_parser("point", help="simulates a point of a plan under all keys")
    point.add_argument("plan")
    point.add_argument("number", type=int)
    point.add_argument("-o", "--output", required=True)
    return out


def moments_of_point(plan: str, number: int) -> Moments:
    """The moments of a plan's point, a list a key."""
    calibration, program, points = read_plan(plan)
    rows: Moments = []
    with tempfile.TemporaryDirectory(prefix="biqsolur-calibrate-") as folder:
        runs = Runs(calibration, program, Path(folder))
        for key in calibration.keys:
            found = runs.answer(json.dumps([points[number], key]))
            if found is None:
                return []
            rows.append(found)
    return rows


def write_point(plan: str, number: int, output: str) -> None:
    """Writes the answer of a plan's point."""
    replace_file(Path(output), json.dumps(plain_rows(moments_of_point(plan, number))) + "\n")


def main(words: list[str] | None = None) -> int:
    """The status: 1 where anything is wrong."""
    # An exit, so that temporary files go.
    signal.signal(signal.SIGTERM, lambda number, frame: sys.exit(128 + number))
    arguments = parser().parse_args(words)
    try:
        write_point(arguments.plan, arguments.number, arguments.output)
    except (InputError, OSError) as fault:
        print(f"calibrate: {fault}", file=sys.stderr)
        return 1
    return 0


if __name__ == "__main__":
    sys.exit(main())
