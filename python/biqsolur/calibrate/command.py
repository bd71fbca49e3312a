"""What the command `calibrate` does; its words stand in `biqsolur.realism_commands`."""

from __future__ import annotations

import argparse
import sys

from biqsolur.calibrate import calibrate, read_config
from biqsolur.errors import CalibrationError


def main(words: argparse.Namespace) -> int:
    """Searches, writes the result into the configuration's folder, and tells it."""
    if words.processes is not None and words.processes < 1:
        raise CalibrationError(f"--processes {words.processes}: a number from 1 on is wanted")
    if words.processes is not None and words.snakemake is not None:
        raise CalibrationError("--processes and --snakemake: one of both; Snakemake's own option is --cores")
    calibration = read_config(words.config)
    result = calibrate(calibration, words.processes, program=words.program, snakemake=words.snakemake)
    result.write()
    sys.stdout.write(result.text() + f"written: study.toml, result.json and profile.csv in {calibration.output}\n")
    return 0
