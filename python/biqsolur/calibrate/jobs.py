"""Points of a calibration as jobs of Snakemake, on this machine or on a cluster: one workflow for all points that are
asked for at once, a job a point.

A workflow has a folder below the calibration's output, which all of a cluster's machines have to see. It is called by a
sum of what is asked for, so the same search finds what an interrupted one had finished, and is taken away at its end.
"""

from __future__ import annotations

import contextlib
import hashlib
import importlib.util
import json
import os
import shutil
import signal
import subprocess
import sys
from collections.abc import Sequence
from pathlib import Path
from typing import Any

from biqsolur.calibrate.config import Calibration, Parameter, Target
from biqsolur.calibrate.journal import Moments, Values, numbers, replace_file
from biqsolur.errors import CalibrationError
from biqsolur.running import interrupts_held
from biqsolur.study import Study

SNAKEFILE = Path(__file__).with_name("Snakefile")
PLAN, LOG = "plan.json", "snakemake.log"
END_SECONDS = 60            # for Snakemake to end its jobs, before it is killed
LAST_LINES = 12             # of Snakemake's words, where it fails


def moments_by_snakemake(calibration: Calibration, program: str, points: Sequence[Values],
                         options: Sequence[str]) -> list[Moments]:
    """The moments of points under each key; none where the program refuses one. CalibrationError where a job fails:
    the folder stays then, with Snakemake's log."""
    text = plan_text(calibration, program, points)
    folder = calibration.output.absolute() / "jobs" / hashlib.sha256(text.encode()).hexdigest()[:16]
    folder.mkdir(parents=True, exist_ok=True)
    replace_file(folder / PLAN, text)
    run_workflow(folder, options)
    try:
        found = [numbers(json.loads((folder / f"{number}.json").read_text())) for number in range(len(points))]
    except FileNotFoundError as fault:
        raise CalibrationError(f"Snakemake ended well, and {fault.filename} is not there: give it options that run "
                               "all jobs") from None
    shutil.rmtree(folder)
    with contextlib.suppress(OSError):      # another search's folder stands there
        folder.parent.rmdir()
    return found


def plan_text(calibration: Calibration, program: str, points: Sequence[Values]) -> str:
    """All that a job has to know, as JSON."""
    folder = calibration.study.folder
    return json.dumps({
        "study": calibration.study.to_text(), "folder": None if folder is None else str(Path(folder).absolute()),
        "program": program, "keys": calibration.keys, "branch": calibration.branch, "symbol": calibration.symbol,
        "moments": calibration.moments, "points": [list(point) for point in points],
        "parameters": [[parameter.name, list(parameter.paths)] for parameter in calibration.parameters]})


def read_plan(path: str | Path) -> tuple[Calibration, str, list[Values]]:
    """The calibration of a plan (without targets and ranges, of which a job knows nothing), the program, the points."""
    plan: dict[str, Any] = json.loads(Path(path).read_text("utf-8"))
    study = Study.from_text(plan["study"], folder=plan["folder"])
    parameters = tuple(Parameter(name, tuple(paths), 0, 1) for name, paths in plan["parameters"])
    targets = tuple(Target(name, 0.0) for name in plan["moments"])
    calibration = Calibration(study, tuple(plan["keys"]), Path(path).parent, parameters, targets, plan["branch"],
                              plan["symbol"])
    return calibration, plan["program"], [tuple(point) for point in plan["points"]]


def run_workflow(folder: Path, options: Sequence[str]) -> None:
    """Runs the jobs of a folder that have no answer yet; what Snakemake says goes to its log. An interrupt ends it and
    its jobs."""
    if importlib.util.find_spec("snakemake") is None:
        raise ModuleNotFoundError("no snakemake", name="snakemake")
    words = [sys.executable, "-m", "snakemake", "--snakefile", str(SNAKEFILE), "--directory", str(folder), "--nolock",
             "--rerun-incomplete", *(options or ("--cores", "all"))]
    process = None
    try:
        with open(folder / LOG, "wb") as log, interrupts_held():
            process = subprocess.Popen(words, stdin=subprocess.DEVNULL, stdout=log, stderr=log, start_new_session=True)
        status = process.wait()
    finally:
        if process is not None:
            end(process)
    if status:
        said = (folder / LOG).read_text("utf-8", "replace").rstrip().splitlines()[-LAST_LINES:]
        raise CalibrationError(f"Snakemake ended with status {status}; {folder / LOG} has its words, which end so:\n"
                               + "\n".join(said))


def end(process: subprocess.Popen[bytes]) -> None:
    """Ends Snakemake and its jobs, where they still run."""
    if process.returncode is not None:
        return
    with contextlib.suppress(ProcessLookupError):
        os.killpg(process.pid, signal.SIGTERM)
    try:
        process.wait(END_SECONDS)
    except subprocess.TimeoutExpired:
        os.killpg(process.pid, signal.SIGKILL)
        process.wait()
