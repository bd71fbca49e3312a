"""Calibration: the parameters of a study whose moments come nearest to targets.

    from biqsolur.calibrate import calibrate, read_config
    result = calibrate(read_config("calibration.toml"), processes=4)
    result.study, result.parameters(), result.moment_table(), result.profile_table()

docs/REALISM.md has a configuration, and says what the result means.
"""

from biqsolur.calibrate.config import Calibration, Parameter, Target, calibration_of, read_config
from biqsolur.calibrate.moments import MOMENTS, moments_of
from biqsolur.calibrate.result import Calibrated, calibrate

__all__ = [
    "MOMENTS", "Calibrated", "Calibration", "Parameter", "Target", "calibrate", "calibration_of", "moments_of",
    "read_config",
]
