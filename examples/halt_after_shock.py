"""Does a halt calm a shock? The value of ABM falls by a dollar at 9:31; a branch also halts trading for half a minute.

    PYTHONPATH=python python3 examples/halt_after_shock.py
"""
from pathlib import Path

from scipy.stats import sem, t

import biqsolur

KEYS, fall = 15, biqsolur.SeriesOffset("ABM", "-1.00")
study = biqsolur.Study(Path(__file__).parent / "informed_market.toml").branch("shock", at="9:31", edits=[fall])
study = study.branch("halted", at="9:31", edits=[fall, biqsolur.Halt("ABM")])
study = study.branch("reopened", parent="halted", at="9:31:30", edits=[biqsolur.Resume("ABM")])


def differences(bundle: biqsolur.Bundle):
    """What the halt adds to each number over the events behind the shock: basis points, and dollars."""
    frame = bundle.compare(["realised_variance", "profit"], False, after=bundle.branches["shock"].fork, study=study)
    values = frame.pivot(index="measure", columns="branch", values="value")
    return (values.reopened - values.shock)[["realised_volatility_bps", "profit_maker", "profit_value"]] * [1, 1e-6, 1e-6]

for name, values in biqsolur.map(study, KEYS, differences, progress=False).items():
    low, high = t.interval(0.95, KEYS - 1, values.mean(), sem(values))
    print(f"{name:24} {values.mean():9.2f}, 95 % interval {low:9.2f} to {high:9.2f}")
