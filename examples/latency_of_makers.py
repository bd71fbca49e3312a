"""What does latency cost makers? From 9:30:20 on a branch has them half a second from the exchange, each way.

    PYTHONPATH=python python3 examples/latency_of_makers.py
"""
from pathlib import Path

from scipy.stats import sem, t

import biqsolur

KEYS, far = 15, 500_000_000         # ns; group 0 is the exchange, group 1 the makers
study = biqsolur.Study(Path(__file__).parent / "informed_market.toml")
study = study.branch("slow", at="9:30:20", edits=[biqsolur.Latency(0, 1, far), biqsolur.Latency(1, 0, far)])


def differences(bundle: biqsolur.Bundle):
    """What the latency adds to what the makers earn on the spread, lose of it, and have at the end, in dollars."""
    frame = bundle.compare(["maker_income", "profit"], study=study).set_index(["branch", "measure"])
    return frame.difference["slow"][["earned_maker", "lost_maker", "kept_maker", "profit_maker"]] / 1e6

for name, values in biqsolur.map(study, KEYS, differences, progress=False).items():
    low, high = t.interval(0.95, KEYS - 1, values.mean(), sem(values))
    print(f"{name:13} {values.mean():7.2f} dollars, 95 % interval {low:7.2f} to {high:7.2f}")
