"""Does half a tick make taking cheaper? ABM ticks by a cent; from event 5,000 on a branch ticks by half a cent.

    PYTHONPATH=python python3 examples/half_a_tick.py
"""
from pathlib import Path

from scipy.stats import sem, t

import biqsolur

HERE, KEYS = Path(__file__).parent, 15
study = biqsolur.Study(HERE / "tick_size.toml").without_branch("wide").without_branch("same")
study = study.branch("half", after=5000, edits=[biqsolur.Tick("ABM", [[0, 50]])])


def differences(bundle: biqsolur.Bundle):
    """What the half tick adds to each number, in cents."""
    frame = bundle.compare(["quoted_spread", "effective_spread"]).set_index(["branch", "measure"])
    return frame.difference["half"][["quoted_spread", "effective_spread"]] / 100

for name, values in biqsolur.map(study, KEYS, differences, progress=False).items():
    low, high = t.interval(0.95, KEYS - 1, values.mean(), sem(values))
    print(f"{name:16} {values.mean():6.3f} cents, 95 % interval {low:6.3f} to {high:6.3f}")
