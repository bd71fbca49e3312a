"""Does a wider tick make trading dearer? Thirty keys, each with and without the wider tick, and the interval.

    python3 examples/spread_under_ticks.py [STUDY [KEYS]]

Runs a study (examples/tick_size.toml) under the keys 1 to 30, with branches at event 5,000 for ticks of two, five and
ten cents, and tells the mean quoted spread that traders heard after that event. Needs Debian's python3-numpy,
python3-pandas, python3-scipy, python3-tomlkit and python3-tqdm.
"""

import pathlib
import sys

HOME = pathlib.Path(__file__).resolve().parent.parent
sys.path[:0] = [str(HOME / "python")]

from scipy import stats  # noqa: E402

import biqsolur  # noqa: E402

AT = 5000                       # the event after which the tick changes
TICKS = {"tick2": "0.02", "tick5": "0.05", "tick10": "0.10"}    # in dollars; the root ticks by a cent


def heard_spreads(bundle):
    """Of each branch the mean spread in cents of the quotes with both sides that traders heard after the change."""
    quotes = {name: branch.quotes.query("event > @AT and bid > 0 and ask > 0") for name, branch in bundle.branches.items()}
    return {name: float((heard.ask - heard.bid).mean()) / 100 for name, heard in quotes.items()}


study = biqsolur.Study(sys.argv[1] if len(sys.argv) > 1 else HOME / "examples" / "tick_size.toml")
for name in reversed(study.branches[1:]):
    study = study.without_branch(name)
for name, tick in TICKS.items():
    study = study.branch(name, after=AT, edits=[biqsolur.Tick(study.symbols[0], [(0, tick)])])

spreads = biqsolur.map(study, int(sys.argv[2]) if len(sys.argv) > 2 else 30, heard_spreads)

print(f"Mean quoted spread after event {AT:,}, in cents, over {len(spreads)} keys\n")
print(f"{'branch':8} {'mean':>7} {'more than root':>15}   95 % interval")
print(f"{'root':8} {spreads.root.mean():7.3f}")
for name in TICKS:
    more = spreads[name] - spreads.root
    low, high = stats.t.interval(0.95, len(more) - 1, more.mean(), stats.sem(more))
    print(f"{name:8} {spreads[name].mean():7.3f} {more.mean():15.3f}   {low:.3f} to {high:.3f}")
