"""What do a wider tick and slower makers do to the reference market, and does a halt calm a shock? Over ten keys."""

from pathlib import Path

import biqsolur
from biqsolur import measures
from biqsolur.times import nanoseconds

TEN, STUDY = "10:00", Path(__file__).with_suffix(".toml")
MEASURED = [("effective_spread", "effective_spread_bps"), ("realised_variance", "realised_volatility_bps")]
ASKED = [*((name, "root", TEN) for name in ("same", "wide", "slow", "shock")), ("resume", "shock", "10:05")]

def answers(bundle):
    out = {}
    for measure, number in MEASURED:
        for *pair, clock in ASKED:
            branches, asked = [bundle.branches[name] for name in pair], measures.NAMES[measure]
            after = [int((branch.events.time <= nanoseconds(clock)).sum()) for branch in branches]
            own, other = (asked.compute(branch, after=event)[number] for branch, event in zip(branches, after))
            out[f"{number}, {pair[0]} less {pair[1]}"] = own - other
    return out


for question, values in biqsolur.map(STUDY, 10, answers).items():
    print(f"{question}: {values.mean():.2f} +- {2.262 * values.std() / 10 ** 0.5:.2f}")
