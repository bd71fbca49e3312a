"""Measures of a market: numbers that researchers ask of a branch.

    from biqsolur import measures
    measures.NAMES["effective_spread"].compute(branch)              # {"effective_spread": 212.5, ...}
    measures.NAMES["realised_spread"].compute(branch, horizon="1s", after=5000)
    measures.trade_spreads(branch)                                  # a data frame, a row a trade

`NAMES` has each measure under its name; `find` takes the other ways of naming one too. A measure of a market of
several stocks answers for each of them, as `name.SYMBOL`, or for the one that `stock` names. `after` is an event:
only those behind it count. docs/MEASURES.md has each formula with its numbers on a worked market.
"""

from __future__ import annotations

from biqsolur.measures.agents import accounts, inventory, maker_income, profit, profits
from biqsolur.measures.depth import depths, displayed_depth, imbalance, order_flow_imbalance, order_flows, resiliency
from biqsolur.measures.impact import amihud, kyle_lambda, trade_flows
from biqsolur.measures.latency import reaction_latency, reaction_times
from biqsolur.measures.orders import (
    cancel_ratio, fill_probability, fills_by_distance, lives, order_fates, order_lifetime, queue_at_entry, queue_path,
    time_to_fill)
from biqsolur.measures.registry import NAMES, Measure, find, suffixes
from biqsolur.measures.spreads import effective_spread, price_impact, quoted_spread, realised_spread, trade_spreads
from biqsolur.measures.volatility import (
    autocorrelation, autocorrelations, realised_variance, roll_spread, signature_plot)

__all__ = [
    "NAMES", "Measure", "accounts", "amihud", "autocorrelation", "autocorrelations", "cancel_ratio", "depths",
    "displayed_depth", "effective_spread", "fill_probability", "fills_by_distance", "find", "imbalance",
    "inventory", "kyle_lambda", "lives", "maker_income", "order_fates", "order_flow_imbalance", "order_flows",
    "order_lifetime", "price_impact", "profit", "profits", "queue_at_entry", "queue_path", "quoted_spread",
    "reaction_latency", "reaction_times", "realised_spread", "realised_variance", "resiliency", "roll_spread",
    "signature_plot", "suffixes", "time_to_fill", "trade_flows", "trade_spreads",
]
