"""What does it cost to buy 1,000 shares at once, and what in forty parts?"""
from pathlib import Path

import biqsolur
from biqsolur.ouch import Enter

MARKET = biqsolur.Study.read(Path(__file__).parent / "tick_size.toml").only("root").with_agent("watcher", every="1s")
BUYER = len(MARKET.traders)
START, SECOND = biqsolur.times.nanoseconds("9:30:30"), 10**9


def bought(orders):
    """What the orders buy: shares, and how many cents a share dearer than the middle before the first one."""
    study = MARKET.schedule(BUYER, orders)
    branch = biqsolur.run(study).branches[study.branches[-1]]
    before = branch.quotes.query("time <= @START").iloc[-1]
    fills = branch.replies.query("agent == @BUYER and kind == 'executed'")
    mean = (fills.shares * fills.price_dollars).sum() / fills.shares.sum()
    return fills.shares.sum(), 100 * (mean - (before.bid_dollars + before.ask_dollars) / 2)


twap = [(START + 2 * SECOND * part, Enter(f"TWAP{part}", "B", 25, "ABM", "51")) for part in range(40)]
for name, orders in {"block": [(START, Enter("BLOCK", "B", 1000, "ABM", "51"))], "TWAP": twap}.items():
    print("{}: {} shares, {:.2f} cents a share above the middle of 9:30:30".format(name, *bought(orders)))
