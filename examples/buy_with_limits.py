"""Buys 10,000 shares in half an hour: by limit orders at the bid, and by a schedule of orders that take the offers."""
from pathlib import Path

import biqsolur

STUDY = biqsolur.Study.read(Path(__file__).parent / "halt_at.toml").only("root")
MARKET = STUDY.with_("events", 50_000).with_agent("watcher", every="5s")
BUYER, MINUTE = len(MARKET.traders), biqsolur.times.duration("1min")
TIMES = range(MARKET.to_dict()["open"] + MINUTE, MARKET.to_dict()["close"], MINUTE)
DUE = [10_000 * number // len(TIMES) for number in range(len(TIMES) + 1)]     # shares to have by each decision


def patient(seen):
    """Waits at the bid for the next part, and takes what was due a minute before; at the last decision takes all."""
    late = max(0, DUE[seen.decision - 1 if seen.decision < len(TIMES) else -1] - seen.position)
    orders = [seen.cancel(order) for order in seen.orders] + [seen.buy(late, "51")] * (late > 0)
    wait = DUE[seen.decision] - seen.position - late
    return orders + [seen.buy(wait, seen.book.bid)] * (wait > 0)


parts = [biqsolur.ouch.Enter(f"PART{n}", "B", DUE[n + 1] - DUE[n], "ABM", "51") for n in range(len(TIMES))]
for name, study in (("limit orders", biqsolur.play(MARKET, BUYER, patient, "1min")),
                    ("schedule", MARKET.schedule(BUYER, zip(TIMES, parts)))):
    fills = biqsolur.run(study).branches[study.branches[-1]].replies.query("agent == @BUYER and kind == 'executed'")
    print(f"{name}: {fills.shares.sum()} shares at {fills.price_dollars.repeat(fills.shares).mean():.4f} dollars")
