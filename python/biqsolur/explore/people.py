"""Who takes part in a study: names for its agents, the parameters that each begins with, and the rules of its
stocks."""

from __future__ import annotations

from typing import Any

import numpy

EXCHANGE = "the exchange"
PARAMETERS = ("every", "wobble", "delay", "size", "noise", "margin", "short", "long", "half", "step", "levels", "pause")


class People:
    """The agents of a study, the exchange first.

    Attributes: entries (of each agent its table of the study; of the exchange None), kinds (texts, "exchange" first),
    stock_of_agent (the number of the stock that each trades; -1 of the exchange).
    """

    def __init__(self, study: dict[str, Any]) -> None:
        self.entries: list[dict[str, Any] | None] = [None]
        for entry in study["agent"]:
            self.entries += [entry] * entry.get("count", 1)
        self.kinds = ["exchange"] + [entry["kind"] for entry in self.entries if entry is not None]
        symbols = [stock["symbol"] for stock in study["stock"]]
        self.stock_of_agent = numpy.array(
            [-1] + [symbols.index(entry["stock"]) for entry in self.entries if entry is not None], numpy.int16)

    def name(self, agent: int) -> str:
        """What an agent is called: its kind and its number, as in "maker 1"."""
        if agent == 0:
            return EXCHANGE
        return f"{self.kinds[agent]} {agent}" if agent < len(self.kinds) else f"trader {agent}"

    def parameters(self, agent: int) -> dict[str, int]:
        """The parameters that a trader begins with, those with a default too."""
        entry = self.entries[agent]
        if entry is None:
            return {}
        return {name: entry.get(name, 0) for name in PARAMETERS if name in entry or name in ("wobble", "delay")}
