"""The measures by their names, each with its settings and the units of its numbers."""

from __future__ import annotations

import importlib.util
import inspect
from collections.abc import Callable, Mapping, Sequence
from dataclasses import dataclass, field
from pathlib import Path
from typing import TYPE_CHECKING, Any

from biqsolur.errors import MeasureError
from biqsolur.measures import agents, depth, impact, latency, orders, spreads, volatility

if TYPE_CHECKING:
    from biqsolur.bundle import Branch

PRICE, SHARES, PART = "0.0001 dollars", "shares", "a part of 1"


@dataclass(frozen=True)
class Measure:
    """A measure.

    Attributes: name; function (of a branch and settings by name, to a number or to numbers by their names); units (by
    the names of its numbers, without the symbol of a stock); settings (those that are bound: `find` binds what is
    named with the measure, and `compute` adds to them).
    """

    name: str
    function: Callable[..., Any]
    units: Mapping[str, str]
    settings: Mapping[str, Any] = field(default_factory=dict)

    @property
    def about(self) -> str:
        """What it is, in a sentence: the first paragraph of its docstring."""
        return (inspect.getdoc(self.function) or self.name).split("\n\n")[0].replace("\n", " ")

    @property
    def takes(self) -> list[str]:
        """The names of the settings that it takes."""
        return [name for name in inspect.signature(self.function).parameters][1:]

    def unit(self, number: str) -> str:
        """The unit of one of its numbers, which may have a kind of agents, the symbol of a stock and settings in
        parentheses behind it; "" where it is not known."""
        name = number.partition("(")[0].partition(".")[0]
        return self.units.get(name) or self.units.get(name.rsplit("_", 1)[0], "")

    def compute(self, branch: Branch, **settings: Any) -> dict[str, float]:
        """Its numbers of a branch, by their names. A number that the run does not give is not-a-number. Settings that
        all measures may be given, `after`, `stock` and `study`, are left out where this one takes none of them;
        another that it does not take is a MeasureError."""
        return as_numbers(self.name, self.function(branch, **self.taken({**self.settings, **settings})))

    def taken(self, settings: dict[str, Any]) -> dict[str, Any]:
        """Those of the settings that the measure takes."""
        takes = self.takes
        wrong = [name for name in settings if name not in takes and name not in ("after", "stock", "study")]
        if wrong:
            raise MeasureError(f"measure {self.name} has no setting {wrong[0]!r}; it has {', '.join(takes) or 'none'}")
        return {name: value for name, value in settings.items() if name in takes}


def as_numbers(name: str, answer: Any) -> dict[str, float]:
    """What a measure's function answered as numbers by their names; a single number is called as the measure is."""
    numbers = answer if isinstance(answer, Mapping) else {name: answer}
    try:
        return {str(key): float(value) for key, value in numbers.items()}
    except (TypeError, ValueError) as error:
        raise MeasureError(f"measure {name} answered {answer!r}: it has to answer a number, or numbers by "
                           "names") from error


def measure(function: Callable[..., Any], **units: str) -> Measure:
    """A measure of the package, called as its function is."""
    return Measure(function.__name__, function, units)


BASIS, LENGTH, COUNT, MONEY, LINE = "basis points", "ns", "orders", "0.000001 dollars", "0.0001 dollars a share"

NAMES: dict[str, Measure] = {each.name: each for each in [
    measure(spreads.quoted_spread, quoted_spread=PRICE, quoted_spread_bps=BASIS, two_sided=PART),
    measure(spreads.effective_spread, effective_spread=PRICE, effective_spread_by_shares=PRICE,
            effective_spread_bps=BASIS),
    measure(spreads.realised_spread, realised_spread=PRICE, realised_spread_by_shares=PRICE),
    measure(spreads.price_impact, price_impact=PRICE, price_impact_by_shares=PRICE),
    measure(depth.displayed_depth, bid_depth=SHARES, ask_depth=SHARES, depth=SHARES),
    measure(depth.imbalance, imbalance="-1 to 1", imbalance_absolute=PART),
    measure(depth.order_flow_imbalance, order_flow_slope=LINE, order_flow_r2=PART),
    measure(depth.resiliency, resiliency=PART, recovery_time=LENGTH),
    measure(volatility.realised_variance, realised_variance="squared log-returns", realised_volatility_bps=BASIS),
    measure(volatility.autocorrelation, autocorrelation_returns="-1 to 1", autocorrelation_absolute="-1 to 1",
            autocorrelation_signs="-1 to 1"),
    measure(volatility.roll_spread, roll_spread=PRICE),
    measure(impact.amihud, amihud="a part of the price per million dollars"),
    measure(impact.kyle_lambda, kyle_lambda=LINE, kyle_r2=PART),
    measure(orders.order_fates, orders=COUNT, **{f"orders_{fate}": COUNT for fate in orders.FATES}),
    measure(orders.order_lifetime, order_lifetime=LENGTH, order_lifetime_median=LENGTH),
    measure(orders.cancel_ratio, cancel_ratio=PART, orders_per_trade="orders a trade"),
    measure(orders.fill_probability, fill_probability=PART, fill_probability_improving=PART,
            fill_probability_at_touch=PART, fill_probability_behind=PART),
    measure(orders.time_to_fill, time_to_fill=LENGTH, time_to_fill_improving=LENGTH, time_to_fill_at_touch=LENGTH,
            time_to_fill_behind=LENGTH),
    measure(orders.queue_at_entry, queue_at_entry=SHARES, queue_at_touch=SHARES),
    measure(agents.profit, profit=MONEY),
    measure(agents.maker_income, earned=MONEY, lost=MONEY, kept=MONEY),
    measure(agents.inventory, inventory=SHARES, inventory_most=SHARES),
    measure(latency.reaction_latency, quote_to_order=LENGTH, order_to_fill=LENGTH, fill_to_report=LENGTH),
]}

# Names of R's highfrequency for what a measure here is, or is the mean of.
OTHER_NAMES = {
    "quotedSpread": "quoted_spread", "effectiveSpread": "effective_spread", "realizedSpread": "realised_spread",
    "realized_spread": "realised_spread", "realized_variance": "realised_variance",
}


def find(wanted: str | Mapping[str, Any] | Callable[..., Any] | Measure, folder: str | Path = ".") -> Measure:
    """The measure that is named.

    By its name; by a table with `name` and settings, as {"name": "realised_spread", "horizon": "5s"}; by a function
    of a branch, to a number or to numbers by their names; or by a text FILE.py:FUNCTION, a file of Python from
    `folder` on. MeasureError where there is none such.
    """
    if isinstance(wanted, Measure):
        return wanted
    if isinstance(wanted, Mapping):
        return with_settings(wanted, folder)
    if callable(wanted):
        return Measure(getattr(wanted, "__name__", "measure"), wanted, {})
    if isinstance(wanted, str) and ".py:" in wanted:
        return of_file(wanted, Path(folder))
    known = NAMES.get(OTHER_NAMES.get(wanted, wanted)) if isinstance(wanted, str) else None
    if known is None:
        raise MeasureError(f"no measure {wanted!r}; there are {', '.join(NAMES)}, and your own as FILE.py:FUNCTION")
    return known


def suffixes(found: Sequence[Measure]) -> list[str]:
    """What stands behind the names of each measure's numbers: its settings, as in `(horizon=5s)`, where another one is
    called so too; so that the numbers of several horizons stay apart."""
    names = [each.name for each in found]
    words = [", ".join(f"{key}={value}" for key, value in each.settings.items()) for each in found]
    return [f"({said})" if said and names.count(name) > 1 else "" for name, said in zip(names, words)]


def with_settings(wanted: Mapping[str, Any], folder: str | Path) -> Measure:
    """The measure that a table names, with its settings."""
    settings = dict(wanted)
    name = settings.pop("name", None)
    if name is None:
        raise MeasureError(f"a measure {dict(wanted)!r} has no name: write name and then its settings")
    found = find(name, folder)
    found.taken(settings)
    return Measure(found.name, found.function, found.units, {**found.settings, **settings})


def of_file(wanted: str, folder: Path) -> Measure:
    """The measure that is a function of a file of Python."""
    place, name = wanted.rsplit(":", 1)
    path = folder / place
    if not path.is_file():
        raise MeasureError(f"measure {wanted}: there is no file {path}")
    specification = importlib.util.spec_from_file_location(path.stem, path)
    module = importlib.util.module_from_spec(specification)
    specification.loader.exec_module(module)
    function = getattr(module, name, None)
    if not callable(function):
        raise MeasureError(f"measure {wanted}: {path} has no function {name}")
    return Measure(name, function, {})
