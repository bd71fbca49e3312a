"""What each key of a study takes, in the order of docs/FORMATS.md, and how Python's values become the study's own.

A study has whole numbers, texts, arrays and tables alone. A time may be given as "9:30", a length of time as "250ms", a
price as "10.05" or a Decimal, the key of the draws as a number; `plain` turns each into what stands in the file.
"""

from __future__ import annotations

from collections.abc import Callable, Mapping, Sequence
from decimal import Decimal
from numbers import Integral
from typing import Any

from biqsolur.errors import StudyError
from biqsolur.prices import money, price
from biqsolur.times import duration, nanoseconds

Table = dict[str, Any]


def whole(value: Any) -> int:
    """A count or a place: a whole number, never a floating-point one, also where that is whole."""
    if isinstance(value, Integral) and not isinstance(value, bool):
        return int(value)
    if isinstance(value, (float, Decimal)) and value == value and abs(value) < 10**18 and value == int(value):
        raise StudyError(f"{value!r} is no whole number of the type int, which this key takes; write {int(value)}")
    raise StudyError(f"{value!r} is of the type {type(value).__name__}; this key takes a whole number")


def text(value: object) -> str:
    """A text."""
    if isinstance(value, str):
        return str(value)
    raise StudyError(f"{value!r} is of the type {type(value).__name__}; this key takes a text")


def draw_key(value: object) -> str:
    """The key of the random draws: 64 hexadecimal digits, or a number of 256 bits, whose digits they are."""
    if isinstance(value, Integral) and not isinstance(value, bool):
        if not 0 <= int(value) < 1 << 256:
            raise StudyError(f"{value} is no key: as a number it is from 0 to 2^256 - 1")
        return f"{int(value):064x}"
    if isinstance(value, bytes) and len(value) == 32:
        return value.hex()
    if isinstance(value, str):
        return str(value)
    raise StudyError(f"{value!r} is of the type {type(value).__name__}; a key is 64 hexadecimal digits as a text, or a "
                     "whole number")


def listed(value: Any, item: Callable[[object], Any]) -> list[Any]:
    """A list, with each of its items made plain; an array of numpy is one too."""
    if isinstance(value, (str, bytes, Mapping)) or not isinstance(value, Sequence) and not hasattr(value, "tolist"):
        raise StudyError(f"{value!r} is of the type {type(value).__name__}; this key takes a list")
    return [item(each) for each in value]


def bands(value: object) -> list[list[int]]:
    """Tick bands: pairs of the price from which on, and the tick there."""
    return listed(value, lambda pair: listed(pair, price))


def lengths_matrix(value: object) -> list[list[int]]:
    """Latencies: a row for each group of senders, a column for each of receivers."""
    return listed(value, lambda row: listed(row, duration))


Kind = Callable[[object], Any] | str
TABLE, TABLES = "table ", "tables "     # followed by the name of the table's own keys

FIELDS: dict[str, dict[str, Kind]] = {
    "study": {
        "version": whole, "key": draw_key, "open": nanoseconds, "close": nanoseconds, "events": whole, "stride": whole,
        "series": text, "exchange": TABLE + "exchange", "latency": TABLE + "latency", "stock": TABLES + "stock",
        "change": TABLES + "change", "agent": TABLES + "agent", "branch": TABLES + "branch",
    },
    "exchange": {"group": whole, "delay": duration},
    "latency": {"base": lengths_matrix, "jitter": lengths_matrix},
    "stock": {
        "symbol": text, "bands": bands, "add": money, "take": money, "series": text, "start": price, "mean": price,
        "pull": whole, "shock": price, "every": duration,
    },
    "change": {"time": nanoseconds, "stock": text, "kind": text, "bands": bands, "add": money, "take": money},
    "agent": {
        "kind": text, "group": whole, "stock": text, "first": nanoseconds, "every": duration, "wobble": duration,
        "delay": duration, "cash": money, "count": whole, "spread": duration, "size": whole, "noise": price,
        "margin": price, "short": whole, "long": whole, "half": price, "step": price, "levels": whole,
        "pause": duration,
    },
    "branch": {"name": text, "parent": text, "at": whole, "when": nanoseconds, "edit": TABLES + "edit"},
    "edit": {
        "kind": text, "stock": text, "agent": whole, "from": whole, "to": whole, "bands": bands, "add": money,
        "take": money, "base": duration, "jitter": duration, "name": text, "value": whole, "after": duration,
        "message": text, "offset": price,
    },
}
NAMES_OF_ENTRIES = {"stock": "symbol", "branch": "name", "agent": "kind"}   # by which an entry can be called


def plain_value(table: str, key: str, value: object, entry: Mapping[str, object]) -> Any:
    """The value of a key as it stands in a study. `table` names its table's kind, and `entry` is that table: the value
    of an edit of a trader is read as the parameter of that name is. Raises StudyError, which names the key."""
    kinds = FIELDS[table]
    if key not in kinds:
        raise StudyError(f"{key}: no such key; the keys here are {', '.join(kinds)}")
    kind = kinds[key]
    if table == "edit" and key == "value":
        kind = FIELDS["agent"].get(str(entry.get("name")), whole)
    if isinstance(kind, str):
        return plain_tables(kind, key, value)
    try:
        return kind(value)
    except StudyError as error:
        raise type(error)(f"{key}: {error}") from None


def plain_tables(kind: str, key: str, value: object) -> Any:
    """A table, or a list of tables, with each value as it stands in a study."""
    if kind.startswith(TABLES):
        if isinstance(value, (str, bytes, Mapping)) or not isinstance(value, Sequence):
            raise StudyError(f"{key}: this key takes a list of tables, not {value!r}")
        return [plain_table(kind.removeprefix(TABLES), item, f"{key} {number}") for number, item in enumerate(value)]
    return plain_table(kind.removeprefix(TABLE), value, key)


def plain_table(table: str, value: object, place: str = "") -> Table:
    """A table with each value as it stands in a study, its keys in the order of docs/FORMATS.md. `place` is put before
    what an error says. An object with a method `to_dict`, as each edit has, is a table too."""
    before = f"{place}: " if place else ""
    if hasattr(value, "to_dict"):
        value = value.to_dict()
    if not isinstance(value, Mapping):
        raise StudyError(f"{before}this is a table of keys and values, not {value!r}")
    made = {}
    for key, item in value.items():
        try:
            made[key] = plain_value(table, key, item, value)
        except StudyError as error:
            raise type(error)(f"{before}{error}") from None
    return {key: made[key] for key in FIELDS[table] if key in made}
