"""The keys, types and ranges of a study, and the words in which a fault in one of them is told.

Nothing here refuses a study. The keys and ranges are those of docs/FORMATS.md.
"""

from __future__ import annotations

import difflib
import json
from collections.abc import Iterable
from typing import Any

HOUR = 3_600_000_000_000
DAY_END = 86_399_999_999_999
MOST_PRICE = 1_999_999_900
BILLION = 1_000_000_000
MILLION = 1_000_000
MOST_JITTER = 4_294_967_295
MOST_EVENTS = 4_000_000

Table = dict[str, Any]

# ---------------------------------------------------------------- types of keys

NUMBER, TEXT, TABLE = "a whole number", "a text", "a table"
TABLES = "an array of tables"
ROWS = "an array of arrays of whole numbers"
PAIRS = "an array of pairs [from, tick] of whole numbers"
DIGITS = "a text of the digits 0-9 and a-f"

TOP = {
    "version": NUMBER, "key": TEXT, "open": NUMBER, "close": NUMBER, "events": NUMBER, "stride": NUMBER, "series": TEXT,
    "exchange": TABLE, "latency": TABLE, "stock": TABLES, "change": TABLES, "agent": TABLES, "branch": TABLES,
}
TOP_MAY = ("stride", "series", "change", "branch")
STOCK = {"symbol": TEXT, "bands": PAIRS, "add": NUMBER, "take": NUMBER, "series": TEXT}
STOCK_RULE = {"start": NUMBER, "mean": NUMBER, "pull": NUMBER, "shock": NUMBER, "every": NUMBER}
CHANGE = {"time": NUMBER, "stock": TEXT, "kind": TEXT}
CHANGES: dict[str, dict[str, str]] = {
    "tick": {"bands": PAIRS}, "fee": {"add": NUMBER, "take": NUMBER}, "halt": {}, "resume": {}}
AGENT = {"kind": TEXT, "group": NUMBER, "stock": TEXT, "first": NUMBER, "every": NUMBER}
AGENT_MAY = {"wobble": NUMBER, "delay": NUMBER, "cash": NUMBER, "count": NUMBER, "spread": NUMBER}
AGENTS = {
    "watcher": (), "noise": ("size",), "value": ("size", "noise", "margin"), "momentum": ("size", "short", "long"),
    "maker": ("size", "half", "step", "levels", "pause"),
}
BRANCH = {"name": TEXT, "parent": TEXT}
BRANCH_STOPS = {1: {"at": NUMBER}, 2: {"at": NUMBER, "when": NUMBER}}       # by the study's version
MOST_BRANCHES = {1: 127, 2: 255}
EDITS = {
    "tick": {"stock": TEXT, "bands": PAIRS}, "fee": {"stock": TEXT, "add": NUMBER, "take": NUMBER},
    "halt": {"stock": TEXT}, "resume": {"stock": TEXT},
    "latency": {"from": NUMBER, "to": NUMBER, "base": NUMBER, "jitter": NUMBER},
    "agent": {"agent": NUMBER, "name": TEXT, "value": NUMBER}, "silence": {"agent": NUMBER},
    "inject": {"agent": NUMBER, "after": NUMBER, "message": DIGITS}, "series": {"stock": TEXT, "offset": NUMBER},
}

# The least and the greatest value of each number, by its key.
RANGES = {
    "events": (1, MILLION), "stride": (100, MILLION), "add": (-MILLION, MILLION), "take": (-MILLION, MILLION),
    "start": (1, MOST_PRICE), "mean": (1, MOST_PRICE), "pull": (0, MILLION), "shock": (0, BILLION),
    "spread": (0, HOUR), "delay": (0, HOUR), "wobble": (0, MOST_JITTER), "size": (1, 999_999), "noise": (0, BILLION),
    "margin": (0, BILLION), "half": (0, BILLION), "step": (0, BILLION), "levels": (1, 8), "pause": (0, HOUR),
    "short": (1, 64), "long": (2, 64), "base": (0, HOUR), "jitter": (0, MOST_JITTER), "after": (0, DAY_END),
    "offset": (-2 * BILLION, 2 * BILLION),
}
EVERY = (1, HOUR)       # of an agent; that of a stock has no upper end of its own


# ---------------------------------------------------------------- words

def shown(value: Any) -> str:
    """A value as a reader of the study knows it, on one line."""
    text = json.dumps(value, ensure_ascii=False, default=str)
    return text if len(text) <= 60 else text[:57] + "..."


def shown_key(key: str) -> str:
    """A key of the study, on one line."""
    return f"`{shown(key)[1:-1]}`"


def ordinal(place: int) -> str:
    """The first, second, ... for a place from 0."""
    names = ["first", "second", "third", "fourth", "fifth", "sixth", "seventh", "eighth", "ninth", "tenth"]
    if place < len(names):
        return names[place]
    number = place + 1
    end = "th" if number % 100 in (11, 12, 13) else {1: "st", 2: "nd", 3: "rd"}.get(number % 10, "th")
    return f"{number}{end}"


def entry_name(key: str, place: int, entry: Table | None = None) -> str:
    """How an entry of an array of tables is called."""
    own = (entry or {}).get({"stock": "symbol", "branch": "name"}.get(key, ""))
    own = f", {shown(own)}" if isinstance(own, str) else ""
    return f"{key} entry {place} (the {ordinal(place)} `[[{key}]]`{own})"


def did_you_mean(word: str, known: Iterable[str], end: str = "?") -> str:
    """A question for the nearest of the known words, or nothing where none is near."""
    if not isinstance(word, str):
        return ""
    known = list(known)
    near = difflib.get_close_matches(word, known, 1, 0.6) or [
        other for other in known if other.lower() == word.lower()]
    return f"; did you mean `{near[0]}`{end}" if near else ""


def is_number(value: Any) -> bool:
    """Whether a value is a whole number of TOML."""
    return type(value) is int


def is_of_type(value: Any, kind: str) -> bool:
    """Whether a value is of the type that a key asks for."""
    if kind == NUMBER:
        return is_number(value)
    if kind == TEXT:
        return isinstance(value, str)
    if kind == DIGITS:
        return isinstance(value, str) and all(letter in "0123456789abcdef" for letter in value)
    if kind == TABLE:
        return isinstance(value, dict)
    if kind == TABLES:
        return isinstance(value, list) and all(isinstance(item, dict) for item in value)
    rows = isinstance(value, list) and all(isinstance(row, list) and all(map(is_number, row)) for row in value)
    return rows and (kind == ROWS or all(len(row) == 2 for row in value))


# ---------------------------------------------------------------- what is wrong

def key_faults(table: Table, must: dict[str, str], may: dict[str, str] | None = None) -> list[str]:
    """Which keys of a table are unknown, missing, or of a wrong type."""
    may = may or {}
    known = {**must, **may}
    absent = [key for key in known if key not in table]
    faults = []
    guessed, unguessed = set(), False
    for key in table:
        if key not in known:
            near = difflib.get_close_matches(key, absent, 1, 0.6)
            guessed.update(near)
            unguessed = unguessed or not near
            faults.append(f"unknown key {shown_key(key)}" + (f"; did you mean `{near[0]}`?" if near else ""))
    faults += [f"the key `{key}` is missing" for key in must if key not in table and key not in guessed]
    faults += [f"`{key}` is {shown(table[key])}, and is to be {kind}" for key, kind in known.items()
               if key in table and not is_of_type(table[key], kind)]
    return faults + ([f"its keys are {', '.join(f'`{key}`' for key in known)}"] if unguessed else [])


def range_fault(key: str, value: Any, limits: tuple[int, int]) -> list[str]:
    """That a number is out of its range, or nothing."""
    least, most = limits
    if is_number(value) and least <= value <= most:
        return []
    return [f"`{key}` is {shown(value)}, and is to be {least:,} to {most:,}"]


def range_faults(table: Table, keys: Iterable[str]) -> list[str]:
    """Which of these keys are out of range."""
    return [fault for key in keys if key in table for fault in range_fault(key, table[key], RANGES[key])]


def band_faults(bands: list[list[int]]) -> list[str]:
    """What is wrong with bands of ticks."""
    if not 1 <= len(bands) <= 16:
        return [f"`bands` has {len(bands)} pairs, and is to have 1 to 16"]
    before = -1
    for place, (start, tick) in enumerate(bands):
        name = f"the {ordinal(place)} pair of `bands`, {shown([start, tick])},"
        if not 0 <= start <= MOST_PRICE:
            return [f"{name} begins at {start:,}, and is to begin at 0 to {MOST_PRICE:,}"]
        if not 1 <= tick <= MILLION:
            return [f"{name} has the tick {tick:,}, and is to have one of 1 to {MILLION:,}"]
        if place == 0 and start != 0:
            return [f"{name} begins at {start:,}, and is to begin at 0"]
        if start <= before:
            return [f"{name} does not begin above the one before it, which begins at {before:,}"]
        if start % tick != 0:
            return [f"{name} begins at {start:,}, which is no multiple of its tick {tick:,}"]
        before = start
    return []


def group_fault(key: str, value: Any, study: Table) -> list[str]:
    """That a group is none of [latency], or nothing."""
    count = len(study["latency"]["base"])
    if is_number(value) and 0 <= value < count:
        return []
    return [f"`{key}` is {shown(value)}, and is to be a group of [latency], 0 to {count - 1}"]


def stock_fault(symbol: Any, study: Table) -> list[str]:
    """That a symbol is that of no stock, or nothing."""
    symbols = [stock.get("symbol") for stock in study["stock"]]
    if symbol in symbols:
        return []
    return [f"`stock` is {shown(symbol)}, and is to be the symbol of a stock: "
            + ", ".join(map(shown, symbols)) + did_you_mean(symbol, symbols)]


def kind_fault(kind: Any, known: Iterable[str]) -> list[str]:
    """That a kind is unknown, or nothing."""
    known = list(known)
    if isinstance(kind, str) and kind in known:
        return []
    return [f"`kind` is {shown(kind)}, and is to be one of {', '.join(known)}" + did_you_mean(kind, known)]
