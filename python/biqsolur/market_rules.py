"""The faults of a study's top keys, hours, latencies, stocks, series and dated changes: rules 1 to 24, and 36."""

from __future__ import annotations

import csv
import difflib

from biqsolur.rule_words import (
    CHANGE, CHANGES, DAY_END, MILLION, MOST_PRICE, RANGES, STOCK, STOCK_RULE, TABLES, TOP, Table, band_faults,
    did_you_mean, is_number, is_of_type, key_faults, kind_fault, ordinal, range_fault, range_faults, shown, shown_key,
    stock_fault)


def top_faults(study: Table, place: int) -> list[str]:
    """Rule 1."""
    unknown = [key for key in study if key not in TOP]
    if place == 99:
        return [f"unknown key {shown_key(key)}" + did_you_mean(key, [known for known in TOP if known not in study])
                + ("; edits stand in a branch, as `[[branch.edit]]` behind it" if key == "edit" else "")
                for key in unknown]
    key = list(TOP)[place - 1]
    if key in study:
        brackets = "; it stands in single brackets `[" + key + "]`, and each of its tables in double ones" \
            if TOP[key] == TABLES and isinstance(study[key], dict) else ""
        return [f"`{key}` is {shown(study[key])}, and is to be {TOP[key]}{brackets}"]
    near = [other for other in unknown if difflib.get_close_matches(other, [key], 1, 0.6)]
    if near:
        return [f"unknown key {shown_key(near[0])}; did you mean `{key}`? It has no default"]
    inside = [f"{name}" for name, table in study.items() if isinstance(table, dict) and key in table]
    inside += [f"[{name}]" for name, tables in study.items() if is_of_type(tables, TABLES)
               for table in tables if key in table and key not in ("stock", "series")]
    hint = f"; it stands in [{inside[0]}], as all keys below that line belong there" if inside else ""
    return [f"the key `{key}` is missing: {TOP[key]}{hint}"]


def hours_faults(study: Table) -> list[str]:
    """Rule 4."""
    opened, close = study["open"], study["close"]
    if opened < 0 or opened > close and opened > DAY_END:
        return [f"`open` is {opened:,}, and is to be 0 to {DAY_END:,}"]
    if close < opened:
        return [f"`close` is {close:,}, and is not to be before `open`, which is {opened:,}"]
    return [f"`close` is {close:,}, and is to be at most {DAY_END:,}, the last nanosecond of the day"]


def square_faults(study: Table) -> list[str]:
    """Rule 7."""
    shapes = []
    for key in ("base", "jitter"):
        rows = study["latency"][key]
        sizes = sorted({len(row) for row in rows})
        shapes.append(f"`{key}` has {len(rows)} rows" + (f" of {' and '.join(map(str, sizes))} "
                                                         "numbers" if rows else ""))
    return [f"{shapes[0]}, {shapes[1]}, and both are to be square and of one size, from 1 to 32"]


def cell_faults(study: Table, place: int) -> list[str]:
    """Rule 8."""
    key, cell = ("jitter", place - 1024) if place >= 1024 else ("base", place)
    row, column = divmod(cell, 32)
    return range_fault(f"{key}[{row}][{column}]", study["latency"][key][row][column], RANGES[key])


def symbol_faults(symbol: str) -> list[str]:
    """Rule 12."""
    return [f"`symbol` is {shown(symbol)} of {len(symbol.encode())} bytes, and is to have 1 to 8 visible ASCII "
            "characters and no space"]


def stock_faults(study: Table, rule: int, place: int) -> list[str]:
    """Rules 11 to 17 and 20."""
    stock = study["stock"][place]
    if rule == 11:
        series = stock.get("series", "")
        if "series" in stock and series not in ("rule", "rows"):
            return [f"`series` is {shown(series)}, and is to be \"rule\" or "
                    "\"rows\"" + did_you_mean(series, ["rule", "rows"])]
        if series == "":
            return ["the key `series` is missing: \"rule\" or \"rows\""]
        return key_faults(stock, {**STOCK, **STOCK_RULE} if series == "rule" else STOCK)
    if rule == 12:
        return symbol_faults(stock["symbol"])
    if rule == 13:
        first = [other["symbol"] for other in study["stock"]].index(stock["symbol"])
        return [f"`symbol` is {shown(stock['symbol'])}, which the {ordinal(first)} `[[stock]]` has already"]
    if rule == 14:
        return band_faults(stock["bands"])
    if rule == 17:
        every = stock.get("every")
        faults = range_faults(stock, ("pull", "shock"))
        if is_number(every) and every < 1:
            faults.append(f"`every` is {every:,}, and is to be at least 1")
        elif is_number(every) and (study["close"] - study["open"]) // every > 65_535:
            least = (study["close"] - study["open"]) // 65_536 + 1
            faults.append(f"`every` is {every:,}, and is to be at least {least:,}: from `open` to `close` there are at "
                          "most 65,535 steps")
        return faults
    if rule == 20:
        return [f"the series file {shown(study.get('series'))} has no row of {shown(stock['symbol'])} at `open` = "
                f"{study['open']:,} or before it"]
    return range_faults(stock, {15: ("add", "take"), 16: ("start", "mean")}[rule])


def series_key_faults(study: Table) -> list[str]:
    """Rule 18."""
    rows = [stock["symbol"] for stock in study["stock"] if stock["series"] == "rows"]
    if rows:
        return [f"the key `series`, the path of the series file, is missing: the stock {rows[0]} has `series = "
                "\"rows\"`"]
    return [f"`series` is {shown(study['series'])}, and is not to be there: no stock has `series = \"rows\"`"]


def record_faults(study: Table, place: int) -> list[str]:
    """Rule 19."""
    path = study["series"]
    try:
        with open(path, newline="", encoding="utf-8-sig", errors="replace") as file:
            reader = csv.reader(file)
            records = [(reader.line_num, record) for record in reader if record]
    except (OSError, csv.Error, ValueError) as error:
        return [f"{path} cannot be looked at: {error}"]
    if place >= len(records):
        return [f"{path} has no record; it is to begin with `symbol,time,value`"]
    line, record = records[place]
    name = f"{path}, line {line} ({shown(','.join(record))}):"
    if place == 0:
        return [f"{name} the first record is to be `symbol,time,value`"]
    if place > MILLION:
        return [f"{name} there are at most {MILLION:,} rows"]
    if len(record) != 3:
        return [f"{name} its fields are {len(record)}, and are to be three: symbol, time, value"]
    symbol, time, value = record
    rows = [stock["symbol"] for stock in study["stock"] if stock["series"] == "rows"]
    faults = []
    if symbol not in rows:
        faults.append(f"`symbol` is {shown(symbol)}, and is to be that of a stock with rows: {', '.join(rows)}"
                      + did_you_mean(symbol, rows))
    for key, text, digits, least, most in (("time", time, 14, 0, DAY_END), ("value", value, 10, 1, MOST_PRICE)):
        if not (text.isascii() and text.isdigit() and len(text) <= digits and least <= int(text) <= most):
            faults.append(f"`{key}` is {shown(text)}, and is to be {least:,} to {most:,} in 1 to {digits} digits")
    if not faults:
        before = [int(row[1]) for _, row in records[1:place] if row[0] == symbol]
        faults.append(f"`time` is {time}, and is to be above that of the row of {symbol} before it, "
                      f"{before[-1] if before else 'none'}")
    return [f"{name} " + "; ".join(faults)]


def change_faults(study: Table, rule: int, place: int) -> list[str]:
    """Rules 21 to 24."""
    changes = study["change"]
    if place >= 1024:
        return [f"there are {len(changes):,} changes, and are to be at most 1,024"]
    change = changes[place]
    if rule == 21:
        if isinstance(change.get("kind"), str) or "kind" not in change:
            wrong = kind_fault(change["kind"], CHANGES) if "kind" in change else []
            return wrong or key_faults(change, {**CHANGE, **CHANGES.get(change.get("kind"), {})})
        return key_faults(change, CHANGE)
    if rule == 22:
        before = changes[place - 1]["time"] if place else study["open"]
        return [f"`time` is {change['time']:,}, and is to be {max(before, study['open']):,} to {study['close']:,}: "
                "from `open` to `close`, and not before the change above"]
    if rule == 23:
        return stock_fault(change["stock"], study)
    return band_faults(change["bands"]) if change["kind"] == "tick" else range_faults(change, ("add", "take"))
