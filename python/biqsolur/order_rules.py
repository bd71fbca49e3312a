"""The faults of a file of orders for a `cross`: which field of which record, and what is asked there.

The program decides which record breaks a rule; here it is looked at. The rules are those of docs/FORMATS.md.
"""

from __future__ import annotations

import csv
import io
import re

from biqsolur.branch_rules import traders_of
from biqsolur.rule_words import MOST_PRICE, Table, shown

HEADER = ["agent", "side", "shares", "price"]
MOST_ORDERS = 16_384
MOST_TRADERS = 511          # of any study
MOST_AGENT_DIGITS, MOST_SHARES_DIGITS, MOST_PRICE_DIGITS = 3, 6, 10
PRICE_IN_DOLLARS = re.compile(r"\$?\d+\.\d+")


def order_records(data: bytes) -> list[tuple[int, list[str]]]:
    """(its last line's number from 1, its fields) of each record; empty lines are none."""
    reader = csv.reader(io.StringIO(data.decode("utf-8-sig", "replace"), newline=""))
    out = []
    try:
        for record in reader:
            if record:
                out.append((reader.line_num, record))
    except csv.Error:
        pass                    # what follows a field that is too long isn't looked at
    return out


def explain_orders(data: bytes, record: int, study: Table | None = None) -> str:
    """What is wrong with a record of the file, in a sentence; where nothing is seen there, what is asked."""
    records = order_records(data)
    if record >= len(records):
        return "record 0: the file has no record, and is to begin with `agent,side,shares,price`"
    line, fields = records[record]
    name = f"record {record} (line {line}, {shown(','.join(fields))})"
    faults = record_faults(fields, record, len(traders_of(study)) if study else None)
    asked = ["this is asked: four fields, the number of a trader, B or S, shares and a price"]
    return f"{name}: " + "; ".join(faults or asked)


def first_bad_record(data: bytes, study: Table | None = None) -> int | None:
    """The number of the first record in which a fault is seen, or None; without the study no trader is known to be
    missing."""
    records = order_records(data)
    traders = len(traders_of(study)) if study else None
    bad = (number for number, (_, fields) in enumerate(records) if record_faults(fields, number, traders))
    return next(bad, None if records else 0)


def record_faults(fields: list[str], record: int, traders: int | None) -> list[str]:
    """What is wrong with a record of this number, in a study of so many traders (None: not known)."""
    if record == 0:
        return [] if fields == HEADER else ["the first record is to be `agent,side,shares,price`, in small letters and "
                                            "without spaces"]
    if record > MOST_ORDERS:
        return [f"there are more than {MOST_ORDERS:,} orders, which are the most"]
    if len(fields) != len(HEADER):
        return [f"it has {len(fields)} field{'' if len(fields) == 1 else 's'}, and is to have four: agent, side, "
                "shares, price"]
    agent, side, shares, price = fields
    return [*agent_faults(agent, traders), *side_faults(side),
            *number_faults("shares", shares, MOST_SHARES_DIGITS, 999_999), *price_faults(price)]


def agent_faults(text: str, traders: int | None) -> list[str]:
    """What is wrong with the field `agent`."""
    most = MOST_TRADERS if traders is None else traders
    whose = "" if traders is None else f" of the study, which has {traders}"
    if is_number(text, MOST_AGENT_DIGITS) and 1 <= int(text) <= most:
        return []
    zero = is_number(text, MOST_AGENT_DIGITS) and int(text) == 0
    exchange = "; 0 is the exchange, which sends no orders" if zero else ""
    return [f"`agent` is {shown(text)}, and is to be the number of a trader{whose}: 1 to {most} in 1 to "
            f"{MOST_AGENT_DIGITS} digits{exchange}"]


def side_faults(text: str) -> list[str]:
    """What is wrong with the field `side`."""
    if text in ("B", "S"):
        return []
    meant = {"b": "B", "s": "S"}.get(text.strip().lower()[:1], "")
    return [f"`side` is {shown(text)}, and is to be `B` to buy or `S` to sell"
            + (f"; did you mean `{meant}`?" if meant else "")]


def price_faults(text: str) -> list[str]:
    """What is wrong with the field `price`."""
    faults = number_faults("price", text, MOST_PRICE_DIGITS, MOST_PRICE)
    if faults and PRICE_IN_DOLLARS.fullmatch(text):
        return [f"{faults[0]}; a price has four implied decimals, so ten dollars are 100000"]
    return faults


def number_faults(name: str, text: str, digits: int, most: int) -> list[str]:
    """What is wrong with a field of a whole number from 1."""
    if is_number(text, digits) and 1 <= int(text) <= most:
        return []
    return [f"`{name}` is {shown(text)}, and is to be 1 to {most:,}, in 1 to {digits} digits and nothing else"]


def is_number(text: str, digits: int) -> bool:
    """Whether a text is 1 to so many digits."""
    return text.isascii() and text.isdigit() and len(text) <= digits


def about_orders(data: bytes) -> str:
    """What a file of orders is, in words."""
    return f"a file of orders for `cross`, {max(len(order_records(data)) - 1, 0):,} of them"
