"""Prices and fees: dollars as exact decimals, and the whole numbers that a study has for them."""

from __future__ import annotations

import re
from decimal import Decimal
from numbers import Integral

from biqsolur.errors import PriceError

PRICE_DECIMALS = 4
MONEY_DECIMALS = 6
DOLLARS = re.compile(r"[+-]?\d+(?:\.\d+)?")


def price(value: object) -> int:
    """A price (or a difference of two) as a whole number with four implied decimals: 100000 is ten dollars.

    `value` is dollars as a `Decimal` or a text ("10.05"), or already the whole number (100500). A floating-point number
    is refused, as 10.05 is none exactly. Raises PriceError.
    """
    return scaled(value, PRICE_DECIMALS, "price", "10.05", "100500")


def money(value: object) -> int:
    """Money, or a fee a share, in whole millionths of a dollar: 3000 is three tenths of a cent.

    `value` is dollars as a `Decimal` or a text ("0.003"), or already the whole number (3000). Raises PriceError.
    """
    return scaled(value, MONEY_DECIMALS, "amount of money", "0.003", "3000")


def price_text(number: int) -> str:
    """A price in dollars, with two decimals or as many more as it has: "10.05", "10.0525"."""
    dollars, rest = divmod(abs(number), 10**PRICE_DECIMALS)
    cents = f"{rest:04}"
    cents = cents[:2] + cents[2:].rstrip("0")
    return f"{'-' if number < 0 else ''}{dollars}.{cents}"


def scaled(value: object, decimals: int, what: str, text_example: str, number_example: str) -> int:
    """An exact number of dollars in units of its last decimal."""
    wanted = (
        f"write dollars as a text (\"{text_example}\") or a Decimal, or the whole number {number_example} with its "
        f"{decimals} implied decimals")
    if isinstance(value, bool):
        raise PriceError(f"{value!r} is no {what}; {wanted}")
    if isinstance(value, Integral):
        return int(value)
    if isinstance(value, float):
        raise PriceError(f"{value!r} is a floating-point number, which is no exact {what}; {wanted}")
    if isinstance(value, str):
        if not DOLLARS.fullmatch(value.strip()):
            raise PriceError(f"{value!r} is no {what}; {wanted}")
        value = Decimal(value.strip())
    if not isinstance(value, Decimal):
        raise PriceError(f"{value!r} is of the type {type(value).__name__}; {wanted}")
    return whole_units(value, decimals, what)


def whole_units(value: Decimal, decimals: int, what: str) -> int:
    """A decimal number in units of 10^-decimals, where it has no digits behind them."""
    if not value.is_finite():
        raise PriceError(f"{value} is no {what}")
    sign, digits, exponent = value.as_tuple()
    assert isinstance(exponent, int)
    shift = exponent + decimals
    number = int("".join(map(str, digits)))
    if shift < 0:
        number, rest = divmod(number, 10**-shift)
        if rest:
            raise PriceError(f"{value} has more than {decimals} decimals, the most that a {what} has")
    elif shift > 40:
        raise PriceError(f"{value} is too large for a {what}")
    else:
        number *= 10**shift
    return -number if sign else number
