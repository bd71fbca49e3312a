"""From fields to columns of a data frame."""

from __future__ import annotations

import numpy
import pandas

from biqsolur.frames import Frames, bytes_at

NANOSECONDS = ("time", "handled", "busy_until", "own_time")
OWN_TOKEN_DIGITS = 13
SIDES = {ord("B"): "B", ord("S"): "S", 0: ""}


def whole(field: numpy.ndarray) -> numpy.ndarray:
    """A field of numbers as signed 64-bit numbers; unsigned ones only where a number is too great for that."""
    if field.dtype.kind == "u" and field.dtype.itemsize == 8 and len(field) and field.max() >= 1 << 63:
        return field.astype(numpy.uint64)
    return field.astype(numpy.int64)


def small(field: numpy.ndarray) -> numpy.ndarray:
    """A field of numbers as signed 32-bit numbers; as 64-bit ones only where a number is too great for that."""
    if field.dtype.itemsize > 2 and len(field) and field.max() >= 1 << 31:
        return whole(field)
    return field.astype(numpy.int32)


def dollars(price: numpy.ndarray) -> numpy.ndarray:
    """Prices in dollars, for pictures: the nearest floating-point number, and not-a-number where there is none."""
    out = price / 10000
    out[price == 0] = numpy.nan
    return out


def words(codes: numpy.ndarray, names: dict[int, str]) -> pandas.Categorical:
    """A column of words from a column of codes. A code without a name gets its letter, as a further category."""
    other = {int(code): chr(code) for code in numpy.unique(codes) if int(code) not in names}
    texts = list(dict.fromkeys([*names.values(), *other.values()]))
    places = numpy.zeros(256, numpy.int16)
    for code, text in {**names, **other}.items():
        places[code] = texts.index(text)
    return pandas.Categorical.from_codes(places[codes], texts)


def letters(codes: numpy.ndarray, known: str) -> pandas.Categorical:
    """A column of letters from their codes; 0 is the empty text. The letters of `known` are always categories."""
    return words(codes, {0: "", **{ord(letter): letter for letter in known}})


def symbols_of(texts: numpy.ndarray, known: list[str]) -> pandas.Categorical:
    """A column of symbols from their eight bytes, taken as a number. Those of `known` are always categories."""
    texts = texts.astype(numpy.uint64)
    values = numpy.sort(pandas.unique(texts))
    found = [symbol_text(int(value)) for value in values]
    categories = list(dict.fromkeys([*known, "", *found]))
    places = numpy.array([categories.index(symbol) for symbol in found], numpy.int64)
    codes = places[numpy.searchsorted(values, texts)] if len(values) else numpy.zeros(0, numpy.int64)
    return pandas.Categorical.from_codes(codes, categories)


def symbol_text(number: int) -> str:
    """A symbol from its eight bytes, taken as a number; 0 is the empty text."""
    return number.to_bytes(8, "big").decode("latin1").rstrip(" \0")


def stock_symbols(stock: numpy.ndarray, known: list[str]) -> pandas.Categorical:
    """A column of symbols from numbers of stocks; a number of none gets the empty text."""
    codes = numpy.where((stock >= 0) & (stock < len(known)), stock, len(known))
    return pandas.Categorical.from_codes(codes, [*known, ""])


def long_numbers(upper: numpy.ndarray, lower: numpy.ndarray) -> numpy.ndarray:
    """Signed numbers of 16 bytes as Python's whole numbers, which are exact."""
    out = numpy.empty(len(upper), object)
    out[:] = [(int(high) << 64) + int(low) for high, low in zip(upper, lower)]
    return out


def exact(numbers: list[int]) -> numpy.ndarray:
    """A column of Python's whole numbers, which are exact at any size."""
    out = numpy.empty(len(numbers), object)
    out[:] = numbers
    return out


def timedeltas(frame: pandas.DataFrame) -> pandas.DataFrame:
    """A copy of a data frame with its times as pandas' Timedelta past midnight in place of nanoseconds."""
    changed = {name: pandas.to_timedelta(frame[name], unit="ns") for name in NANOSECONDS if name in frame}
    return frame.assign(**changed)


# ---------------------------------------------------------------- tokens

class Tokens:
    """Order tokens as whole numbers, so that they take eight bytes and can be compared.

    A trader's own token is `T` and 13 digits (the trader in four, the number of its token in nine), and its number
    is that of the digits: T0002000000017 is 2000000017. The others, which only injected orders have, are -1, -2
    and so on in the order in which the file first has them; `others` lists them.
    """

    def __init__(self, frames: Frames) -> None:
        found = []
        for letter, size, offset in TOKEN_FIELDS:
            rows = numpy.flatnonzero((frames.kinds == ord(letter)) & (frames.sizes == size))
            for part in numpy.array_split(rows, len(rows) // (1 << 18) + 1):
                table = bytes_at(frames.raw, frames.starts[part] + offset, 14)
                other = numpy.flatnonzero(~is_own_token(table))
                found += [(int(part[row]), table[row].tobytes()) for row in other]
        self.others = list(dict.fromkeys(token.decode("latin1").rstrip(" ") for _, token in sorted(found)))
        self.codes = {token: -1 - place for place, token in enumerate(self.others)}

    def numbers(self, field: numpy.ndarray) -> numpy.ndarray:
        """The numbers of a field of tokens."""
        table = numpy.ascontiguousarray(field).view(numpy.uint8).reshape(len(field), 14)
        own = is_own_token(table)
        out = numpy.zeros(len(table), numpy.int64)
        for column in range(1, 14):
            out *= 10
            out += table[:, column]
            out -= ord("0")
        for row in numpy.flatnonzero(~own):
            out[row] = self.codes[table[row].tobytes().decode("latin1").rstrip(" ")]
        return out

    def text(self, number: int) -> str:
        """The token of a number; 0 stands for none."""
        if number == 0:
            return ""
        return self.others[-1 - number] if number < 0 else f"T{number:0{OWN_TOKEN_DIGITS}d}"

    def texts(self, numbers: pandas.Series) -> list[str]:
        """The tokens of a column of numbers."""
        return [self.text(number) for number in numbers.tolist()]


# Where frames have tokens: letter, size, offset in the payload.
TOKEN_FIELDS = [("l", 44, 11), ("n", 44, 11)] + [
    (letter, head + size, head + offset)
    for letter, head in [("e", 43), ("w", 22)]
    for size, offset in [(49, 1), (19, 1), (66, 9), (28, 9), (40, 9), (24, 9)]
]


def is_own_token(table: numpy.ndarray) -> numpy.ndarray:
    """For each row of 14 bytes whether it is `T` and 13 digits that are not all 0."""
    digits = table[:, 1:]
    return ((table[:, 0] == ord("T")) & ((digits >= ord("0")) & (digits <= ord("9"))).all(axis=1)
            & (digits != ord("0")).any(axis=1))
