"""What a stock was worth: its fundamental value over time, as the traders were told it.

    branch.value("ABM")                                 # the value over time
    branch.value_at("ABM", branch.quotes.event)         # the value that held at each of these events

A bundle doesn't have the value; it follows from the study (docs/RULES.md, "The value series"). By a rule it starts at
`start` and goes, at each step of `every` nanoseconds, `pull` millionths of its distance toward `mean`, rounded down,
and takes a shock that a draw picks: word j of ChaCha20 (RFC 8439's block function, with a counter and a nonce of 64
bits) under the study's key, with the nonce 2^33 and the stock's number. By rows it is the last row's that is not later.
Edits give it an offset. All of this is exact: whole numbers with four implied decimals, from 1 to 1,999,999,900.

The words are made by `cryptography` (Debian: python3-cryptography), the values from them step by step.
"""

from __future__ import annotations

import csv
from collections.abc import Iterable
from typing import TYPE_CHECKING, Any

import numpy
import pandas

from biqsolur import columns, missing
from biqsolur.errors import MissingPackageError, StudyNeededError, UnknownSymbolError
from biqsolur.study import Study

if TYPE_CHECKING:
    from biqsolur.bundle import Branch

LEAST_PRICE, MOST_PRICE = 1, 1_999_999_900
MILLION = 1_000_000
FIRST_STREAM = 1 << 33          # of the shocks: stock k draws from stream FIRST_STREAM + k


def value_frame(branch: Branch, symbol: str, study: object = None) -> pandas.DataFrame:
    """A row for each step or row of the series from the open on, and for each edit: what `Branch.value` answers."""
    made = study_of(branch, study)
    times, series = series_of(made, symbol)
    edits = offset_edits(branch, made, symbol)
    edit_times = numpy.array([time for _, time, _ in edits], numpy.int64)
    offsets = numpy.cumsum([0, *(offset for _, _, offset in edits)])
    moments = numpy.concatenate([times, edit_times])
    # Where a step and an edit have one time the step comes first: an edit is made behind all events of its time.
    order = numpy.argsort(moments, kind="stable")
    shown = moments[order]
    plain = series[numpy.searchsorted(times, shown, "right") - 1]
    offset = offsets[numpy.cumsum(order >= len(times))]
    value = with_offset(plain, offset)
    return pandas.DataFrame({
        "time": shown, "value": value, "value_dollars": columns.dollars(value), "series": plain, "offset": offset})


def values_at(branch: Branch, symbol: str, events: Iterable[int], study: object = None) -> numpy.ndarray:
    """The value at each of these events (their numbers, from 1): what `Branch.value_at` answers."""
    made = study_of(branch, study)
    times, series = series_of(made, symbol)
    numbers = numpy.asarray(list(events), numpy.int64)
    wrong = numbers[(numbers < 1) | (numbers > len(branch.events))]
    if len(wrong):
        raise IndexError(f"there is no event {wrong[0]} in {branch!r}, which has the events 1 to "
                         f"{len(branch.events):,}")
    edits = offset_edits(branch, made, symbol)
    offsets = numpy.cumsum([0, *(offset for _, _, offset in edits)])
    before = numpy.array([event for event, _, _ in edits], numpy.int64)
    plain = series[numpy.searchsorted(times, branch.events.time.to_numpy()[numbers - 1], "right") - 1]
    return with_offset(plain, offsets[numpy.searchsorted(before, numbers, "left")])


def with_offset(series: numpy.ndarray, offset: numpy.ndarray) -> numpy.ndarray:
    """Values with their offsets, within the range of prices."""
    return numpy.clip(series + offset, LEAST_PRICE, MOST_PRICE)


# ---------------------------------------------------------------- the study

def study_of(branch: Branch, study: object = None) -> Study:
    """The study of a branch's bundle: the given one, else what stands beside the bundle. Raises StudyNeededError where
    there is none, or where it isn't the bundle's."""
    bundle = branch.bundle
    known: Any = bundle.study if study is None else study
    if known is None:
        raise StudyNeededError(f"the value of a stock follows from the study, which {bundle.path} alone doesn't have: "
                               "give it, value(symbol, study=\"study.toml\"), or make the bundle by biqsolur.run, "
                               "which keeps the study")
    made = known if isinstance(known, Study) else Study(known)
    said = (made.symbols, made.branches, len(made.traders) + 1)
    if said != (bundle.symbols, list(bundle.branches), bundle.agents):
        raise StudyNeededError(f"{made!r} is not the study of {bundle.path}, which has the stocks "
                               f"{', '.join(bundle.symbols)}, {bundle.agents - 1} traders and the branches "
                               f"{', '.join(bundle.branches)}")
    return made


def offset_edits(branch: Branch, study: Study, symbol: str) -> list[tuple[int, int, int]]:
    """(events before it, its time, what it adds) of each edit of a stock's value that the branch was given, in order.

    Raises StudyNeededError where they don't come to the offset with which the branch closes."""
    made = branch.edits[branch.edits.kind == "series"]
    tables = {entry["name"]: entry.get("edit", []) for entry in study.to_dict().get("branch", [])}
    out = []
    for event, time, name, index in zip(made.event.tolist(), made.time.tolist(), made.branch, made["index"].tolist()):
        edit = tables[name][index] if index < len(tables[name]) else {}
        if edit.get("kind") != "series":
            raise StudyNeededError(f"edit {index} of the branch {name!r} is one of a stock's value in "
                                   f"{branch.bundle.path}, and not in the study: it is another one's")
        if edit["stock"] == symbol:
            out.append((event, time, edit["offset"]))
    closing = branch.closing.stocks
    if sum(offset for _, _, offset in out) != closing.offset[closing.symbol == symbol].item():
        raise StudyNeededError(f"the offsets of {symbol} in the study don't come to the one with which {branch!r} "
                               "closes: the study is another one's")
    return out


# ---------------------------------------------------------------- the series

def series_of(study: Study, symbol: str) -> tuple[numpy.ndarray, numpy.ndarray]:
    """The value of a stock without edits: from which time on (ns, rising) it is which, both of one length, the first
    time the open. Raises UnknownSymbolError."""
    if symbol not in study.symbols:
        raise UnknownSymbolError(symbol, study.symbols)
    table = study.to_dict()
    number = study.symbols.index(symbol)
    stock = table["stock"][number]
    if stock["series"] == "rows":
        return from_open(*read_rows(study, symbol), table["open"])
    count = (table["close"] - table["open"]) // stock["every"]
    times = table["open"] + stock["every"] * numpy.arange(count + 1, dtype=numpy.int64)
    return times, rule_values(stock, words(bytes.fromhex(table["key"]), FIRST_STREAM + number, count))


def rule_values(stock: dict[str, Any], draws: numpy.ndarray) -> numpy.ndarray:
    """The values by a stock's rule: at the start, and after the step of each draw."""
    mean, pull = stock["mean"], stock["pull"]
    value = stock["start"]
    out = [value]
    for shock in centred(draws, stock["shock"]).tolist():
        value += pull * (mean - value) // MILLION + shock
        value = min(max(value, LEAST_PRICE), MOST_PRICE)
        out.append(value)
    return numpy.array(out, numpy.int64)


def centred(draws: numpy.ndarray, radius: int) -> numpy.ndarray:
    """Each draw as a whole number from -radius to radius."""
    return (draws.astype(numpy.uint64) * numpy.uint64(2 * radius + 1) >> numpy.uint64(32)).astype(numpy.int64) - radius


def words(key: bytes, stream: int, count: int) -> numpy.ndarray:
    """The first `count` words of 32 bits of a stream of draws. Raises MissingPackageError."""
    try:
        from cryptography.hazmat.primitives.ciphers import Cipher, algorithms
    except ModuleNotFoundError as error:
        raise MissingPackageError("a value by a rule needs cryptography, which has ChaCha20: "
                                  f"{missing.advice(error)}") from None
    start = bytes(8) + stream.to_bytes(8, "little")         # the counter, then the nonce
    cipher = Cipher(algorithms.ChaCha20(key, start), mode=None)
    return numpy.frombuffer(cipher.encryptor().update(bytes(4 * count)), "<u4")


def read_rows(study: Study, symbol: str) -> tuple[numpy.ndarray, numpy.ndarray]:
    """Times and values of a stock's rows in the series file. Raises StudyNeededError where it can't be read as one."""
    path = study.series_path
    try:
        with open(path or "", newline="", encoding="utf-8-sig") as file:
            records = [record for record in csv.reader(file) if record][1:]
        rows = [(int(time), int(value)) for name, time, value in records if name == symbol]
    except (OSError, TypeError, ValueError, csv.Error) as error:
        raise StudyNeededError(f"the value of {symbol} stands in the series file {path}, which can't be read: "
                               f"{error}") from None
    times, values = zip(*rows) if rows else ((), ())
    return numpy.array(times, numpy.int64), numpy.array(values, numpy.int64)


def from_open(times: numpy.ndarray, values: numpy.ndarray, opened: int) -> tuple[numpy.ndarray, numpy.ndarray]:
    """Rows from the open on: the last one that is not later than it stands for all before it."""
    first = int(numpy.searchsorted(times, opened, "right")) - 1
    if first < 0:
        raise StudyNeededError("the series file has no row at the open or before it: it isn't the one of this run")
    return numpy.append(opened, times[first + 1:]), values[first:]
