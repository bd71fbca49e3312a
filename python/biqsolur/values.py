"""Series files with character: what a stock is worth over a day, a different course for each key.

    from biqsolur import values
    rows = values.series_for(values.gbm(start=100, volatility=0.3), key=7, study=study)
    values.write_series("series.csv", rows)

A course is a way of making prices: `gbm`, `ou`, `garch` or `prices` (a user's own file). In a sweep's configuration the
same is a text, `series: values.gbm(start=100, volatility=0.3)`, or a text for each symbol.

A value is a whole number with four implied decimals: the price in ten-thousandths of a dollar, rounded to the nearest
whole number, halves to the even one, and kept from 1 to 1,999,999,900. Volatility is that of a year of 252 days of six
and a half hours. The numbers are drawn by Mersenne Twister and numpy's `RandomState`, whose streams numpy keeps as they
are, seeded with SHA-256 of the key and the symbol: so a key has the same course on every machine.
"""

from __future__ import annotations

import ast
import hashlib
import math
import os
from collections.abc import Callable, Mapping
from dataclasses import dataclass, fields
from decimal import ROUND_HALF_EVEN, Decimal, InvalidOperation
from pathlib import Path
from typing import Any

import numpy
import pandas

from biqsolur.errors import SeriesError, TimeError
from biqsolur.output import write_new
from biqsolur.times import duration

LEAST_DOLLARS, GREATEST_DOLLARS = Decimal("0.0001"), Decimal("199999.99")     # the range of prices
MOST_ROWS, MOST_BYTES = 1_000_000, 16_777_216
YEAR = 252 * 23_400                         # seconds in which markets are open
DAY_SECONDS = 23_400
SECOND = 10**9
VOLATILITY = "0 or more, of a year: 0.2 is twenty per cent"


@dataclass(frozen=True)
class Course:
    """What all courses have: a start (dollars) and a step (`every`, a length of time such as "1s" or nanoseconds)."""

    start: float = 100.0
    every: str | int = "1s"

    def __post_init__(self) -> None:
        wanted_number("start", self.start, 0, "a price in dollars above 0", above=True)
        wanted(self.step > 0, "every", self.every, "a length of time such as 1s or 250ms")

    @property
    def step(self) -> int:
        """The time from one value to the next, in nanoseconds."""
        return length_of_time(self.every)

    def path(self, draws: numpy.random.RandomState, count: int) -> numpy.ndarray:
        """Prices in dollars at `count` instants, the first at the opening. Shape (count,)."""
        raise NotImplementedError

    def rows(self, key: str | int, symbol: str, begin: int, end: int) -> pandas.DataFrame:
        """The rows of one stock from `begin` to `end` (ns past midnight): symbol, time (ns), value (four implied
        decimals)."""
        times = numpy.arange(begin, end + 1, self.step, dtype=numpy.int64)
        prices = self.path(draws_of(key, symbol), len(times))
        return pandas.DataFrame({"symbol": symbol, "time": times, "value": whole_values(prices)})


@dataclass(frozen=True)
class GeometricBrownian(Course):
    """Geometric Brownian motion, with jumps where there are some (Merton 1976).

    The logarithm of the price goes by (drift - volatility^2 / 2) dt + volatility dW, `drift` and `volatility` of a
    year. Jumps come by a Poisson process, `jumps` a day on average, and each adds a normal number to the logarithm,
    of mean `jump_mean` and standard deviation `jump_deviation`.
    """

    drift: float = 0.0
    volatility: float = 0.2
    jumps: float = 0.0
    jump_mean: float = 0.0
    jump_deviation: float = 0.01

    def __post_init__(self) -> None:
        super().__post_init__()
        wanted_number("drift", self.drift, -math.inf, "a number, of a year: 0.05 is five per cent")
        wanted_number("volatility", self.volatility, 0, VOLATILITY)
        wanted_number("jumps", self.jumps, 0, "0 or more, on average a day")
        wanted_number("jump_mean", self.jump_mean, -math.inf, "a number, of the logarithm: 0.01 is one per cent")
        wanted_number("jump_deviation", self.jump_deviation, 0, "0 or more, of the logarithm: 0.01 is one per cent")

    def path(self, draws: numpy.random.RandomState, count: int) -> numpy.ndarray:
        years = self.step / SECOND / YEAR
        steps = max(count - 1, 0)
        moves = (self.drift - self.volatility**2 / 2) * years
        moves = moves + self.volatility * years**0.5 * draws.standard_normal(steps)
        number = draws.poisson(self.jumps * self.step / SECOND / DAY_SECONDS, steps)
        moves += number * self.jump_mean + numpy.sqrt(number) * self.jump_deviation * draws.standard_normal(steps)
        return self.start * numpy.exp(numpy.append(0.0, numpy.cumsum(moves)))[:count]


@dataclass(frozen=True)
class OrnsteinUhlenbeck(Course):
    """A price that is drawn back to a mean (Uhlenbeck and Ornstein 1930), by its exact law over a step (Gillespie
    1996).

    `mean`: dollars, the start where it is not given. `half_life`: the time in which half of the distance to it is gone.
    `deviation`: the standard deviation over a long time, in dollars.
    """

    mean: float | None = None
    half_life: str | int = "10min"
    deviation: float = 0.1

    def __post_init__(self) -> None:
        super().__post_init__()
        wanted(length_of_time(self.half_life) > 0, "half_life", self.half_life, "a length of time such as 10min")
        wanted_number("deviation", self.deviation, 0, "0 or more, in dollars")
        if self.mean is not None:
            wanted_number("mean", self.mean, 0, "a price in dollars above 0", above=True)

    def path(self, draws: numpy.random.RandomState, count: int) -> numpy.ndarray:
        mean = self.start if self.mean is None else self.mean
        stay = 0.5 ** (self.step / length_of_time(self.half_life))
        shocks = self.deviation * (1 - stay**2) ** 0.5 * draws.standard_normal(count)
        prices, distance = [], self.start - mean
        for shock in shocks.tolist():
            prices.append(mean + distance)
            distance = stay * distance + shock
        return numpy.array(prices)


@dataclass(frozen=True)
class Garch(Course):
    """GARCH(1,1) (Bollerslev 1986): a step's variance is omega + alpha r^2 + beta times the variance before, r being
    the return before, and the return a normal number of that variance.

    `volatility` is the one over a long time, of a year, which sets omega. `alpha` and `beta` are of one step; their sum
    is below 1.
    """

    volatility: float = 0.2
    alpha: float = 0.05
    beta: float = 0.94

    def __post_init__(self) -> None:
        super().__post_init__()
        wanted_number("volatility", self.volatility, 0, VOLATILITY)
        wanted_number("alpha", self.alpha, 0, "0 or more, and below 1 together with beta")
        wanted_number("beta", self.beta, 0, "0 or more, and below 1 together with alpha")
        wanted(self.alpha + self.beta < 1, "alpha + beta", self.alpha + self.beta, "below 1")

    def path(self, draws: numpy.random.RandomState, count: int) -> numpy.ndarray:
        usual = self.volatility**2 * self.step / SECOND / YEAR
        omega = (1 - self.alpha - self.beta) * usual
        variance, level, levels = usual, 0.0, []
        for normal in draws.standard_normal(count).tolist():
            levels.append(level)
            move = variance**0.5 * normal
            level += move
            variance = omega + self.alpha * move**2 + self.beta * variance
        return self.start * numpy.exp(numpy.array(levels))


@dataclass(frozen=True)
class PriceFile(Course):
    """A user's own prices: a file of comma-separated values with a header, one price a row, `every` apart.

    `path_name`: the file. `column`: the column of prices in dollars. `block`: a key's course is made of blocks of so
    many of the file's returns, each from a random place of the file, which begins anew where it ends (the circular
    block bootstrap of Politis and Romano 1992), from the file's first price on; with 0 each key has the file's own
    prices, which are rounded from their decimal digits, and the file's last price stays where it is too short.
    """

    path_name: str = ""
    column: str = "price"
    block: int = 60

    def __post_init__(self) -> None:
        super().__post_init__()
        wanted(isinstance(self.block, int) and self.block >= 0, "block", self.block, "a whole number from 0 on")

    def decimals(self) -> list[Decimal]:
        """The file's prices, exactly."""
        try:
            frame = pandas.read_csv(self.path_name, dtype=str, keep_default_na=False)
        except (pandas.errors.ParserError, pandas.errors.EmptyDataError, UnicodeDecodeError) as fault:
            raise SeriesError(f"{self.path_name}: no table of comma-separated values ({fault})") from None
        if self.column not in frame:
            raise SeriesError(f"{self.path_name} has no column {self.column!r}; there are {', '.join(frame)}")
        prices = []
        for row, text in enumerate(frame[self.column]):
            try:
                prices.append(Decimal(text))
            except InvalidOperation:
                prices.append(Decimal(0))
            if not prices[-1].is_finite() or prices[-1] <= 0:
                raise SeriesError(f"{self.path_name}: row {row + 2}: {text!r} is no price above 0")
        if not prices:
            raise SeriesError(f"{self.path_name} has no prices")
        return prices

    def path(self, draws: numpy.random.RandomState, count: int) -> numpy.ndarray:
        prices = numpy.array([float(price) for price in self.decimals()])
        moves = numpy.diff(numpy.log(prices))
        if len(moves) < self.block:
            raise SeriesError(f"{self.path_name} has {len(moves)} returns, fewer than the block of {self.block}")
        starts = draws.randint(0, len(moves), size=-(-count // self.block))
        places = (starts[:, None] + numpy.arange(self.block)).ravel()[:max(count - 1, 0)] % len(moves)
        return prices[0] * numpy.exp(numpy.append(0.0, numpy.cumsum(moves[places])))[:count]

    def rows(self, key: str | int, symbol: str, begin: int, end: int) -> pandas.DataFrame:
        if self.block:
            return super().rows(key, symbol, begin, end)
        times = numpy.arange(begin, end + 1, self.step, dtype=numpy.int64)
        exact = [exact_value(price) for price in self.decimals()[:len(times)]]
        exact += exact[-1:] * (len(times) - len(exact))
        return pandas.DataFrame({"symbol": symbol, "time": times, "value": exact})


def gbm(**settings: Any) -> GeometricBrownian:
    """Geometric Brownian motion with jumps: start, every, drift, volatility, jumps, jump_mean, jump_deviation."""
    return GeometricBrownian(**settings)


def ou(**settings: Any) -> OrnsteinUhlenbeck:
    """An Ornstein-Uhlenbeck process: start, every, mean, half_life, deviation."""
    return OrnsteinUhlenbeck(**settings)


def garch(**settings: Any) -> Garch:
    """GARCH(1,1): start, every, volatility, alpha, beta."""
    return Garch(**settings)


def prices(path: str | Path, **settings: Any) -> PriceFile:
    """A user's own prices: path of the file, every, column, block."""
    return PriceFile(path_name=os.fspath(path), **settings)


COURSES: dict[str, Callable[..., Course]] = {"gbm": gbm, "ou": ou, "garch": garch, "prices": prices}
COURSE_TYPES = {"gbm": GeometricBrownian, "ou": OrnsteinUhlenbeck, "garch": Garch, "prices": PriceFile}


def course_of(spec: Course | str | Mapping) -> Course:
    """A course from itself, from a text such as `values.gbm(start=100)`, or from a table such as {kind: gbm, start:
    100}."""
    if isinstance(spec, Course):
        return spec
    name, settings = call_of(spec) if isinstance(spec, str) else (spec.get("kind"), dict(spec))
    settings.pop("kind", None)
    if name not in COURSES:
        raise SeriesError(f"series: {name!r} is no course; there are {', '.join(COURSES)}, as in values.gbm(start=100)")
    known = settings_of(name)
    unknown = [setting for setting in settings if setting not in known]
    if unknown:
        raise SeriesError(f"series: {name} has no setting {unknown[0]!r}; there are {', '.join(known)}")
    if name == "prices" and "path" not in settings:
        raise SeriesError('series: prices wants the path of a file, as in values.prices(path="day.csv")')
    return COURSES[name](**settings)


def settings_of(name: str) -> list[str]:
    """The settings of a course."""
    names = [field.name for field in fields(COURSE_TYPES[name])]
    return ["path" if setting == "path_name" else setting for setting in names]


def call_of(text: str) -> tuple[str, dict[str, object]]:
    """The name and settings of a text such as `values.gbm(start=100)`. Nothing of it is evaluated but plain values."""
    try:
        call = ast.parse(text.strip(), mode="eval").body
        if not isinstance(call, ast.Call) or call.args:
            raise ValueError
        called: Any = call.func
        name = called.attr if isinstance(called, ast.Attribute) else called.id
        return name, {word.arg: ast.literal_eval(word.value) for word in call.keywords if word.arg}
    except (SyntaxError, ValueError, AttributeError):
        raise SeriesError(f"series: {text!r}: a call with named settings is wanted, as in values.gbm(start=100, "
                          'volatility=0.2, every="1s")') from None


def series_for(spec: Course | str | Mapping, key: str | int, study: Any) -> pandas.DataFrame:
    """The rows of a study's series file under a key: symbol, time (ns past midnight), value (four implied decimals).

    `spec` is a course, which each stock with series `rows` gets with draws of its own, or a table from symbol to
    course. `study` is a Study, or its plain table: its hours and stocks are asked. Rows stand by symbol and then by
    time.
    """
    table = study if isinstance(study, Mapping) else study.to_dict()
    symbols = [stock["symbol"] for stock in table["stock"] if stock.get("series") == "rows"]
    if not symbols:
        raise SeriesError('series: no stock of the study has series = "rows", so none would look at the file')
    courses = courses_of(spec, symbols)
    begin, end = table["open"], table["close"]
    count = sum((end - begin) // course.step + 1 for course in courses.values())
    if count > MOST_ROWS:
        raise SeriesError(f"series: {count:,} rows; the program takes {MOST_ROWS:,}: choose a longer `every`")
    parts = [course.rows(key, symbol, begin, end) for symbol, course in courses.items()]
    return pandas.concat(parts, ignore_index=True)


def courses_of(spec: Course | str | Mapping, symbols: list[str]) -> dict[str, Course]:
    """The course of each symbol."""
    if not isinstance(spec, Mapping) or "kind" in spec:
        return dict.fromkeys(symbols, course_of(spec))
    unknown, missing = [name for name in spec if name not in symbols], [name for name in symbols if name not in spec]
    if unknown or missing:
        raise SeriesError(f"series: a course is wanted for each of {', '.join(symbols)}; " + (
            f"{unknown[0]!r} is none of them" if unknown else f"{missing[0]!r} has none"))
    return {symbol: course_of(spec[symbol]) for symbol in symbols}


def series_text(rows: pandas.DataFrame) -> str:
    """The series file of these rows, as the program reads it."""
    text = rows.to_csv(index=False, columns=["symbol", "time", "value"], lineterminator="\n")
    if len(text.encode()) > MOST_BYTES:
        raise SeriesError(f"series: {len(text.encode()):,} bytes; the program takes {MOST_BYTES:,}: choose a longer "
                          "`every`")
    return text


def write_series(path: str | Path, rows: pandas.DataFrame) -> None:
    """Writes the series file of these rows; the file must not be there yet."""
    text = series_text(rows)
    write_new(path, text.encode())


def draws_of(key: str | int, symbol: str) -> numpy.random.RandomState:
    """The random numbers of a key (64 hexadecimal digits, or a number of 256 bits) and a symbol."""
    if isinstance(key, int) and not isinstance(key, bool) and 0 <= key < 1 << 256:
        key = f"{key:064x}"
    if not isinstance(key, str) or len(key) != 64 or set(key) - set("0123456789abcdef"):
        raise SeriesError(f"key: {key!r} is neither a number of 256 bits nor 64 lower-case hexadecimal digits")
    digest = hashlib.sha256(f"biqsolur values {key} {symbol}".encode()).digest()
    return numpy.random.RandomState(numpy.frombuffer(digest, ">u4").astype(numpy.uint32))


def whole_values(dollars: numpy.ndarray) -> numpy.ndarray:
    """Prices in dollars as whole numbers with four implied decimals: each floating-point number's exact value, rounded
    to the nearest, halves to even, and kept in the range of prices. Shape (n,)."""
    return numpy.array([exact_value(Decimal(price)) for price in dollars.tolist()], numpy.int64)


def exact_value(dollars: Decimal) -> int:
    """One price as a whole number with four implied decimals: the nearest, halves to even, in the range of prices."""
    kept = min(max(dollars, LEAST_DOLLARS), GREATEST_DOLLARS)
    return int(kept.quantize(LEAST_DOLLARS, ROUND_HALF_EVEN).scaleb(4))


def length_of_time(value: object) -> int:
    """Nanoseconds, from a number of them or a text such as 1s, 250ms, 10min."""
    try:
        return duration(value)
    except TimeError as fault:
        raise SeriesError(f"series: {fault}") from None


def wanted_number(name: str, value: Any, least: float, asked: str, above: bool = False) -> None:
    """Refuses a setting that is no finite number from `least` on, or above it."""
    plain = isinstance(value, (int, float)) and not isinstance(value, bool)
    wanted(plain and math.isfinite(value) and (value > least or (value == least and not above)), name, value, asked)


def wanted(holds: bool, name: str, value: object, asked: str) -> None:
    """Refuses a setting."""
    if not holds:
        raise SeriesError(f"series: {name} = {value!r}: it is to be {asked}")
