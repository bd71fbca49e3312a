"""Times of day and lengths of time, in whole nanoseconds."""

from __future__ import annotations

import re
from datetime import time, timedelta
from numbers import Integral

from biqsolur.errors import TimeError

SECOND = 1_000_000_000
MINUTE = 60 * SECOND
HOUR = 60 * MINUTE
LAST_OF_DAY = 24 * HOUR - 1
CLOCK = re.compile(r"(\d{1,2}):(\d{2})(?::(\d{2})(?:\.(\d{1,9}))?)?")
LENGTH = re.compile(r"(\d+)(?:\.(\d+))?\s*(ns|us|µs|ms|s|min|h)")
UNITS = {"ns": 1, "us": 1_000, "µs": 1_000, "ms": 1_000_000, "s": SECOND, "min": MINUTE, "h": HOUR}


def nanoseconds(value: object) -> int:
    """A time of day in nanoseconds past midnight.

    `value` is a whole number of nanoseconds, a text such as "9:30", "9:30:00.5" or "15:59:59.999999999", Python's
    `datetime.time`, or a length since midnight (pandas' Timedelta, `datetime.timedelta`). Raises TimeError.
    """
    if isinstance(value, str):
        return clock_time(value)
    if isinstance(value, time):
        return value.hour * HOUR + value.minute * MINUTE + value.second * SECOND + value.microsecond * 1_000
    return whole_nanoseconds(value, "a time of day is a whole number of nanoseconds past midnight, a text such as "
                                    "\"9:30:00.5\", or a Timedelta since midnight")


def duration(value: object) -> int:
    """A length of time in nanoseconds.

    `value` is a whole number of nanoseconds, a text of a number and a unit ("250ms", "1.5s", "5min"; units are ns, us,
    ms, s, min and h), pandas' Timedelta or `datetime.timedelta`. Raises TimeError.
    """
    if isinstance(value, str):
        return length_of_time(value)
    return whole_nanoseconds(value, "a length of time is a whole number of nanoseconds, a text such as \"250ms\" or "
                                    "\"1.5s\", or a Timedelta")


def clock_text(time_of_day: int) -> str:
    """A time of day in words, "9:30:00.5", from nanoseconds past midnight. It has all digits that are not 0."""
    seconds, rest = divmod(time_of_day, SECOND)
    fraction = f".{rest:09}".rstrip("0") if rest else ""
    return f"{seconds // 3600}:{seconds // 60 % 60:02}:{seconds % 60:02}{fraction}"


def clock_time(text: str) -> int:
    """A time of day from hours, minutes and, where they stand there, seconds with up to nine decimals."""
    match = CLOCK.fullmatch(text.strip())
    if match is None:
        raise TimeError(f"{text!r} is no time of day; write \"9:30\" or \"9:30:00.5\", or nanoseconds as a number")
    hours, minutes, seconds = int(match[1]), int(match[2]), int(match[3] or 0)
    if hours > 23 or minutes > 59 or seconds > 59:
        raise TimeError(f"{text!r} is no time of day; the last one is \"23:59:59.999999999\"")
    return hours * HOUR + minutes * MINUTE + seconds * SECOND + int((match[4] or "").ljust(9, "0"))


def length_of_time(text: str) -> int:
    """A length of time from a number and its unit, which has to come to whole nanoseconds."""
    match = LENGTH.fullmatch(text.strip())
    if match is None:
        raise TimeError(
            f"{text!r} is no length of time; write a number and one of the units {', '.join(UNITS)}, as in \"1.5s\"")
    whole, fraction, unit = match[1], match[2] or "", UNITS[match[3]]
    count, rest = divmod(int(whole + fraction) * unit, 10 ** len(fraction))
    if rest:
        raise TimeError(f"{text!r} is no whole number of nanoseconds")
    return count


def whole_nanoseconds(value: object, wanted: str) -> int:
    """Nanoseconds from a whole number or from one of the two kinds of Timedelta."""
    if isinstance(value, Integral) and not isinstance(value, bool):
        return int(value)
    if isinstance(value, timedelta):    # pandas' Timedelta is one too, with nanoseconds of its own
        microseconds = int((value.days * 86_400 + value.seconds) * 1_000_000 + value.microseconds)
        return microseconds * 1_000 + int(getattr(value, "nanoseconds", 0))
    if isinstance(value, float):
        raise TimeError(f"{value!r} is a floating-point number; {wanted}")
    raise TimeError(f"{value!r} is of the type {type(value).__name__}; {wanted}")
