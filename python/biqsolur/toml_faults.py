"""Why bytes are no TOML, with line and column. Python's own reader of TOML 1.0 looks; the program reads TOML 1.1."""

from __future__ import annotations

import re
import tomllib

WHERE = re.compile(r"(.*) \(at (?:line (\d+), column (\d+)|end of document)\)", re.DOTALL)
MOST_NESTED = 80
NEWER = ("An inline table over several lines, a comma before its `}`, `\\e` and `\\x41` in a text are read by the "
         "program and not by Python: where it is one of these, look further down")


def no_toml(data: bytes) -> str:
    """Why bytes are no TOML, with line and column from 1."""
    try:
        text = data.decode("utf-8-sig")
    except UnicodeDecodeError as error:
        return f"{line_and_column(data, error.start)}: byte {data[error.start]:#04x} is no text in UTF-8"
    try:
        study = tomllib.loads(text)
    except tomllib.TOMLDecodeError as error:
        return toml_fault(text, str(error))
    except (ValueError, RecursionError) as error:
        return f"this is no TOML: {error}"
    return long_number(text, study) or (
        f"Python reads this as TOML; the program does not: arrays and inline tables are nested at most {MOST_NESTED} "
        f"deep, dotted keys have at most {MOST_NESTED} parts, and a carriage return stands before a newline alone")


def toml_fault(text: str, error: str) -> str:
    """What Python's reader says, the place first."""
    match = WHERE.fullmatch(error)
    if match is None:
        return f"this is no TOML: {error}"
    said, line, column = match.groups()
    if line is None:
        last = text.count("\n") + 1
        return f"line {last}, at the end of the document: {said}"
    fault_line = text.replace("\r\n", "\n").split("\n")[int(line) - 1]
    printed = "".join(letter if letter.isprintable() else " " for letter in fault_line)
    sentence = f"line {line}, column {column}: {said}\n    {printed}\n    {' ' * (int(column) - 1)}^"
    newer = "inline table" in said or "key part" in said or "Unescaped" in said
    return f"{sentence}\n{NEWER}" if newer and "{" in text else sentence


def line_and_column(data: bytes, at: int) -> str:
    """Line and column, from 1, of a byte."""
    before = data[:at]
    line_start = before.rfind(b"\n") + 1
    return f"line {before.count(bytes([10])) + 1}, column {len(before[line_start:].decode('utf-8', 'replace')) + 1}"


def long_number(text: str, study: object) -> str | None:
    """Where a whole number outside 64 bits stands, or None."""
    numbers = [number for number in numbers_of(study) if not -1 << 63 <= number < 1 << 63]
    for match in re.finditer(r"[+-]?[0-9][0-9A-Za-z_]*", text):
        try:
            number = int(match[0].replace("_", ""), 0)
        except ValueError:
            continue
        if number in numbers:
            place = line_and_column(text.encode(), len(text[:match.start()].encode()))
            return (f"{place}: the number {match[0]} is outside 64 bits, -9,223,372,036,854,775,808 to "
                    "9,223,372,036,854,775,807")
    return f"the number {numbers[0]} is outside 64 bits" if numbers else None


def numbers_of(value: object) -> list[int]:
    """Each whole number of a document."""
    if isinstance(value, dict):
        return [number for item in value.values() for number in numbers_of(item)]
    if isinstance(value, list):
        return [number for item in value for number in numbers_of(item)]
    return [value] if type(value) is int else []
