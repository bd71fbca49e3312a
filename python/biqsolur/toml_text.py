"""A study's table written as TOML that reads well: sections, arrays of tables, long lists wrapped.

What is written is TOML 1.0 and 1.1, so that both Python and the program read it. Texts are written by tomlkit.
"""

from __future__ import annotations

import re
from collections.abc import Mapping
from typing import Any

import tomlkit

WIDEST = 120
ARRAYS_OF_TABLES = ("stock", "change", "agent", "branch")
SMALLEST_GROUPED = 10_000
BARE = re.compile(r"[A-Za-z0-9_-]+")
PLAIN = re.compile(r"[ !#-\[\]-~]*")     # what stands in quotes as it is


def study_text(study: Mapping[str, Any]) -> str:
    """The whole study: first what stands on one line, then its tables, an empty line before each."""
    lines = [pair_text(key, value) for key, value in study.items() if not is_section(key, value)]
    for key, value in study.items():
        if is_section(key, value):
            lines += section_lines(key, value)
    return "\n".join(lines) + "\n"


def is_section(key: str, value: object) -> bool:
    """Whether a value of the top table gets lines of its own behind a head in brackets."""
    return isinstance(value, Mapping) or key in ARRAYS_OF_TABLES and isinstance(value, list) and bool(value)


def section_lines(key: str, value: Any) -> list[str]:
    """The lines of a table, or of each table of an array."""
    tables, head = ([value], f"[{key}]") if isinstance(value, Mapping) else (value, f"[[{key}]]")
    lines = []
    for table in tables:
        lines += ["", head, *(pair_text(inner, item) for inner, item in table.items())]
    return lines


def pair_text(key: str, value: object) -> str:
    """A key and its value."""
    return f"{key} = {laid_out(key, value)}"


def laid_out(key: str, value: object, grouped: bool = True) -> str:
    """A key's value, over several lines where one would be too wide or would hold several tables."""
    line = value_text(value, grouped)
    wide = len(key) + len(" = ") + len(line) > WIDEST
    if not isinstance(value, list) or not wide and not (len(value) > 1 and isinstance(value[0], Mapping)):
        return line
    items = [f"{value_text(item, grouped)}," for item in value]
    lines = [f"  {item}" for item in items] if isinstance(value[0], (list, Mapping)) else wrapped(items)
    return "\n".join(["[", *lines, "]"])


def wrapped(words: list[str]) -> list[str]:
    """Words put into lines that are not too wide, each line indented."""
    lines = [" "]
    for word in words:
        if len(lines[-1]) + 1 + len(word) > WIDEST and lines[-1].strip():
            lines.append(" ")
        lines[-1] += " " + word
    return lines


def value_text(value: object, grouped: bool = True) -> str:
    """A value on one line. `grouped`: large numbers have an underscore between their thousands."""
    if isinstance(value, bool):
        return "true" if value else "false"
    if isinstance(value, int):
        return f"{value:_}" if grouped and abs(value) >= SMALLEST_GROUPED else str(value)
    if isinstance(value, list):
        return f"[{', '.join(value_text(item, grouped) for item in value)}]"
    if isinstance(value, Mapping):
        pairs = ", ".join(f"{key_text(key)} = {value_text(item, grouped)}" for key, item in value.items())
        return f"{{ {pairs} }}" if pairs else "{}"
    if isinstance(value, str) and PLAIN.fullmatch(value):
        return f'"{value}"'
    return str(tomlkit.item(value).as_string())     # type: ignore[call-overload]


def key_text(key: str) -> str:
    """A key, in quotes where it has to be."""
    return key if BARE.fullmatch(key) else str(tomlkit.key(key).as_string())
