"""One change of a study, in its table and in its text: comments and layout stay, but for the value that is replaced."""

from __future__ import annotations

import copy
import re
import tomllib
from collections.abc import Sequence
from typing import Any

import tomlkit

from biqsolur.errors import StudyError
from biqsolur.fields import FIELDS, NAMES_OF_ENTRIES, TABLE, TABLES, Table, plain_value
from biqsolur.toml_text import is_section, laid_out, section_lines, value_text

Places = list[str | int]
PLURALS = {"stocks": "stock", "changes": "change", "agents": "agent", "branches": "branch", "edits": "edit"}
BYTE_ORDER_MARK = "\ufeff"
GROUPED = re.compile(r"=\s*\d{1,3}(?:_\d{3})+\b")      # a number with an underscore between its thousands
BRANCH_HEAD = re.compile(r"^[ \t]*\[\[[ \t]*branch[ \t]*\]\]", re.MULTILINE)


def changed_table(study: Table, path: str | Sequence[str | int], value: object) -> tuple[Places, Table]:
    """Where a path leads, as keys and numbers, and the study with the value there. Raises StudyError, with the path."""
    parts: list[str | int] = [*path.split(".")] if isinstance(path, str) else list(path)
    shown = path if isinstance(path, str) else ".".join(map(str, parts))
    if not parts:
        raise StudyError("the path is empty; it names a value, as in \"agent.0.every\"")
    result = copy.deepcopy(study)
    try:
        places = set_value(result, "study", parts, value)
    except StudyError as error:
        raise type(error)(f"{shown}: {str(error).removeprefix(f'{parts[-1]}: ')}") from None
    return places, result


def set_value(table: Table, kind: str, parts: Sequence[str | int], value: object) -> Places:
    """Sets a value below a table of this kind, and gives the places on the way to it."""
    if not isinstance(table, dict):
        raise StudyError(f"there is no table there, but {table!r}")
    key = str(parts[0])
    key = PLURALS.get(key, key) if key not in FIELDS[kind] else key
    if key not in FIELDS[kind]:
        raise StudyError(f"no such key: {key!r}; the keys there are {', '.join(FIELDS[kind])}")
    rest, inner = parts[1:], FIELDS[kind][key]
    if not rest:
        table[key] = plain_value(kind, key, value, {**table, key: value})
        return [key]
    if key not in table:
        raise StudyError(f"the study has no {key!r} there")
    if isinstance(inner, str) and inner.startswith(TABLES):
        name = inner.removeprefix(TABLES)
        number = entry_number(table[key], name, rest[0])
        if len(rest) == 1:
            raise StudyError(f"{rest[0]} is a whole table; name one of its keys, {', '.join(FIELDS[name])}")
        return [key, number, *set_value(table[key][number], name, rest[1:], value)]
    if isinstance(inner, str):
        return [key, *set_value(table[key], inner.removeprefix(TABLE), rest, value)]
    places = set_item(table[key], rest, value)
    table[key] = plain_value(kind, key, table[key], table)
    return [key, *places]


def entry_number(entries: Any, kind: str, part: str | int) -> int:
    """The number of the entry that a part of a path names: a number from 0, or a name where one entry has it."""
    if not isinstance(entries, list):
        raise StudyError("there is no list of tables there")
    if isinstance(part, int) or part.isdecimal():
        found = [int(part)] if 0 <= int(part) < len(entries) else []
    else:
        name = NAMES_OF_ENTRIES.get(kind, "kind")
        found = [number for number, entry in enumerate(entries) if isinstance(entry, dict) and entry.get(name) == part]
    if len(found) != 1:
        raise StudyError(
            f"{len(found) or 'no'} entries are {part!r}; they have the numbers from 0 to {len(entries) - 1}"
            f"{names_in_order(entries, kind)}")
    return found[0]


def names_in_order(entries: list[Any], kind: str) -> str:
    """The names of entries, as the rest of a sentence about their numbers; nothing where one has none."""
    names = [entry.get(NAMES_OF_ENTRIES[kind]) if isinstance(entry, dict) and kind in NAMES_OF_ENTRIES else None
             for entry in entries[:20]]
    more = ", ..." if len(entries) > len(names) else ""
    return f", in order {', '.join(map(str, names))}{more}" if names and None not in names else ""


def set_item(items: Any, parts: Sequence[str | int], value: object) -> Places:
    """Sets a value inside lists of lists."""
    if not isinstance(items, list):
        raise StudyError(f"nothing is below the part before {parts[0]!r}")
    if not (isinstance(parts[0], int) or parts[0].isdecimal()) or not 0 <= int(parts[0]) < len(items):
        raise StudyError(f"{parts[0]!r} is none of the places of the list, 0 to {len(items) - 1}")
    number = int(parts[0])
    if len(parts) == 1:
        items[number] = value
        return [number]
    return [number, *set_item(items[number], parts[1:], value)]


def value_at(table: Any, places: Places) -> Any:
    """The value to which places lead."""
    for place in places:
        table = table[place]
    return table


# ------------------------------------------------------------ the same in the text


def changed_text(text: str, places: Places, table: Table) -> str | None:
    """The text with the value that `table` has at these places; None where that can't be done without losing anything,
    and the text is to be written anew."""
    value, last = value_at(table, places), places[-1]
    try:
        mark, document = parsed(text)
        holder: Any = document
        for place in places[:-1]:
            holder = holder[place]
        if holder is document and is_section(str(last), value):
            if last in document:
                del document[str(last)]
            return text_with_sections(mark + tomlkit.dumps(document), str(last), value, table)
        grouped = GROUPED.search(text) is not None
        lines = laid_out(last, value, grouped) if isinstance(last, str) else value_text(value, grouped)
        holder[last] = tomlkit.value(lines.replace("\n", line_end(text)))
        return said(mark + tomlkit.dumps(document), table)
    except Exception:       # tomlkit fails at some documents with errors of its own inside
        return None


def text_with_branches(text: str, branches: list[Table], table: Table) -> str | None:
    """The text with more branches at its end; None where that isn't possible."""
    if len(table["branch"]) > len(branches) and not BRANCH_HEAD.search(text):
        return None
    return text_with_sections(text, "branch", branches, table)


def text_with_sections(text: str, key: str, entries: Table | list[Table], table: Table) -> str | None:
    """The text with a table, or more tables of an array, at its end; None where that isn't possible."""
    end = line_end(text)
    lines = "\n".join(section_lines(key, entries)).replace("\n", end)
    return said(text + ("" if text.endswith("\n") else end) + lines + end, table)


def line_end(text: str) -> str:
    """How a text ends its lines."""
    return "\r\n" if "\r\n" in text else "\n"


def text_with_agent(text: str, entry: Table, table: Table) -> str | None:
    """The text with one more agent entry behind the others; None where that isn't possible."""
    if not table.get("branch"):
        return text_with_sections(text, "agent", [entry], table)
    try:
        mark, document = parsed(text)
        item = tomlkit.table()
        for key, value in entry.items():
            item.add(key, tomlkit.value(value_text(value, grouped=GROUPED.search(text) is not None)))
        item.add(tomlkit.nl())
        agents: Any = document["agent"]
        agents.append(item)
        return said(mark + re.sub("\r?\n", line_end(text), tomlkit.dumps(document)), table)
    except Exception:       # tomlkit fails at some documents with errors of its own inside
        return None


def text_without_branches(text: str, numbers: list[int], table: Table) -> str | None:
    """The text without the branches of these numbers; None where that isn't possible."""
    try:
        mark, document = parsed(text)
        branches: Any = document["branch"]
        for number in reversed(numbers):
            del branches[number]
        if "branch" not in table:
            del document["branch"]
        return said(mark + tomlkit.dumps(document), table)
    except Exception:       # tomlkit fails at some documents with errors of its own inside
        return None


def parsed(text: str) -> tuple[str, tomlkit.TOMLDocument]:
    """The byte order mark, which tomlkit doesn't read, or an empty text; and the document behind it."""
    mark = BYTE_ORDER_MARK if text.startswith(BYTE_ORDER_MARK) else ""
    return mark, tomlkit.parse(text.removeprefix(mark))


def said(text: str, table: Table) -> str | None:
    """The text where it says this very table, else None."""
    try:
        return text if tomllib.loads(text.removeprefix(BYTE_ORDER_MARK)) == table else None
    except ValueError:
        return None
