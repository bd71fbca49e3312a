"""Changes of a study that the page can ask for: each gives a new Study, and a label that says what was done."""

from __future__ import annotations

from typing import Any

from biqsolur.errors import InputError
from biqsolur.explore.words import clock
from biqsolur.ouch import Cancel, Enter, Message
from biqsolur.prices import price
from biqsolur.study import Study

Table = dict[str, Any]
KINDS = {str: "a text", int: "a whole number", list: "a list", dict: "a table"}


class BadRequest(InputError):
    """What the page sent is none of the questions that the explorer answers."""


def wanted(table: Table, name: str, kind: type, default: Any = None) -> Any:
    """A value of what the page sent; BadRequest where it is not there or of another type."""
    value = table.get(name, default)
    if not isinstance(value, kind) or isinstance(value, bool):
        raise BadRequest(f"{name} is to be {KINDS[kind]}")
    return value


def edits_in(table: Table) -> list[Table]:
    """The edits that the page sent: tables as a study has them, but that an order may stand in place of its message."""
    edits = wanted(table, "edits", list, [])
    if not all(isinstance(edit, dict) and isinstance(edit.get("kind"), str) for edit in edits):
        raise BadRequest("each edit is a table with a kind")
    return [with_message(edit) if "order" in edit else edit for edit in edits]


def with_message(edit: Table) -> Table:
    """An edit whose order, a table of texts as the form has them, has become the message of OUCH 4.2."""
    order = wanted(edit, "order", dict)
    shares = whole(order, "shares")
    message: Message = Cancel(wanted(order, "token", str), shares)
    if order.get("what") != "cancel":
        message = Enter(wanted(order, "token", str), wanted(order, "side", str), shares, wanted(order, "symbol", str),
                        price(wanted(order, "price", str)), whole(order, "time_in_force"),
                        display=wanted(order, "display", str))
    return {name: value for name, value in edit.items() if name != "order"} | {"message": message.hex()}


def whole(table: Table, name: str) -> int:
    """A whole number that the form has as a text."""
    text = str(table.get(name, "")).replace(",", "").strip()
    if not (text.isascii() and text.isdigit() and len(text) <= 18):
        raise BadRequest(f"{name.replace('_', ' ')} is to be a whole number, not {text[:40]!r}")
    return int(text)


def fork(study: Study, table: Table) -> tuple[str, Study]:
    """A new branch: name, parent, edits, and either `at` (events) or `when` (ns past midnight)."""
    name, parent = wanted(table, "name", str), wanted(table, "parent", str, "root")
    if ("at" in table) == ("when" in table):
        raise BadRequest("a branch leaves after a number of events (at) or at a time (when): one of the two")
    stop = {"after": wanted(table, "at", int)} if "at" in table else {"at": wanted(table, "when", int)}
    place = f"after event {stop['after']:,}" if "after" in stop else f"at {clock(stop['at'])}"
    return f"fork {name} from {parent} {place}", study.branch(name, parent, edits=edits_in(table), **stop)


def rename(study: Study, table: Table) -> tuple[str, Study]:
    """Another name for a branch, where it is a parent too."""
    old, new = wanted(table, "branch", str), wanted(table, "name", str)
    if new in study.branches:
        raise BadRequest(f"there is a branch {new!r} already")
    children = [branch["name"] for branch in study.to_dict().get("branch", []) if branch["parent"] == old]
    changed = study.with_(["branch", old, "name"], new)
    for child in children:
        changed = changed.with_(["branch", child, "parent"], new)
    return f"rename {old} to {new}", changed


def change(study: Study, table: Table) -> tuple[str, Study]:
    """Other edits for a branch."""
    name = wanted(table, "branch", str)
    return f"change the edits of {name}", study.with_(["branch", name, "edit"], edits_in(table))


def remove(study: Study, table: Table) -> tuple[str, Study]:
    """A branch and all that left it go."""
    name = wanted(table, "branch", str)
    if name not in study.branches or name == "root":
        raise BadRequest(f"there is no branch {name!r} that could be removed")
    going = {name}
    for branch in study.to_dict().get("branch", []):
        if branch["parent"] in going:
            going.add(branch["name"])
    for gone in reversed(study.branches):
        if gone in going:
            study = study.without_branch(gone)
    return f"remove {', '.join(branch for branch in [name, *sorted(going - {name})])}", study


CHANGES = {"fork": fork, "rename": rename, "change": change, "remove": remove}
