"""The acts of a session: what it does to the tree of branches, and what it asks of it.

    from biqsolur import acts
    fork = acts.Fork("one", after=5000, edits=[biqsolur.Silence(2)])
    biqsolur.session(study, [fork, acts.Values("one"), acts.Undo()])
"""

from __future__ import annotations

import os
import tomllib
from collections.abc import Iterable, Mapping, Sequence
from dataclasses import dataclass, fields
from pathlib import Path
from typing import Any, ClassVar, cast

from biqsolur.edits import Edit
from biqsolur.errors import RunError, StudyError
from biqsolur.fields import plain_table
from biqsolur.toml_text import section_lines
from biqsolur.wording import words_of_edit

MOST_BYTES = 16_777_216     # of a script
MOST_ACTS = 64

AnyEdits = Sequence["Edit | Mapping[str, Any]"]


class Act:
    """What all acts have: `KIND`, the word for it in a script, and `to_dict`, its table there."""

    KIND: ClassVar[str]
    KEYS: ClassVar[dict[str, str]] = {}     # names of attributes that are other ones in a script

    def to_dict(self) -> dict[str, Any]:
        """The act as a table of a script. Raises StudyError for an edit that is none."""
        values = {self.KEYS.get(field.name, field.name): getattr(self, field.name)
                  for field in fields(self)}  # type: ignore[arg-type]
        if "edit" in values:
            values["edit"] = [plain_table("edit", edit, f"edit {number}") for number, edit in enumerate(values["edit"])]
        return {"kind": self.KIND, **values}


@dataclass(frozen=True)
class Fork(Act):
    """A branch becomes the last of the tree: it leaves `parent` after so many events, and its edits are made."""

    KIND: ClassVar[str] = "fork"
    KEYS: ClassVar[dict[str, str]] = {"after": "at", "edits": "edit"}
    name: str
    parent: str = "root"
    after: int = 0
    edits: AnyEdits = ()


@dataclass(frozen=True)
class Undo(Act):
    """The last branch of the tree leaves."""

    KIND: ClassVar[str] = "undo"


@dataclass(frozen=True)
class EditBranch(Act):
    """The edits of a branch are replaced; its name, its parent and where it leaves it stay."""

    KIND: ClassVar[str] = "edit"
    KEYS: ClassVar[dict[str, str]] = {"edits": "edit"}
    name: str
    edits: AnyEdits


@dataclass(frozen=True)
class StateAt(Act):
    """Asks for the state of a branch after an event."""

    KIND: ClassVar[str] = "rewind"
    name: str
    event: int


@dataclass(frozen=True)
class Close(Act):
    """Asks for the closing of a branch's full run."""

    KIND: ClassVar[str] = "close"
    name: str


@dataclass(frozen=True)
class Values(Act):
    """Asks for the columns of a table that probes make, of a branch's full run."""

    KIND: ClassVar[str] = "values"
    name: str


def script_text(acts: Iterable[Act | Mapping[str, Any]]) -> str:
    """A script in TOML, of acts or of tables as a script has them. Raises RunError where one is none."""
    tables = []
    for number, act in enumerate(acts):
        try:
            if not isinstance(act, (Act, Mapping)):
                raise RunError(f"{act!r} is no act; give one of biqsolur.acts, such as Values(\"wide\")")
            table = act.to_dict() if isinstance(act, Act) else dict(act)
            tables.append({key: plain_field(key, value) for key, value in table.items()})
        except (TypeError, ValueError) as error:
            raise RunError(f"act {number} (counted from 0): {error}") from None
    if not 1 <= len(tables) <= MOST_ACTS:
        raise RunError(f"there are {len(tables)} acts; a session has 1 to {MOST_ACTS}")
    return "\n".join(section_lines("act", tables)).lstrip("\n") + "\n"


def plain_field(key: str, value: object) -> Any:
    """A value of an act as a script has it: a text, a whole number, or edits."""
    if key == "edit" and isinstance(value, Iterable) and not isinstance(value, (str, Mapping)):
        return [plain_table("edit", edit, f"edit {number}") for number, edit in enumerate(value)]
    if hasattr(value, "__index__") and not isinstance(value, bool):
        return value.__index__()
    if not isinstance(value, str):
        raise StudyError(f"{key} is {value!r}; an act has texts, whole numbers and edits")
    return value


def script_data(script: str | os.PathLike[str] | Iterable[Act | Mapping[str, Any]]) -> tuple[bytes, str]:
    """The bytes of a script and what it is called: of a path, a text (with a line break), or acts."""
    from biqsolur.running import file_data
    if isinstance(script, str) and "\n" in script:
        return script.encode(), "the script"
    if isinstance(script, (str, os.PathLike)):
        return file_data(Path(script)), os.fspath(script)
    if isinstance(script, (bytes, Mapping, Act)) or not isinstance(script, Iterable):
        raise RunError(f"{script!r} is no script: give a path, a text of TOML, or a list of acts (biqsolur.acts)")
    return script_text(cast("Iterable[Act | Mapping[str, Any]]", script)).encode(), "the script"


def acts_of(data: bytes) -> list[dict[str, Any]] | None:
    """The tables of a script's acts; None where Python can't read it, as the program reads TOML 1.1."""
    try:
        acts = tomllib.loads(data.decode("utf-8-sig")).get("act")
    except (ValueError, RecursionError):
        return None
    return acts if isinstance(acts, list) and all(isinstance(act, dict) for act in acts) else None


def words_of_act(act: Mapping[str, Any], agents: list[str]) -> str:
    """An act in words; `agents` are the agents' names by number."""
    kind, name = act["kind"], act.get("name")
    edits = "; ".join(words_of_edit(edit, agents) for edit in act.get("edit", [])) or "no edit"
    return {
        "fork": lambda: f"fork of {name} from {act['parent']} after {act['at']} events: {edits}",
        "undo": lambda: "undo of the last branch",
        "edit": lambda: f"edits of {name}: {edits}",
        "rewind": lambda: f"state of {name} after event {act['event']}",
        "close": lambda: f"closing of {name}",
        "values": lambda: f"values of {name}",
    }[kind]()
