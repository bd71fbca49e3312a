"""What can be taken along: the study, its bundle, the report, a state's bytes, and the script of a session."""

from __future__ import annotations

from typing import Any

from biqsolur.errors import InputError
from biqsolur.study import Study
from biqsolur.toml_text import section_lines

MOST_ACTS = 64
Table = dict[str, Any]


class NoScript(InputError):
    """What was done to the study cannot be said in the acts of a session."""


def session_script(before: Study, after: Study, name: str, event: int) -> str:
    """The script of a `session` over the study as it was opened: it forks and edits the branches that were made or
    changed since, and then tells the state of a branch after an event, its closing and its values.

    Raises NoScript: a session's branches leave by event number, it takes no branch of the study away, renames none, and
    has at most 64 acts.
    """
    old, new = (branch_tables(study) for study in (before, after))
    gone = [branch for branch in old if branch not in new]
    if gone:
        raise NoScript(f"a session takes no branch of its study away and renames none, and {gone[0]!r} is no more: "
                       "take "
                       "the study instead")
    acts = [act for branch in new for act in acts_for(branch, old.get(branch), new[branch])]
    acts += [{"kind": "rewind", "name": name, "event": event}, {"kind": "close", "name": name},
             {"kind": "values", "name": name}]
    if len(acts) > MOST_ACTS:
        raise NoScript(f"a session has at most {MOST_ACTS} acts, and this takes {len(acts)}: take the study instead")
    return "\n".join(section_lines("act", acts)).lstrip("\n") + "\n"


def branch_tables(study: Study) -> dict[str, Table]:
    """The tables of a study's branches by name, each with its list of edits. Raises NoScript for one that leaves at a
    time."""
    tables = {branch["name"]: {"edit": [], **branch} for branch in study.to_dict().get("branch", [])}
    for name, table in tables.items():
        if "at" not in table:
            raise NoScript(f"a session's branches leave by event number, and {name!r} leaves at a time: take the study "
                           "instead")
    return tables


def acts_for(name: str, old: Table | None, new: Table) -> list[Table]:
    """The acts that make a branch what it is now."""
    if old is None:
        act = {"kind": "fork", "name": name, "parent": new["parent"], "at": new["at"]}
        return [{**act, "edit": new["edit"]} if new["edit"] else act]
    if (old["parent"], old["at"]) != (new["parent"], new["at"]):
        raise NoScript(f"a session lets a branch leave where its study says, and {name!r} leaves elsewhere: take the "
                       "study instead")
    return [] if old["edit"] == new["edit"] else [{"kind": "edit", "name": name, "edit": new["edit"]}]
