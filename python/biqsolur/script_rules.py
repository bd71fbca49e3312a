"""The faults of the script of a `session`: which act, which key, and what is asked there.

The program decides which act is refused; here it is looked at. The rules are those of docs/REFUSALS.md. A script is
refused for what it says (status 15), or by the tree of branches as it stands at an act (status 16).
"""

from __future__ import annotations

import re
import tomllib

from biqsolur.branch_rules import edit_key_faults, edit_own_faults, edit_value_faults
from biqsolur.rule_words import (
    MOST_EVENTS, NUMBER, TABLES, TEXT, Table, did_you_mean, is_number, is_of_type, key_faults, kind_fault, ordinal,
    shown, shown_key)
from biqsolur.toml_faults import no_toml

WHOLE = 64                  # the act that stands for the whole script
MOST_ACTS, MOST_EDITS, MOST_BRANCHES = 64, 16, 256
MOST_EVENT = 9_999_999
NEW_NAME = re.compile(r"[a-z0-9_-]{1,32}")
ACTS: dict[str, dict[str, str]] = {
    "fork": {"name": TEXT, "parent": TEXT, "at": NUMBER}, "undo": {}, "edit": {"name": TEXT, "edit": TABLES},
    "rewind": {"name": TEXT, "event": NUMBER}, "close": {"name": TEXT}, "values": {"name": TEXT},
}
ACTS_MAY = {"fork": {"edit": TABLES}}
ASKED = {
    15: "each act has a known kind, the keys of its kind, of their types, and no other; `at` and `event` are 0 to "
        "9,999,999, names have 1 to 32 bytes, and edits keep the rules of a branch's edits",
    16: "the branches that it names are in the tree as it then stands; a fork's name is new, and its `at` neither "
        "below its parent's nor above `events`; the root is neither undone nor edited",
}


def explain_script(data: bytes, status: int, act: int, study: Table | None = None) -> str:
    """What is wrong with an act of a script (64: with the whole), in a sentence; where nothing is seen there, what is
    asked."""
    script = script_of(data)
    if script is None:
        return f"the script: {no_toml(data)}"
    if act == WHOLE:
        return "the script: " + "; ".join(whole_faults(script, study) or ["this is asked: the one key `act`, an array "
                                                                          "of 1 to 64 tables, and a study whose "
                                                                          "branches leave at events"])
    acts = acts_of(script)
    if act >= len(acts):
        return f"act {act}: this is asked: {ASKED[status]}"
    faults = act_faults(acts[act], study) if status == 15 else tree_faults(acts, act, study)
    return f"{act_name(acts[act], act)}: " + "; ".join(faults or [f"this is asked: {ASKED[status]}"])


def first_script_fault(data: bytes, study: Table | None = None) -> tuple[int, int] | None:
    """(status, act) of the first fault that is seen, or None; without the study only what the script alone shows."""
    script = script_of(data)
    if script is None or whole_faults(script, study):
        return 15, WHOLE
    acts = acts_of(script)
    for number, act in enumerate(acts):
        if act_faults(act, study):
            return 15, number
    if study is None:
        return None
    bad = (number for number in range(len(acts)) if tree_faults(acts, number, study))
    return next(((16, number) for number in bad), None)


def explain_no_event(data: bytes, act: int, last: int) -> str:
    """Why an act asks for an event that its branch hasn't."""
    acts = acts_of(script_of(data) or {})
    if act >= len(acts):
        return f"act {act}: its branch's last event is {last:,}"
    return (f"{act_name(acts[act], act)}: `event` is {shown(acts[act].get('event'))}, and is to be 0 to {last:,}, the "
            f"last event of the branch {shown(acts[act].get('name'))} in the tree as it then stands")


def script_of(data: bytes) -> Table | None:
    """The script as Python's reader of TOML has it, or None."""
    try:
        return tomllib.loads(data.decode("utf-8-sig"))
    except (ValueError, RecursionError):
        return None


def acts_of(script: Table) -> list[Table]:
    """The acts of a script that are tables."""
    acts = script.get("act")
    return acts if isinstance(acts, list) and is_of_type(acts, TABLES) else []


def act_name(act: Table, number: int) -> str:
    """How an act is called."""
    kind = act.get("kind")
    return f"act {number} (the {ordinal(number)} `[[act]]`" + (f", {shown(kind)})" if isinstance(kind, str) else ")")


# ---------------------------------------------------------------- what the script says: status 15

def whole_faults(script: Table, study: Table | None) -> list[str]:
    """What is wrong with the script as a whole."""
    faults = [f"unknown key {shown_key(key)}; `act` is the one key of a script" + did_you_mean(key, ["act"])
              for key in script if key != "act"]
    acts = script.get("act")
    if acts is None:
        faults.append("the key `act` is missing: an array of tables, each as `[[act]]`")
    elif not is_of_type(acts, TABLES):
        brackets = "; each act stands in double brackets, `[[act]]`" if isinstance(acts, dict) else ""
        faults.append(f"`act` is {shown(acts)}, and is to be {TABLES}{brackets}")
    elif not 1 <= len(acts) <= MOST_ACTS:
        faults.append(f"there are {len(acts)} acts, and are to be 1 to {MOST_ACTS}")
    timed = [branch["name"] for branch in (study or {}).get("branch", []) if "when" in branch]
    if timed:
        faults.append(f"the study's branch {shown(timed[0])} leaves at a time (`when`), and in a session all branches "
                      "are to leave after a number of events (`at`)")
    return faults


def act_faults(act: Table, study: Table | None) -> list[str]:
    """What is wrong with an act, whatever the tree is."""
    kind = act.get("kind")
    wrong = kind_fault(kind, ACTS) if "kind" in act else []
    if wrong:
        return wrong
    own = ACTS.get(kind, {}) if isinstance(kind, str) else {}
    faults = key_faults(act, {"kind": TEXT, **own}, ACTS_MAY.get(str(kind), {}))
    if faults:
        return faults
    return [*name_faults(act), *event_faults(act), *edit_list_faults(act.get("edit", []), study)]


def name_faults(act: Table) -> list[str]:
    """What is wrong with the names of an act."""
    faults = []
    for key in ("name", "parent"):
        if key not in act:
            continue
        name = act[key]
        if act["kind"] == "fork" and key == "name":
            if not NEW_NAME.fullmatch(name):
                faults.append(f"`name` is {shown(name)}, and is to have 1 to 32 of a to z, 0 to 9, _ and -")
        elif not 1 <= len(name.encode()) <= 32:
            faults.append(f"`{key}` is {shown(name)} of {len(name.encode())} bytes, and is to have 1 to 32")
    return faults


def event_faults(act: Table) -> list[str]:
    """What is wrong with the event number of an act."""
    return [f"`{key}` is {shown(act[key])}, and is to be 0 to {MOST_EVENT:,}" for key in ("at", "event")
            if key in act and not (is_number(act[key]) and 0 <= act[key] <= MOST_EVENT)]


def edit_list_faults(edits: list[Table], study: Table | None) -> list[str]:
    """What is wrong with the edits of an act: the first fault, as in a branch."""
    if len(edits) > MOST_EDITS:
        return [f"there are {len(edits)} edits, and are to be at most {MOST_EDITS}"]

    def value_faults(edit: Table) -> list[str]:
        return edit_own_faults(edit) if study is None else edit_value_faults(edit, study)
    for look in (edit_key_faults, value_faults):
        for place, edit in enumerate(edits):
            faults = look(edit)
            if faults:
                return [f"edit {place} (its {ordinal(place)}): {faults[0]}", *faults[1:]]
    return []


# ---------------------------------------------------------------- what the tree takes: status 16

def tree_at(acts: list[Table], study: Table) -> list[tuple[str, int]]:
    """(name, `at`) of each branch of the tree behind these acts; the root first."""
    tree = [("root", 0), *((branch["name"], branch["at"]) for branch in study.get("branch", []))]
    for act in acts:
        if act["kind"] == "fork":
            tree.append((act["name"], act["at"]))
        elif act["kind"] == "undo":
            tree.pop()
    return tree


def tree_faults(acts: list[Table], number: int, study: Table | None) -> list[str]:
    """What of an act the tree refuses, as it stands behind the acts before it."""
    if study is None:
        return []
    act, tree = acts[number], tree_at(acts[:number], study)
    if act["kind"] == "undo":
        return [] if len(tree) > 1 else ["there is no branch beside the root any more, and the root stays"]
    if act["kind"] == "fork":
        return fork_faults(act, tree, study["events"], acts[:number], study)
    if act["name"] not in dict(tree):
        return [unknown_branch("name", act["name"], tree, acts[:number], study)]
    if act["kind"] == "edit" and act["name"] == "root":
        return ["`name` is \"root\", which has no edits: fork a branch of it"]
    return []


def fork_faults(act: Table, tree: list[tuple[str, int]], events: int, before: list[Table], study: Table) -> list[str]:
    """What of a fork the tree refuses."""
    stops = dict(tree)
    if act["parent"] not in stops:
        return [unknown_branch("parent", act["parent"], tree, before, study)]
    faults = []
    if act["name"] in stops:
        faults.append(f"`name` is {shown(act['name'])}, which is the name of a branch already")
    least = stops[act["parent"]]
    if not least <= act["at"] <= events:
        faults.append(f"`at` is {act['at']:,}, and is to be {least:,} to {events:,}: not below that of its parent "
                      f"{shown(act['parent'])}, not above the study's `events`")
    if len(tree) + 1 > MOST_BRANCHES:
        faults.append(f"there would be {len(tree) + 1} branches with the root, and are to be at most {MOST_BRANCHES}")
    if (len(tree) + 1) * events > MOST_EVENTS:
        faults.append(f"{len(tree) + 1} branches with the root times `events`, {events:,}, is "
                      f"{(len(tree) + 1) * events:,}, and is to be at most {MOST_EVENTS:,}")
    return faults


def unknown_branch(key: str, name: str, tree: list[tuple[str, int]], before: list[Table], study: Table) -> str:
    """That a branch isn't in the tree."""
    names = [branch for branch, _ in tree]
    was = any(name in dict(tree_at(before[:count], study)) for count in range(len(before)))
    hint = "; it was undone before" if was else did_you_mean(name, names)
    return f"`{key}` is {shown(name)}, and is to be a branch of the tree as it then stands: {', '.join(names[:12])}" \
        + (", ..." if len(names) > 12 else "") + hint
