"""The faults of a study's branches and of their edits: rules 30 to 35. A session's script has the same edits."""

from __future__ import annotations

from collections.abc import Callable

from biqsolur import ouch
from biqsolur.field_kinds import OUCH_FIELDS, field_faults
from biqsolur.rule_words import (
    AGENTS, BRANCH, BRANCH_STOPS, EDITS, EVERY, MOST_BRANCHES, RANGES, TABLES, TEXT, Table, band_faults, did_you_mean,
    group_fault, key_faults, kind_fault, ordinal, range_fault, range_faults, shown, stock_fault)


def branch_faults(study: Table, rule: int, place: int) -> list[str]:
    """Rules 30 to 33."""
    branches, version = study["branch"], study["version"]
    if rule == 30 and place >= MOST_BRANCHES[version]:
        return [f"there are {len(branches)} branches, and are to be at most {MOST_BRANCHES[version]}"]
    branch = branches[place]
    above = [other["name"] for other in branches[:place]] if rule > 30 else []
    if rule == 30:
        return branch_key_faults(branch, version)
    if rule == 31:
        name = branch["name"]
        if name == "root":
            return ["`name` is \"root\", which is the name of the run without edits"]
        if name in above:
            return [f"`name` is {shown(name)}, which the {ordinal(above.index(name))} `[[branch]]` has already"]
        return [f"`name` is {shown(name)}, and is to have 1 to 32 of a to z, 0 to 9, _ and -"]
    if rule == 32:
        later = branch["parent"] in [other.get("name") for other in branches[place + 1:]]
        hint = "; that one stands below" if later else did_you_mean(branch["parent"], ["root", *above])
        return [f"`parent` is {shown(branch['parent'])}, and is to be root or the name of a branch above"
                + ("; that is its own name" if branch["parent"] == branch["name"] else hint)]
    return stop_faults(study, place)


def branch_key_faults(branch: Table, version: int) -> list[str]:
    """Rule 30 for one branch."""
    stops = BRANCH_STOPS[version]
    if version == 1:
        later = ["; `when` is a key of studies of version 2"] if "when" in branch else []
        faults = key_faults(branch, {**BRANCH, **stops}, {"edit": TABLES})
        return [fault + "".join(later) if fault == "unknown key `when`" else fault for fault in faults]
    faults = key_faults(branch, BRANCH, {**stops, "edit": TABLES})
    if "at" in branch and "when" in branch:
        faults.append("`at` and `when` are both there, and one of them is to be")
    if "at" not in branch and "when" not in branch:
        faults.append("neither `at`, an event number, nor `when`, a time, is there, and one of them is to be")
    return faults


def stop_faults(study: Table, place: int) -> list[str]:
    """Rule 33."""
    branches, branch = study["branch"], study["branch"][place]
    key = "when" if "when" in branch else "at"
    ends = {"at": (0, study["events"], "0", "`events`"), "when": (study["open"], study["close"], "`open`", "`close`")}
    least, most, start, end = ends[key]
    parent = next((other for other in branches[:place] if other["name"] == branch["parent"]), {"at": 0})
    if parent.get(key, least - 1) >= least:
        least, start = parent[key], f"that of its parent {shown(branch['parent'])}"
    faults = []
    if not least <= branch[key] <= most:
        faults.append(f"`{key}` is {branch[key]:,}, and is to be {least:,} to {most:,}: from {start} to {end}")
    siblings = (other for other in branches[:place] if other["parent"] == branch["parent"])
    other = next((sibling for sibling in siblings if key not in sibling), None)
    if other is not None:
        faults.append(f"it has `{key}`, and the branch {shown(other['name'])} above, of the same parent "
                      f"{shown(branch['parent'])}, has `{'at' if key == 'when' else 'when'}`: all branches of one "
                      "parent are to have the same of the two")
    return faults


def edit_faults(study: Table, rule: int, place: int) -> list[str]:
    """Rules 34 and 35."""
    edits = study["branch"][place // 16]["edit"]
    many = [f"there are {len(edits)} edits, and are to be at most 16"] if len(edits) > 16 and place % 16 == 0 else []
    edit = edits[place % 16]
    faults = edit_key_faults(edit) if rule == 34 else edit_value_faults(edit, study)
    return many + ([f"edit {place % 16} (its {ordinal(place % 16)}): {faults[0]}", *faults[1:]] if faults else [])


def edit_key_faults(edit: Table) -> list[str]:
    """What is wrong with the keys of an edit."""
    wrong = kind_fault(edit["kind"], EDITS) if "kind" in edit else []
    return wrong or key_faults(edit, {"kind": TEXT, **EDITS.get(edit.get("kind", ""), {})})


def traders_of(study: Table) -> list[str]:
    """The kind of each trader, in order."""
    return [agent["kind"] for agent in study["agent"] for _ in range(agent.get("count", 1))]


def trader_fault(edit: Table, study: Table) -> list[str]:
    """That an edit names no trader, or nothing."""
    count = len(traders_of(study))
    if 1 <= edit["agent"] <= count:
        return []
    return [f"`agent` is {edit['agent']}, and is to be the number of a trader, 1 to {count} (each of an entry's "
            "`count` is one)"]


def parameter_faults(edit: Table, study: Table) -> list[str]:
    """Rule 35 for an edit of a trader's parameter."""
    faults = trader_fault(edit, study)
    if faults:
        return faults
    kind = traders_of(study)[edit["agent"] - 1]
    names = ["every", "wobble", "delay", *(key for key in AGENTS[kind] if key not in ("short", "long"))]
    if edit["name"] not in names:
        return [f"`name` is {shown(edit['name'])}, and trader {edit['agent']}, a {kind}, has {', '.join(names)}"
                + did_you_mean(edit["name"], names)]
    limits = EVERY if edit["name"] == "every" else RANGES[edit["name"]]
    return [fault + f" for `{edit['name']}`" for fault in range_fault("value", edit["value"], limits)]


def message_faults(text: str) -> list[str]:
    """What is wrong with an injected message."""
    if len(text) % 2:
        return [f"`message` has {len(text)} digits, and is to have two for each byte"]
    message = bytes.fromhex(text)
    orders: dict[str, type[ouch.Message]] = {"O": ouch.Enter, "X": ouch.Cancel}
    kind = orders.get(message[:1].decode("latin1"))
    if kind is None:
        return [f"`message` begins with {text[:2] or 'nothing'}, and is to begin with 4f (Enter Order, 49 bytes) or 58 "
                "(Cancel Order, 19 bytes)"]
    if len(message) != kind.SIZE:
        article = "an" if kind.NAME[0] in "AEIOU" else "a"
        return [f"`message` has {len(message)} bytes, and {article} {kind.NAME} ({text[:2]}) is to have {kind.SIZE}"]
    return [f"`message` has {fault}" for fault in field_faults(message, OUCH_FIELDS[kind.TYPE])]


# What is wrong with an edit of each kind: in itself, and in what it speaks of, which the study has.
EDIT_OWN_FAULTS: dict[str, Callable[[Table], list[str]]] = {
    "tick": lambda edit: band_faults(edit["bands"]),
    "fee": lambda edit: range_faults(edit, ("add", "take")),
    "halt": lambda edit: [],
    "resume": lambda edit: [],
    "latency": lambda edit: range_faults(edit, ("base", "jitter")),
    "agent": lambda edit: [],
    "silence": lambda edit: [],
    "inject": lambda edit: [*range_faults(edit, ("after",)), *message_faults(edit["message"])],
    "series": lambda edit: range_faults(edit, ("offset",)),
}


def edit_own_faults(edit: Table) -> list[str]:
    """What is wrong with an edit in itself, whatever the study is."""
    return EDIT_OWN_FAULTS[edit["kind"]](edit)


def edit_value_faults(edit: Table, study: Table) -> list[str]:
    """Rule 35 for one edit."""
    if edit["kind"] == "latency":
        faults = [*group_fault("from", edit["from"], study), *group_fault("to", edit["to"], study)]
    elif edit["kind"] == "agent":
        faults = parameter_faults(edit, study)
    else:
        faults = trader_fault(edit, study) if "agent" in edit else stock_fault(edit["stock"], study)
    return [*faults, *edit_own_faults(edit)]
