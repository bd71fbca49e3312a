"""Which rules hold at a state: ticks, fees, latencies and parameters of a study after its dated changes and edits.

A dated change is made with the first event that is not earlier than its date, before that event; an edit is made after
the event at which its branch leaves. So at one event changes come before edits.
"""

from __future__ import annotations

import copy
from typing import Any

import numpy

from biqsolur.explore.people import People
from biqsolur.explore.view import View

Table = dict[str, Any]


def rules_at(study: Table, view: View, event: int) -> Table:
    """The rules after an event of a branch: `stocks` (bands, add, take, each a table), `base` and `jitter`
    (nanoseconds, a row a sender's group), `exchange`, and `agents` (the parameters of each trader, from number 1)."""
    people = view.people
    rules: Table = {
        "stocks": [{name: copy.deepcopy(stock[name]) for name in ("symbol", "bands", "add", "take")}
                   for stock in study["stock"]],
        "base": copy.deepcopy(study["latency"]["base"]),
        "jitter": copy.deepcopy(study["latency"]["jitter"]),
        "exchange": dict(study["exchange"]),
        "agents": [people.parameters(agent) for agent in range(len(people.entries))],
    }
    for change in acts_until(study, view, event):
        apply(rules, change, people)
    return rules


def acts_until(study: Table, view: View, event: int) -> list[Table]:
    """The dated changes and edits that were made by the state after an event, in order."""
    acts: list[tuple[int, int, int, Table]] = []
    for place, change in enumerate(study.get("change", [])):
        made = int(numpy.searchsorted(view.times, change["time"])) + 1
        acts.append((made, 0, place, change))
    acts += [(made, 1, place, edit) for place, (made, _, edit) in enumerate(edits_of(study, view))]
    return [act for made, _, _, act in sorted(acts, key=lambda act: act[:3]) if made <= event]


def edits_of(study: Table, view: View) -> list[tuple[int, str, Table]]:
    """Each edit of a branch and its ancestors in order: the event after which it was made, its branch, its table."""
    tables = {branch["name"]: branch.get("edit", []) for branch in study.get("branch", [])}
    edits = view.branch.edits
    return [(int(event), name, tables[name][int(index)])
            for event, name, index in zip(edits["event"], edits["branch"], edits["index"])]


def apply(rules: Table, act: Table, people: People) -> None:
    """Makes one change or edit in a table of rules. What changes no rule (a halt, an order) changes nothing here."""
    kind = act["kind"]
    if kind in ("tick", "fee"):
        stock = next(stock for stock in rules["stocks"] if stock["symbol"] == act["stock"])
        stock.update({name: copy.deepcopy(act[name]) for name in (("bands",) if kind == "tick" else ("add", "take"))})
    elif kind == "latency":
        for name in ("base", "jitter"):
            rules[name][act["from"]][act["to"]] = act[name]
    elif kind == "agent":
        rules["agents"][act["agent"]] = {**rules["agents"][act["agent"]], act["name"]: act["value"]}
